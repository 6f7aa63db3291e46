// All `a - b * c` over some fractions, by the rule of the crate `npp_frac` written in Rust, to compare times and answers with
// `npp_bench`.

mod rule;

use rule::{Fraction, divided, gcd, product, quotient, sum};
use std::io::{self, BufRead};

fn next(seed: u32) -> u32 {
    seed.wrapping_mul(1_664_525).wrapping_add(1_013_904_223)
}

fn fractions(bits: u32, count: u32) -> Vec<Fraction> {
    let mut values = Vec::new();
    let mut seed = 1;
    for _ in 0..count {
        let num = next(seed);
        seed = next(num);
        let length = if bits == 0 { 20 } else { bits };
        let top = i128::from((num >> 11) >> (20 - length)) - 1024;
        let bottom = if bits == 0 { 1 } else { u128::from((seed >> 11) >> (20 - length)) + 1 };
        let g = gcd(top.unsigned_abs(), bottom);
        values.push(Fraction { num: quotient(top, g), den: divided(bottom, g) });
    }
    values
}

fn pass(width: u32, bits: u32, count: u32) -> i128 {
    let limit = 1 << (width - 1);
    let values = fractions(bits, count);
    let mut total = 0i128;
    for a in &values {
        for b in &values {
            for c in &values {
                let answer = product(*b, *c, limit).and_then(|p| sum(*a, Fraction { num: -p.num, den: p.den }, limit));
                total = total.wrapping_add(answer.map_or(1, |d| d.num.wrapping_add(d.den as i128)));
            }
        }
    }
    total
}

fn main() {
    for line in io::stdin().lock().lines() {
        let words: Vec<u32> = line.unwrap().split_whitespace().map(|word| word.parse().unwrap()).collect();
        let (width, bits, count) = (words[0], words[1], words[2]);
        println!("width {width} bits {bits} count {count}: {}", pass(width, bits, count));
    }
}
