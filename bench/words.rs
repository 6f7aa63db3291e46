// The rule of the crate `npp_frac` written in plain Rust in words of the width: 32 bits and 64 bits, with a sum or a product
// formed in words of twice the width where it needs them. It takes the same short ways, and one for equal denominators.
// It reads the lines of `npp_bench`: `WIDTH BITS COUNT` and `triples WIDTH REPEAT n d n d ..`.

use std::io::{self, BufRead};

macro_rules! fractions {
    ($module:ident, $word:ty, $size:ty, $long:ty, $limit:expr) => {
        mod $module {
            #[derive(Clone, Copy)]
            pub struct Fraction {
                pub num: $word,
                pub den: $size,
            }

            const LIMIT: $long = $limit;

            #[inline(always)]
            pub fn gcd(a: $size, b: $size) -> $size {
                if a == 1 || b == 1 { 1 } else { gcd_of(a, b) }
            }

            #[inline(never)]
            fn gcd_of(a: $size, b: $size) -> $size {
                let (a, b) = if b < a >> 6 && b != 0 {
                    (b, a % b)
                } else if a < b >> 6 && a != 0 {
                    (a, b % a)
                } else {
                    (a, b)
                };
                if a == 0 || b == 0 {
                    return a | b;
                }
                let (mut x, mut y) = (a >> a.trailing_zeros(), b >> b.trailing_zeros());
                while x != y {
                    let difference = x.wrapping_sub(y);
                    let distance = if x < y { y - x } else { difference };
                    y = x.min(y);
                    x = distance >> difference.trailing_zeros();
                }
                x << (a | b).trailing_zeros()
            }

            #[inline(always)]
            fn divided(a: $size, by: $size) -> $size {
                if by == 1 { a } else { a / by }
            }

            #[inline(always)]
            pub fn quotient(a: $word, by: $size) -> $word {
                if by == 1 {
                    return a;
                }
                let size = (a.unsigned_abs() / by) as $word;
                if a < 0 { -size } else { size }
            }

            #[inline(always)]
            fn below(value: $long) -> Option<$word> {
                if -LIMIT < value && value < LIMIT { Some(value as $word) } else { None }
            }

            #[inline(always)]
            pub fn sum(a: Fraction, b: Fraction) -> Option<Fraction> {
                if a.den == b.den {
                    let num = below(a.num as $long + b.num as $long)?;
                    if a.den == 1 {
                        return Some(Fraction { num, den: 1 });
                    }
                    let h = gcd(num.unsigned_abs(), a.den);
                    return Some(Fraction { num: quotient(num, h), den: divided(a.den, h) });
                }
                fraction_sum(a, b)
            }

            #[inline(never)]
            fn fraction_sum(a: Fraction, b: Fraction) -> Option<Fraction> {
                let g = gcd(a.den, b.den);
                let (a_den, b_den) = (divided(a.den, g), divided(b.den, g));
                let left = below(a.num as $long * b_den as $long)?;
                let right = below(b.num as $long * a_den as $long)?;
                let total = below(left as $long + right as $long)?;
                let den = below(a_den as $long * b.den as $long)? as $size;
                let h = gcd(total.unsigned_abs(), g);
                Some(Fraction { num: quotient(total, h), den: divided(den, h) })
            }

            #[inline(always)]
            pub fn product(a: Fraction, b: Fraction) -> Option<Fraction> {
                if a.den == 1 && b.den == 1 {
                    let num = below(a.num as $long * b.num as $long)?;
                    return Some(Fraction { num, den: 1 });
                }
                fraction_product(a, b)
            }

            #[inline(never)]
            fn fraction_product(a: Fraction, b: Fraction) -> Option<Fraction> {
                let g = gcd(a.num.unsigned_abs(), b.den);
                let h = gcd(b.num.unsigned_abs(), a.den);
                let num = below(quotient(a.num, g) as $long * quotient(b.num, h) as $long)?;
                let den = below(divided(a.den, h) as $long * divided(b.den, g) as $long)? as $size;
                Some(Fraction { num, den })
            }

            #[inline(always)]
            pub fn cell(a: Fraction, b: Fraction, c: Fraction) -> i128 {
                let answer = product(b, c).and_then(|p| sum(a, Fraction { num: -p.num, den: p.den }));
                answer.map_or(1, |d| i128::from(d.num) + i128::from(d.den))
            }

            pub fn of(num: i64, den: i64) -> Fraction {
                let (num, den) = if den < 0 { (-num, -den) } else { (num, den) };
                let (num, den) = (num as $word, den as $size);
                let g = gcd(num.unsigned_abs(), den);
                Fraction { num: quotient(num, g), den: divided(den, g) }
            }

            pub fn pass(bits: u32, count: u32) -> i128 {
                let mut values = Vec::new();
                let mut seed = 1;
                for _ in 0..count {
                    let num = super::next(seed);
                    seed = super::next(num);
                    let length = if bits == 0 { 20 } else { bits };
                    let bottom = if bits == 0 { 1 } else { i64::from((seed >> 11) >> (20 - length)) + 1 };
                    values.push(of(i64::from((num >> 11) >> (20 - length)) - 1024, bottom));
                }
                let mut total = 0i128;
                for a in &values {
                    for b in &values {
                        for c in &values {
                            total = total.wrapping_add(cell(*a, *b, *c));
                        }
                    }
                }
                total
            }

            pub fn triples(repeat: u32, numbers: &[i64]) -> (usize, i128) {
                let triples: Vec<[Fraction; 3]> = numbers.chunks(6).map(|t| [of(t[0], t[1]), of(t[2], t[3]), of(t[4], t[5])]).collect();
                let mut total = 0i128;
                for _ in 0..repeat {
                    for [a, b, c] in &triples {
                        total = total.wrapping_add(cell(*a, *b, *c));
                    }
                }
                (triples.len(), total)
            }
        }
    };
}

fractions!(words32, i32, u32, i64, 1 << 31);
fractions!(words64, i64, u64, i128, 1 << 63);

fn next(seed: u32) -> u32 {
    seed.wrapping_mul(1_664_525).wrapping_add(1_013_904_223)
}

fn main() {
    for line in io::stdin().lock().lines() {
        let line = line.unwrap();
        if let Some(list) = line.strip_prefix("triples ") {
            let numbers: Vec<i64> = list.split_whitespace().map(|word| word.parse().unwrap()).collect();
            let (width, repeat) = (numbers[0], numbers[1] as u32);
            let (count, sum) = if width == 32 { words32::triples(repeat, &numbers[2..]) } else { words64::triples(repeat, &numbers[2..]) };
            println!("width {width} triples {count} repeated {repeat}: {sum}");
            continue;
        }
        let words: Vec<u32> = line.split_whitespace().map(|word| word.parse().unwrap()).collect();
        let (width, bits, count) = (words[0], words[1], words[2]);
        let sum = if width == 32 { words32::pass(bits, count) } else { words64::pass(bits, count) };
        println!("width {width} bits {bits} count {count}: {sum}");
    }
}
