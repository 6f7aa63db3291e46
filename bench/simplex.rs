// The lexicographic simplex on a generated program, written in Rust over the rule of the crate `npp_frac`, to compare
// times and answers with `npp_bench`. On standard error it tells the updates, how often a number lost a product that is
// not 0, and the rows that had them.
//
// With arguments STRIDE and REPEAT (1 where it is left out) it prints instead the triples `a b c` of each update
// `a - b * c` in each STRIDE-th of these rows, as a line `triples WIDTH REPEAT n d n d ..` of the input of `npp_bench`.

mod rule;
mod tableau;

use rule::{Fraction, gcd, product};
use std::env;
use std::io::{self, BufRead, Write};
use tableau::{ONE, Program, Run, negated, solve};

fn spread(seed: u32, i: u32) -> u32 {
    let mixed = seed.wrapping_mul(2_654_435_769).wrapping_add(i.wrapping_mul(40_503));
    let mixed = (mixed ^ (mixed >> 15)).wrapping_mul(2_246_822_519);
    mixed ^ (mixed >> 13)
}

fn small(seed: u32, i: u32, most: u32) -> Fraction {
    if most < 2 {
        return ONE;
    }
    let num = u128::from(1 + spread(seed, i) % most);
    let den = u128::from(1 + spread(seed + 1, i) % most);
    let g = gcd(num, den);
    Fraction { num: (num / g) as i128, den: den / g }
}

fn times(a: Fraction, b: Fraction) -> Fraction {
    product(a, b, 1 << 126).unwrap()
}

fn length_of(i: u32, columns: u32) -> u32 {
    let half = columns / 2;
    if i == 0 || half == 0 { columns } else { 1 + spread(11, i) % half }
}

fn first_column(i: u32, columns: u32) -> u32 {
    let places = columns - length_of(i, columns);
    if places == 0 { 0 } else { spread(12, i) % places }
}

fn program(rows: u32, columns: u32, most: u32) -> Program {
    let mut lines = Vec::new();
    let mut right = Vec::new();
    for i in 0..rows {
        let (start, length) = (first_column(i, columns), length_of(i, columns));
        let is_lower = i % 4 == 3;
        let mut line = Vec::new();
        for j in start..start + length {
            let unit = times(small(21, i, most), small(23, j, most));
            line.push((j as usize, if is_lower { negated(unit) } else { unit }));
        }
        let (middle, room) = (3 * length, spread(14, i) % 50);
        let whole = if is_lower { -i128::from(middle.saturating_sub(room)) } else { i128::from(middle + room) };
        right.push(times(Fraction { num: whole, den: 1 }, small(21, i, most)));
        lines.push(line);
    }
    let goal = (0..columns)
        .map(|j| times(Fraction { num: i128::from(1 + spread(15, j) % 20), den: 1 }, small(23, j, most)))
        .collect();
    Program { columns: columns as usize, rows: lines, right, goal }
}

fn print_triples(width: u32, repeat: u64, triples: &[[Fraction; 3]]) -> io::Result<()> {
    let mut output = io::BufWriter::new(io::stdout().lock());
    write!(output, "triples {width} {repeat}")?;
    for number in triples.iter().flatten() {
        write!(output, " {} {}", number.num, number.den)?;
    }
    writeln!(output)
}

fn main() -> io::Result<()> {
    let arguments: Vec<u64> = env::args().skip(1).map(|word| word.parse().unwrap()).collect();
    for line in io::stdin().lock().lines() {
        let words: Vec<u32> = line?.split_whitespace().skip(1).map(|word| word.parse().unwrap()).collect();
        let (width, rows, columns, most) = (words[0], words[1], words[2], words[3]);
        let mut run = Run::of(arguments.first().copied());
        let value = solve(&program(rows, columns, most), 1 << (width - 1), &mut run);
        if run.stride.is_some() {
            print_triples(width, arguments.get(1).copied().unwrap_or(1), &run.triples)?;
            continue;
        }
        let end = match value {
            Some(value) => format!("{} pivots, optimal {}/{}", run.pivots, value.num, value.den),
            None => "no optimum".into(),
        };
        println!("width {width} rows {rows} columns {columns} most {most}: {end}");
        eprintln!("{} updates {} rows", run.updates, run.rows);
    }
    Ok(())
}
