// Networks whose root relaxations are solved by `leaf.sh`, and the simplex on a relaxation in plain Rust, to compare pivots, values and
// times with the proved program.
//
//   leaf write FAMILY NUMBERS..     writes the text of an instance of the family
//   leaf solve WIDTH [watch]        runs the simplex on the program of its input, which `npp_bench_nodes` writes by its stage `text`, and
//                                   prints the pivots, the updates, the bits of the widest number where they are watched, the value,
//                                   the milliseconds of processor time, and the percentages of the clock that the choice of leaving
//                                   rows and the pivots take
//   leaf lp                         writes that program in the format LP
//
// An update is an `a - b * c` in which neither `b` nor `c` is 0, in a pivot.

#[allow(dead_code)]
mod rule;
#[allow(dead_code)]
mod tableau;

use rule::{Fraction, gcd};
use std::env;
use std::io::{self, Read, Write};
use std::time::Instant;
use tableau::{Program, Run, ZERO, solve};

// ---- instances

struct Network {
    text: String,
    nodes: u64,
    seed: u64,
}

impl Network {
    fn of(nodes: u64, seed: u64) -> Network {
        let mut text = String::from("npp 1\n");
        for node in 0..nodes {
            text += &format!("node v{node}\n");
        }
        Network { text, nodes, seed }
    }

    // A number below the limit, of a fixed rule.
    fn below(&mut self, limit: u64) -> u64 {
        self.seed = self.seed.wrapping_mul(6_364_136_223_846_793_005).wrapping_add(1_442_695_040_888_963_407);
        (self.seed >> 33) % limit
    }

    fn arc(&mut self, word: &str, tail: u64, head: u64, cost: u64) {
        self.text += &format!("{word} v{tail} v{head} {cost}\n");
    }

    fn both(&mut self, word: &str, a: u64, b: u64, cost: u64) {
        self.arc(word, a, b, cost);
        self.arc(word, b, a, cost);
    }

    // So many commodities, each between two nodes below a limit.
    fn pairs(&mut self, count: u64, limit: u64) {
        for _ in 0..count {
            let origin = self.below(limit);
            let destination = (origin + 1 + self.below(limit - 1)) % limit;
            let demand = 1 + self.below(20);
            self.text += &format!("pair v{origin} v{destination} {demand}\n");
        }
    }
}

// A square of nodes with toll-free arcs both ways, and so many toll arcs that save some of their cost.
fn grid(side: u64, tolls: u64, pairs: u64, seed: u64) -> Network {
    let mut net = Network::of(side * side, seed);
    for row in 0..side {
        for column in 0..side {
            let node = row * side + column;
            let (right, down) = (10 + net.below(6), 10 + net.below(6));
            if column + 1 < side {
                net.both("free", node, node + 1, right);
            }
            if row + 1 < side {
                net.both("free", node, node + side, down);
            }
        }
    }
    for _ in 0..tolls {
        let (row, column) = (net.below(side), net.below(side - 1));
        let cost = 3 + net.below(4);
        net.arc("toll", row * side + column, row * side + column + 1, cost);
    }
    net.pairs(pairs, side * side);
    net
}

// A hub that each of some leaves reaches by a toll arc, and the hub the leaf; a toll-free ring of all leaves.
fn star(leaves: u64, pairs: u64, seed: u64) -> Network {
    let mut net = Network::of(leaves + 1, seed);
    for leaf in 0..leaves {
        let (there, back) = (1 + net.below(3), 1 + net.below(3));
        net.arc("toll", leaf, leaves, there);
        net.arc("toll", leaves, leaf, back);
        let along = 8 + net.below(5);
        net.both("free", leaf, (leaf + 1) % leaves, along);
    }
    net.pairs(pairs, leaves);
    net
}

// A road of toll arcs one way beside a toll-free road both ways, with ways on and off at each third place.
fn road(length: u64, pairs: u64, seed: u64) -> Network {
    let mut net = Network::of(2 * length, seed);
    for place in 0..length {
        if place + 1 < length {
            let (fast, slow) = (3 + net.below(3), 11 + net.below(4));
            net.arc("toll", length + place, length + place + 1, fast);
            net.both("free", place, place + 1, slow);
        }
        if place % 3 == 0 || place + 1 == length {
            net.both("free", place, length + place, 5);
        }
    }
    for _ in 0..pairs {
        let origin = net.below(length - 3);
        let destination = origin + 3 + net.below(length - origin - 3);
        let demand = 1 + net.below(20);
        net.text += &format!("pair v{origin} v{destination} {demand}\n");
    }
    net
}

// A toll-free ring of all nodes and arcs drawn at random, so many of which are toll arcs.
fn random(nodes: u64, arcs: u64, tolls: u64, pairs: u64, seed: u64) -> Network {
    let mut net = Network::of(nodes, seed);
    for node in 0..nodes {
        let along = 5 + net.below(5);
        net.both("free", node, (node + 1) % nodes, along);
    }
    for number in 0..arcs {
        let tail = net.below(nodes);
        let head = (tail + 1 + net.below(nodes - 1)) % nodes;
        let is_toll = number < tolls;
        let cost = if is_toll { 1 + net.below(10) } else { 10 + net.below(20) };
        net.arc(if is_toll { "toll" } else { "free" }, tail, head, cost);
    }
    let limit = net.nodes;
    net.pairs(pairs, limit);
    net
}

fn family(name: &str, n: &[u64]) -> Network {
    match name {
        "grid" => grid(n[0], n[1], n[2], n[3]),
        "star" => star(n[0], n[1], n[2]),
        "road" => road(n[0], n[1], n[2]),
        "random" => random(n[0], n[1], n[2], n[3], n[4]),
        _ => panic!("no such family"),
    }
}

// ---- programs

fn fraction(text: &str) -> Fraction {
    let (num, den) = text.split_once('/').unwrap_or((text, "1"));
    let (num, den): (i128, u128) = (num.parse().unwrap(), den.parse().unwrap());
    let g = gcd(num.unsigned_abs(), den).max(1);
    Fraction { num: num / g as i128, den: den / g }
}

// Columns with their numbers, up to a word without a colon.
fn entries<'a>(words: &mut impl Iterator<Item = &'a str>) -> Vec<(usize, Fraction)> {
    words.map_while(|word| word.split_once(':')).map(|(column, number)| (column.parse().unwrap(), fraction(number))).collect()
}

fn read_program(text: &str) -> Program {
    let mut program = Program { columns: 0, rows: Vec::new(), right: Vec::new(), goal: Vec::new() };
    for line in text.lines() {
        let mut words = line.split_whitespace();
        match words.next() {
            Some("columns") => program.columns = words.next().unwrap().parse().unwrap(),
            Some("goal") => program.goal = entries(&mut words).into_iter().map(|entry| entry.1).collect(),
            Some("row") => {
                program.right.push(fraction(line.rsplit(' ').next().unwrap()));
                program.rows.push(entries(&mut words));
            }
            _ => panic!("no line of a program"),
        }
    }
    program
}

fn shown(number: Fraction) -> String {
    if number.den == 1 { number.num.to_string() } else { format!("{}/{}", number.num, number.den) }
}

// The milliseconds that this program has had a processor.
fn on_processor() -> f64 {
    let text = std::fs::read_to_string("/proc/self/schedstat").unwrap();
    text.split_whitespace().next().unwrap().parse::<f64>().unwrap() / 1e6
}

fn print_solved(program: &Program, width: u32, is_watched: bool) {
    let mut run = Run::of(None);
    run.widest = is_watched.then_some(0);
    let (begin, before) = (Instant::now(), on_processor());
    let value = solve(program, 1 << (width - 1), &mut run);
    let (all, milliseconds) = (begin.elapsed().as_secs_f64(), on_processor() - before);
    println!(
        "{} {} {} {} {:.2} {:.0} {:.0}",
        run.pivots,
        run.updates,
        run.widest.unwrap_or(0),
        value.map_or("none".into(), shown),
        milliseconds,
        100.0 * run.choice.as_secs_f64() / all,
        100.0 * run.pivoting.as_secs_f64() / all
    );
}

// All numbers are whole, as those of a relaxation without cuts are.
fn write_terms(output: &mut impl Write, entries: &[(usize, Fraction)]) -> io::Result<()> {
    for (column, number) in entries {
        write!(output, " {} {} x{column}", if number.num < 0 { '-' } else { '+' }, number.num.unsigned_abs())?;
    }
    Ok(())
}

fn write_lp(program: &Program) -> io::Result<()> {
    let mut output = io::BufWriter::new(io::stdout().lock());
    write!(output, "Maximize\n goal:")?;
    let goal: Vec<_> = program.goal.iter().copied().enumerate().filter(|(_, number)| *number != ZERO).collect();
    write_terms(&mut output, if goal.is_empty() { &[(0, ZERO)] } else { &goal })?;
    writeln!(output, "\nSubject To")?;
    for (row, (entries, right)) in program.rows.iter().zip(&program.right).enumerate() {
        if !entries.is_empty() {
            write!(output, " r{row}:")?;
            write_terms(&mut output, entries)?;
            writeln!(output, " <= {}", right.num)?;
        }
    }
    writeln!(output, "End")
}

fn main() -> io::Result<()> {
    let words: Vec<String> = env::args().skip(1).collect();
    if words[0] == "write" {
        let numbers: Vec<u64> = words[2..].iter().map(|word| word.parse().unwrap()).collect();
        print!("{}", family(&words[1], &numbers).text);
        return Ok(());
    }
    let mut text = String::new();
    io::stdin().read_to_string(&mut text)?;
    let program = read_program(&text);
    match words[0].as_str() {
        "lp" => write_lp(&program)?,
        _ => print_solved(&program, words[1].parse().unwrap(), words.len() > 2),
    }
    Ok(())
}
