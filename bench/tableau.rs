// The lexicographic simplex of the crate `npp_simplex` written in Rust over the rule of `npp_frac`: the same pivots and the same answer. It
// counts what it does.

use crate::rule::{Fraction, product, sum};
use std::time::{Duration, Instant};

pub const ZERO: Fraction = Fraction { num: 0, den: 1 };
pub const ONE: Fraction = Fraction { num: 1, den: 1 };

pub fn negated(a: Fraction) -> Fraction {
    Fraction { num: -a.num, den: a.den }
}

fn ratio(a: Fraction, b: Fraction, limit: u128) -> Option<Fraction> {
    let turned = if b.num < 0 {
        Fraction { num: -(b.den as i128), den: b.num.unsigned_abs() }
    } else {
        Fraction { num: b.den as i128, den: b.num as u128 }
    };
    product(a, turned, limit)
}

// The upper and the lower 128 bits of a product.
fn long_product(a: u128, b: u128) -> (u128, u128) {
    const LOW: u128 = u64::MAX as u128;
    let (a1, a0, b1, b0) = (a >> 64, a & LOW, b >> 64, b & LOW);
    let middle = a1 * b0 + ((a0 * b0) >> 64);
    let (middle, carry) = middle.overflowing_add(a0 * b1);
    (a1 * b1 + (middle >> 64) + (u128::from(carry) << 64), (middle << 64) | ((a0 * b0) & LOW))
}

fn is_less(a: Fraction, b: Fraction) -> bool {
    if let (Some(left), Some(right)) = (a.num.checked_mul(b.den as i128), b.num.checked_mul(a.den as i128)) {
        return left < right;
    }
    if (a.num < 0) != (b.num < 0) {
        return a.num < 0;
    }
    let left = long_product(a.num.unsigned_abs(), b.den);
    let right = long_product(b.num.unsigned_abs(), a.den);
    if a.num < 0 { right < left } else { left < right }
}

pub struct Program {
    pub columns: usize,
    pub rows: Vec<Vec<(usize, Fraction)>>,
    pub right: Vec<Fraction>,
    pub goal: Vec<Fraction>,
}

// What is counted in a run.
pub struct Run {
    pub pivots: u64,
    pub updates: u64,
    // The rows that lost a multiple of another.
    pub rows: u64,
    // The bits of the widest numerator or denominator, where they are watched.
    pub widest: Option<u32>,
    // What the choice of the leaving rows takes, and what the pivots take.
    pub choice: Duration,
    pub pivoting: Duration,
    // Each row whose number this divides is listed, or none.
    pub stride: Option<u64>,
    pub triples: Vec<[Fraction; 3]>,
}

impl Run {
    pub fn of(stride: Option<u64>) -> Run {
        let none = Duration::ZERO;
        Run { pivots: 0, updates: 0, rows: 0, widest: None, choice: none, pivoting: none, stride, triples: Vec::new() }
    }

    // Counts a row that is reduced, and whether it is listed.
    fn is_listed(&mut self) -> bool {
        self.rows += 1;
        self.stride.is_some_and(|stride| self.rows % stride == 0)
    }

    fn watch(&mut self, number: Fraction) {
        if let Some(widest) = self.widest {
            let bits = |size: u128| 128 - size.leading_zeros();
            self.widest = Some(widest.max(bits(number.num.unsigned_abs())).max(bits(number.den)));
        }
    }
}

// The places of a tableau: a row for each of the program and two goal rows, and a column for each of the program and each
// slack, the extra column of phase one and the right side.
struct Tableau {
    rows: usize,
    columns: usize,
    cells: Vec<Fraction>,
    basis: Vec<usize>,
}

#[derive(Clone, Copy, PartialEq)]
enum Stage {
    Entry,
    PhaseOne,
    PhaseTwo,
}

impl Tableau {
    fn extra(&self) -> usize {
        self.columns + self.rows
    }

    fn right(&self) -> usize {
        self.extra() + 1
    }

    fn width(&self) -> usize {
        self.extra() + 2
    }

    fn at(&self, row: usize, column: usize) -> Fraction {
        self.cells[row * self.width() + column]
    }

    fn set(&mut self, row: usize, column: usize, number: Fraction) {
        let width = self.width();
        self.cells[row * width + column] = number;
    }

    fn of(p: &Program, phase_one: bool) -> Tableau {
        let (rows, columns) = (p.rows.len(), p.columns);
        let cells = vec![ZERO; (rows + 2) * (columns + rows + 2)];
        let mut t = Tableau { rows, columns, cells, basis: (columns..columns + rows).collect() };
        let (extra, right) = (t.extra(), t.right());
        for (i, row) in p.rows.iter().enumerate() {
            for (j, value) in row {
                t.set(i, *j, *value);
            }
            t.set(i, columns + i, ONE);
            t.set(i, right, p.right[i]);
            if phase_one {
                t.set(i, extra, negated(ONE));
            }
        }
        if phase_one {
            t.set(rows, extra, negated(ONE));
        }
        for (j, value) in p.goal.iter().enumerate() {
            t.set(rows + 1, j, *value);
        }
        t
    }

    fn entering(&self, stage: Stage) -> Option<usize> {
        let goal = match stage {
            Stage::Entry => return Some(self.extra()),
            Stage::PhaseOne => self.rows,
            Stage::PhaseTwo => self.rows + 1,
        };
        (0..self.extra()).find(|j| self.at(goal, *j).num > 0)
    }

    // The row that leaves, of some rows, or None where a quotient does not fit.
    fn leaving(&self, stage: Stage, column: usize, mut rows: Vec<usize>, limit: u128) -> Option<usize> {
        for key in std::iter::once(self.right()).chain(self.columns..self.extra()) {
            if rows.len() < 2 {
                break;
            }
            let mut numbers = Vec::new();
            for i in &rows {
                let entry = self.at(*i, key);
                numbers.push(if stage == Stage::Entry { entry } else { ratio(entry, self.at(*i, column), limit)? });
            }
            let best = numbers.iter().fold(numbers[0], |best, q| if is_less(*q, best) { *q } else { best });
            let mut number = numbers.iter();
            rows.retain(|_| *number.next().unwrap() == best);
        }
        Some(rows[0])
    }

    // A pivot, counted in the run, or None where a number does not fit.
    fn pivot(&mut self, row: usize, column: usize, limit: u128, run: &mut Run) -> Option<()> {
        let divisor = self.at(row, column);
        let mut divided = Vec::new();
        for j in 0..self.width() {
            let number = ratio(self.at(row, j), divisor, limit)?;
            self.set(row, j, number);
            run.watch(number);
            if number.num != 0 {
                divided.push((j, number));
            }
        }
        for i in 0..self.rows + 2 {
            let factor = self.at(i, column);
            if i == row || factor.num == 0 {
                continue;
            }
            if run.is_listed() {
                run.triples.extend(divided.iter().map(|(j, number)| [self.at(i, *j), factor, *number]));
            }
            for (j, number) in &divided {
                let difference = sum(self.at(i, *j), negated(product(factor, *number, limit)?), limit)?;
                self.set(i, *j, difference);
                run.watch(difference);
            }
            run.updates += divided.len() as u64;
        }
        self.basis[row] = column;
        Some(())
    }

    fn drop_extra(&mut self) {
        for i in 0..self.rows + 2 {
            self.set(i, self.extra(), ZERO);
        }
        for j in 0..self.width() {
            self.set(self.rows, j, ZERO);
        }
    }
}

// The greatest goal, or None where the run does not end with an optimum.
pub fn solve(p: &Program, limit: u128, run: &mut Run) -> Option<Fraction> {
    let phase_one = p.right.iter().any(|b| b.num < 0);
    let mut t = Tableau::of(p, phase_one);
    let mut stage = if phase_one { Stage::Entry } else { Stage::PhaseTwo };
    while let Some(column) = t.entering(stage) {
        let rows: Vec<usize> = (0..t.rows).filter(|i| stage == Stage::Entry || t.at(*i, column).num > 0).collect();
        if rows.is_empty() {
            return None;
        }
        let begin = Instant::now();
        let row = t.leaving(stage, column, rows, limit)?;
        run.choice += begin.elapsed();
        let left = t.basis[row];
        run.pivots += 1;
        let begin = Instant::now();
        t.pivot(row, column, limit, run)?;
        run.pivoting += begin.elapsed();
        if stage == Stage::Entry {
            stage = Stage::PhaseOne;
        } else if stage == Stage::PhaseOne && left == t.extra() {
            stage = Stage::PhaseTwo;
            t.drop_extra();
        }
    }
    (stage == Stage::PhaseTwo).then(|| negated(t.at(t.rows + 1, t.right())))
}
