// The rule of the crate `npp_frac` written in Rust: exact sums and products of reduced fractions, or none where a number
// that is needed reaches the limit. It takes the same short ways, but keeps 128 bits a number at every width.

#[derive(Clone, Copy, PartialEq)]
pub struct Fraction {
    pub num: i128,
    pub den: u128,
}

const WORD: u128 = u64::MAX as u128;

#[inline(always)]
pub fn gcd(a: u128, b: u128) -> u128 {
    if b == 1 || a == 1 {
        1
    } else if a <= WORD && b <= WORD {
        u128::from(gcd_of_words(a as u64, b as u64))
    } else {
        gcd_of_long(a, b)
    }
}

#[inline(never)]
fn gcd_of_words(a: u64, b: u64) -> u64 {
    let (a, b) = if b < a >> 6 && b != 0 {
        (b, a % b)
    } else if a < b >> 6 && a != 0 {
        (a, b % a)
    } else {
        (a, b)
    };
    if a == 0 || b == 0 {
        return a | b;
    }
    let (mut x, mut y) = (a >> a.trailing_zeros(), b >> b.trailing_zeros());
    while x != y {
        let difference = x.wrapping_sub(y);
        let distance = if x < y { y - x } else { difference };
        y = x.min(y);
        x = distance >> difference.trailing_zeros();
    }
    x << (a | b).trailing_zeros()
}

fn gcd_of_long(mut a: u128, mut b: u128) -> u128 {
    while b > WORD {
        (a, b) = (b, a % b);
    }
    if b == 0 { a } else { u128::from(gcd_of_words(b as u64, (a % b) as u64)) }
}

#[inline(always)]
pub fn divided(a: u128, by: u128) -> u128 {
    if by == 1 {
        a
    } else if a <= WORD && by <= WORD {
        u128::from(a as u64 / by as u64)
    } else {
        a / by
    }
}

#[inline(always)]
pub fn quotient(a: i128, by: u128) -> i128 {
    if by == 1 {
        return a;
    }
    let size = divided(a.unsigned_abs(), by) as i128;
    if a < 0 { -size } else { size }
}

#[inline(always)]
fn below(value: i128, limit: u128) -> Option<i128> {
    (value.unsigned_abs() < limit).then_some(value)
}

#[inline(always)]
fn signed_product(a: i128, b: i128, limit: u128) -> Option<i128> {
    let is_word = |value: i128| i128::from(value as i64) == value;
    let exact = if is_word(a) && is_word(b) { a * b } else { a.checked_mul(b)? };
    below(exact, limit)
}

#[inline(always)]
fn unsigned_product(a: u128, b: u128, limit: u128) -> Option<u128> {
    let exact = if a <= WORD && b <= WORD { a * b } else { a.checked_mul(b)? };
    (exact < limit).then_some(exact)
}

#[inline(always)]
pub fn sum(a: Fraction, b: Fraction, limit: u128) -> Option<Fraction> {
    if a.den == 1 && b.den == 1 {
        let num = below(a.num.checked_add(b.num)?, limit)?;
        return Some(Fraction { num, den: 1 });
    }
    fraction_sum(a, b, limit)
}

#[inline(never)]
fn fraction_sum(a: Fraction, b: Fraction, limit: u128) -> Option<Fraction> {
    let g = gcd(a.den, b.den);
    let (a_den, b_den) = (divided(a.den, g), divided(b.den, g));
    let left = signed_product(a.num, b_den as i128, limit)?;
    let right = signed_product(b.num, a_den as i128, limit)?;
    let total = below(left.checked_add(right)?, limit)?;
    let den = unsigned_product(a_den, b.den, limit)?;
    let h = gcd(total.unsigned_abs(), g);
    Some(Fraction { num: quotient(total, h), den: divided(den, h) })
}

#[inline(always)]
pub fn product(a: Fraction, b: Fraction, limit: u128) -> Option<Fraction> {
    if a.den == 1 && b.den == 1 {
        let num = signed_product(a.num, b.num, limit)?;
        return Some(Fraction { num, den: 1 });
    }
    fraction_product(a, b, limit)
}

#[inline(never)]
fn fraction_product(a: Fraction, b: Fraction, limit: u128) -> Option<Fraction> {
    let first = gcd(a.num.unsigned_abs(), b.den);
    let second = gcd(b.num.unsigned_abs(), a.den);
    let num = signed_product(quotient(a.num, first), quotient(b.num, second), limit)?;
    let den = unsigned_product(divided(a.den, second), divided(b.den, first), limit)?;
    Some(Fraction { num, den })
}
