//! Document 01, "Arithmetic": numbers modulo P, and the limits of a plain total.
//! A u64 holds the product of two field numbers, so nothing here overflows.

pub const P: u64 = 2_147_483_647;
pub const TOTAL_LIMIT: i64 = 1_073_741_823;
const HALF: u64 = 1_073_741_824;

pub fn add(a: u64, b: u64) -> u64 {
    (a + b) % P
}

pub fn sub(a: u64, b: u64) -> u64 {
    (a + P - b) % P
}

pub fn mul(a: u64, b: u64) -> u64 {
    a * b % P
}

pub fn half(a: u64) -> u64 {
    mul(a, HALF)
}

pub fn power(base: u64, exponent: u64) -> u64 {
    match exponent {
        0 => 1,
        e if e % 2 == 1 => mul(base, power(base, e - 1)),
        e => power(mul(base, base), e / 2),
    }
}

/// By Fermat: a^(P-2) is the inverse of every a but 0.
pub fn inverse(a: u64) -> u64 {
    power(a, P - 2)
}

/// A negative number r becomes P + r.
pub fn from_signed(number: i64) -> u64 {
    number.rem_euclid(P as i64) as u64
}

pub fn is_reduced(a: u64) -> bool {
    a < P
}

/// What challenges, twists, v and points must be.
pub fn is_usable(a: u64) -> bool {
    1 <= a && a < P
}

pub fn within_limits(total: i64) -> bool {
    -TOTAL_LIMIT <= total && total <= TOTAL_LIMIT
}
