//! exp, ln and ln(1 - exp p) of RULES 4, each on its own domain.
//!
//! The library splits and joins bit patterns and has its constants written out. Here the same numbers come from
//! products with powers of two and casts, and the constants from square roots. The tests hold both kernels against
//! their definitions in exact whole numbers.

use std::f64::consts::{LN_2, LOG2_E};

const TWO_TO_30: f64 = 1_073_741_824.0;
const TWO_TO_31: f64 = 2_147_483_648.0;
const TWO_TO_64: f64 = 18_446_744_073_709_551_616.0;

/// Entry i stands for 2^-(2^-(i+1)) in units of 2^-31: the first is the whole square root of 2^61, each next one that
/// of the previous one times 2^31.
const ROOTS: [u64; 30] = roots();

const fn roots() -> [u64; 30] {
    let mut table = [0; 30];
    let mut previous: u64 = 1 << 30;
    let mut i = 0;
    while i < 30 {
        previous = (previous << 31).isqrt();
        table[i] = previous;
        i += 1;
    }
    table
}

/// The thirty constants of exp, for programs that print or freeze them.
pub fn constants() -> [u64; 30] {
    ROOTS
}

/// exp(d) for d at most 0.
pub fn exp(d: f64) -> f64 {
    let y = d.abs() * LOG2_E;
    if y >= 62.0 {
        return 0.0;
    }
    // The product with a power of two is exact and the cast cuts downward.
    let fixed = (y * TWO_TO_30) as u64;
    let whole = fixed >> 30;
    let fraction = power_of_fraction(fixed % (1 << 30)) as f64 / TWO_TO_31;
    fraction / (1_u64 << whole) as f64
}

/// exp(d) for d at most 0 as RULES 4.1 reads: a loop over the constants, and a product where the bit is set. The same value
/// as `exp`, whose loop is shaped for speed.
pub fn exp_as_written(d: f64) -> f64 {
    let y = d.abs() * LOG2_E;
    if y >= 62.0 {
        return 0.0;
    }
    let fixed = (y * TWO_TO_30) as u64;
    let mut product: u64 = 1 << 31;
    for (i, root) in ROOTS.iter().enumerate() {
        if fixed >> (29 - i) & 1 == 1 {
            product = (product * root) >> 31;
        }
    }
    product as f64 / TWO_TO_31 / (1_u64 << (fixed >> 30)) as f64
}

/// 2^-(fraction / 2^30) in units of 2^-31: a product for each set bit, the highest first. Where a bit is clear the factor
/// is 1, so that each product waits for the one before and for nothing else.
fn power_of_fraction(fraction: u64) -> u64 {
    let mut product = 1 << 31;
    let mut rest = fraction << 34;
    for root in ROOTS {
        let factor = if rest >> 63 == 1 { root } else { 1 << 31 };
        product = (product * factor) >> 31;
        rest <<= 1;
    }
    product
}

/// ln(x) for x at least 0.
pub fn ln(x: f64) -> f64 {
    if x == 0.0 {
        return f64::NEG_INFINITY;
    }
    if x == f64::INFINITY {
        return f64::INFINITY;
    }
    let (mantissa, exponent) = mantissa_and_exponent(x);
    let fraction = logarithm_of_mantissa((mantissa * TWO_TO_31) as u64);
    let fixed = exponent * (1 << 30) + fraction as i64;
    (fixed as f64 / TWO_TO_30) * LN_2
}

/// x = mantissa * 2^exponent with 1 <= mantissa < 2, for x finite and above 0. A subnormal is first scaled up, which
/// is exact.
fn mantissa_and_exponent(x: f64) -> (f64, i64) {
    if x < f64::MIN_POSITIVE {
        let (mantissa, exponent) = mantissa_and_exponent(x * TWO_TO_64);
        return (mantissa, exponent - 64);
    }
    let exponent = (x.to_bits() >> 52) as i64 - 1023;
    let mantissa = f64::from_bits(x.to_bits() % (1 << 52) + 1.0_f64.to_bits());
    (mantissa, exponent)
}

/// The first thirty binary places of the logarithm to base 2 of mantissa / 2^31, by thirty squarings. A square of 2^63 or
/// more is a 1, and is halved: cut off once, since cutting twice comes to the same.
fn logarithm_of_mantissa(mantissa: u64) -> u64 {
    let mut a = mantissa;
    let mut places = 0;
    for _ in 0..30 {
        let square = a * a;
        let bit = square >> 63;
        places = 2 * places + bit;
        a = if bit == 1 { square >> 32 } else { square >> 31 };
    }
    places
}

/// ln(1 - exp p) for p at most 0.
pub fn ln_1m_exp(p: f64) -> f64 {
    if p < -0.693 {
        return ln(1.0 - exp(p));
    }
    ln(one_minus_exp(p))
}

/// 1 - exp p near 0, as q·h with q = -p and h by twelve terms of the series, from the last one inward.
pub fn one_minus_exp(p: f64) -> f64 {
    let q = -p;
    let h = (2..=12).rev().fold(1.0, |h, k| 1.0 - (q / f64::from(k)) * h);
    q * h
}
