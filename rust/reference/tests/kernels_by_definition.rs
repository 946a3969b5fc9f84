//! exp and ln against their definitions, followed word by word in exact whole numbers of 128 bits.

// The factors stand here in decimal, as the definitions write them.
#![allow(clippy::approx_constant)]

use reference::kernels::{constants, exp, exp_as_written, ln};

/// Splits a finite number above 0 into digits * 2^scale with whole digits.
fn digits_and_scale(x: f64) -> (u128, i32) {
    let field = (x.to_bits() >> 52) as i32;
    let fraction = u128::from(x.to_bits() & ((1 << 52) - 1));
    if field == 0 {
        (fraction, -1074)
    } else {
        (fraction + (1 << 52), field - 1075)
    }
}

/// floor(x * 2^places), for a result that fits.
fn floor_scaled(x: f64, places: i32) -> u128 {
    let (digits, scale) = digits_and_scale(x);
    let shift = scale + places;
    if shift >= 0 {
        digits << shift
    } else if shift > -128 {
        digits >> -shift
    } else {
        0
    }
}

/// A * 2^-k, exactly, for A of at most 53 digits.
fn scaled_down(a: u128, k: u128) -> f64 {
    let mut x = a as f64;
    for _ in 0..k {
        x /= 2.0;
    }
    x
}

fn exp_by_definition(d: f64) -> f64 {
    let y = d.abs() * 1.4426950408889634;
    if y >= 62.0 {
        return 0.0;
    }
    let fixed = floor_scaled(y, 30);
    let (whole, rest) = (fixed / (1 << 30), fixed % (1 << 30));
    let mut a: u128 = 1 << 31;
    let mut worth: u128 = 1 << 29;
    for constant in constants() {
        if rest / worth % 2 == 1 {
            a = a * u128::from(constant) / (1 << 31);
        }
        worth /= 2;
    }
    scaled_down(a, 31 + whole)
}

fn ln_by_definition(x: f64) -> f64 {
    if x == 0.0 {
        return f64::NEG_INFINITY;
    }
    if x == f64::INFINITY {
        return f64::INFINITY;
    }
    let (digits, scale) = digits_and_scale(x);
    let length = 128 - digits.leading_zeros() as i32;
    let exponent = i128::from(scale + length - 1);
    // x / 2^exponent has its first digit before the point and length - 1 behind it.
    let mut a = (digits << 64) >> (length - 1 + 64 - 31);
    let mut places: i128 = 0;
    for _ in 0..30 {
        a = a * a / (1 << 31);
        let bit = a >= 1 << 32;
        places = 2 * places + i128::from(bit);
        a = if bit { a / 2 } else { a };
    }
    let fixed = exponent * (1 << 30) + places;
    let sign = if fixed < 0 { -1.0 } else { 1.0 };
    sign * scaled_down(fixed.unsigned_abs(), 30) * 0.6931471805599453
}

/// Numbers of every magnitude: all bits drawn by a linear rule, the sign dropped.
fn magnitudes() -> impl Iterator<Item = f64> {
    let mut state: u64 = 1;
    (0..400_000).map(move |_| {
        state = state.wrapping_mul(6_364_136_223_846_793_005).wrapping_add(1);
        f64::from_bits(state >> 1)
    })
}

/// Numbers from 0 to 64 in even steps, which are those that exp tells apart.
fn small() -> impl Iterator<Item = f64> {
    (0..400_000).map(|step| f64::from(step) * 1.6e-4)
}

#[test]
fn exp_is_its_definition() {
    for y in magnitudes().chain(small()).filter(|y| !y.is_nan()) {
        assert_eq!(exp(-y).to_bits(), exp_by_definition(-y).to_bits(), "{y:e}");
        assert_eq!(exp_as_written(-y).to_bits(), exp(-y).to_bits(), "{y:e}");
    }
}

#[test]
fn ln_is_its_definition() {
    let subnormal = (1..200_000).map(|step: u64| f64::from_bits(step * step * 90_000));
    for x in magnitudes().chain(small()).chain(subnormal).filter(|x| !x.is_nan()) {
        assert_eq!(ln(x).to_bits(), ln_by_definition(x).to_bits(), "{x:e}");
    }
}

#[test]
fn constants_follow_their_rule() {
    let squares = |c: u64| u128::from(c) * u128::from(c);
    let mut under: u128 = 1 << 61;
    for constant in constants() {
        assert!(squares(constant) <= under && under < squares(constant + 1));
        under = u128::from(constant) << 31;
    }
    assert_eq!(constants()[0], 1_518_500_249);
}
