//! Dense grids of the kernels' arguments. They are fixed, so that the same sources give the same list.

/// Even steps from 0 down to -45, past the place where exp becomes 0, and minus every power of two from 2^-1074 to 2^10.
pub fn exp_arguments() -> impl Iterator<Item = f64> {
    let even = (0..=1500).map(|step| 45.0 * f64::from(step) / 1500.0);
    even.chain((-1074..=10).map(|place| 2.0_f64.powi(place))).map(|d| -d)
}

/// 0, and for every exponent, subnormal ones too, a fraction that changes from one to the next.
pub fn ln_arguments() -> impl Iterator<Item = f64> {
    let fraction = |place: u64| place.wrapping_mul(0x9e37_79b9_7f4a_7c15) >> 12;
    let normal = (0..2047).map(move |field: u64| f64::from_bits(field << 52 | fraction(field)));
    let subnormal = (0..52).map(|place| f64::from_bits(1 << place | 1));
    std::iter::once(0.0).chain(normal).chain(subnormal)
}
