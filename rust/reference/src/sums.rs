//! Sums and differences of probabilities in log space (RULES 5.2 to 5.5), for numbers that are not NaN.

use crate::kernels::{exp, ln, ln_1m_exp};

/// The logarithm of the sum: the first greatest entry p, and ln(1 + sum of exp(x - p) over the others) added to it.
pub fn ln_sum_exp(xs: &[f64]) -> f64 {
    ln_sum_exp_by(exp, xs)
}

/// The same by an exp that the caller chooses: the benchmarks time two shapes of it.
pub fn ln_sum_exp_by(exp: impl Fn(f64) -> f64, xs: &[f64]) -> f64 {
    let Some(place) = first_greatest(xs) else {
        return f64::NEG_INFINITY;
    };
    let greatest = xs[place];
    if greatest.is_infinite() {
        return greatest;
    }
    let sum = sum_of_ratios(&exp, &xs[..place], greatest, 0.0);
    let sum = sum_of_ratios(&exp, &xs[place + 1..], greatest, sum);
    greatest + ln(1.0 + sum)
}

/// The index of the first greatest entry, none where there is no entry.
fn first_greatest(xs: &[f64]) -> Option<usize> {
    let mut place = 0;
    for (i, x) in xs.iter().enumerate() {
        if *x > xs[place] {
            place = i;
        }
    }
    (place < xs.len()).then_some(place)
}

/// The sum so far and exp(x - greatest) for each entry that is not minus infinity, upward.
fn sum_of_ratios(exp: impl Fn(f64) -> f64, xs: &[f64], greatest: f64, so_far: f64) -> f64 {
    let mut sum = so_far;
    for x in xs {
        if *x != f64::NEG_INFINITY {
            sum += exp(*x - greatest);
        }
    }
    sum
}

/// The logarithm of the sum of two.
pub fn ln_add_exp(first: f64, second: f64) -> f64 {
    if second == f64::NEG_INFINITY {
        return first;
    }
    let (p0, p1) = if second > first {
        (second, first)
    } else {
        (first, second)
    };
    if p0.is_infinite() {
        return p0;
    }
    p0 + ln(1.0 + exp(p1 - p0))
}

/// The logarithm of the difference, for p0 not below p1 (unless p1 is minus infinity).
pub fn ln_sub_exp(p0: f64, p1: f64) -> f64 {
    if p1 == f64::NEG_INFINITY {
        p0
    } else if close(p0, p1) {
        f64::NEG_INFINITY
    } else if p0 == f64::INFINITY {
        f64::INFINITY
    } else {
        p0 + ln_1m_exp(p1 - p0)
    }
}

/// Equal, or both finite and apart by at most 2^-52, or by at most 2^-52 of the larger magnitude.
fn close(p0: f64, p1: f64) -> bool {
    if p0 == p1 {
        return true;
    }
    if p0.is_infinite() || p1.is_infinite() {
        return false;
    }
    let apart = (p0 - p1).abs();
    apart <= f64::EPSILON || apart <= f64::EPSILON * p0.abs().max(p1.abs())
}
