//! The leaves of RULES 5 with their refusals: NaN and arguments outside a domain are answered by number, never computed
//! with.
//!
//! In a leaf the table is 0 and the place is the argument's number from 0, or the index in a slice.

use crate::answer::{Answer, FIRST_OUTPUT, NEGATIVE_DIFFERENCE, NOT_GOOD, OUTPUT_TOO_SHORT, OVERSHOOT};
use crate::{kernels, sums};

/// phred = log-probability times this.
const LOG_TO_PHRED: f64 = -4.342_944_819_032_517_5;
/// log-probability = phred times this.
const PHRED_TO_LOG: f64 = -0.230_258_509_299_404_56;

fn not_good(place: usize) -> Answer {
    Answer::refused(NOT_GOOD, 0, place)
}

/// The place of the first NaN.
fn first_nan(xs: &[f64]) -> Option<usize> {
    xs.iter().position(|x| x.is_nan())
}

/// exp(d), refused where d is NaN or above 0.
pub fn exp(d: f64) -> Answer {
    if d <= 0.0 {
        Answer::done(kernels::exp(d))
    } else {
        not_good(0)
    }
}

/// ln(x), refused where x is NaN or below 0.
pub fn ln(x: f64) -> Answer {
    if x >= 0.0 {
        Answer::done(kernels::ln(x))
    } else {
        not_good(0)
    }
}

/// ln(1 - exp p), refused where p is NaN or above 0.
pub fn ln_one_minus_exp(p: f64) -> Answer {
    if p <= 0.0 {
        Answer::done(kernels::ln_1m_exp(p))
    } else {
        not_good(0)
    }
}

/// `ln_sum_exp` over a slice of any length, refused at the first NaN.
pub fn ln_sum_exp(probs: &[f64]) -> Answer {
    match first_nan(probs) {
        Some(place) => not_good(place),
        None => Answer::done(sums::ln_sum_exp(probs)),
    }
}

/// `ln_add_exp`, refused at the first NaN.
pub fn ln_add_exp(p0: f64, p1: f64) -> Answer {
    match first_nan(&[p0, p1]) {
        Some(place) => not_good(place),
        None => Answer::done(sums::ln_add_exp(p0, p1)),
    }
}

/// `ln_sub_exp`: NaN is refused first, then a difference below zero.
pub fn ln_sub_exp(p0: f64, p1: f64) -> Answer {
    match first_nan(&[p0, p1]) {
        Some(place) => not_good(place),
        None if p0 < p1 => Answer::refused(NEGATIVE_DIFFERENCE, 0, 0),
        None => Answer::done(sums::ln_sub_exp(p0, p1)),
    }
}

/// Cumulative sums from a slice into an output that may be longer; the value is the last sum.
pub fn ln_cumsum_exp(probs: &[f64], sums: &mut [f64]) -> Answer {
    if sums.len() < probs.len() {
        return Answer::refused(OUTPUT_TOO_SHORT, FIRST_OUTPUT, sums.len());
    }
    if let Some(place) = first_nan(probs) {
        return not_good(place);
    }
    let mut sum = f64::NEG_INFINITY;
    for (p, cell) in probs.iter().zip(sums) {
        sum = sums::ln_add_exp(sum, *p);
        *cell = sum;
    }
    Answer::done(sum)
}

/// A value at most 0 as it is, one within epsilon above 0 as 0.0, and a refusal for anything else.
pub fn cap_numerical_overshoot(value: f64, epsilon: f64) -> Answer {
    let capped = value - epsilon;
    if value.is_nan() || epsilon.is_nan() {
        Answer::refused(OVERSHOOT, 0, 0)
    } else if value <= 0.0 {
        Answer::done(value)
    } else if capped <= 0.0 {
        Answer::done(0.0)
    } else {
        Answer::refused(OVERSHOOT, 0, 0)
    }
}

/// Not NaN and at most 0.
pub fn is_valid(p: f64) -> bool {
    p <= 0.0
}

/// A probability from 0 to 1, refused elsewhere.
pub fn checked(p: f64) -> Answer {
    if (0.0..=1.0).contains(&p) {
        Answer::done(p)
    } else {
        not_good(0)
    }
}

/// The log-probability of a probability, by ln.
pub fn log_of_prob(p: f64) -> Answer {
    ln(p)
}

/// The probability of a log-probability, by exp.
pub fn prob_of_log(p: f64) -> Answer {
    exp(p)
}

/// The PHRED scale of a log-probability, by one product.
pub fn phred_of_log(p: f64) -> Answer {
    scaled(p, LOG_TO_PHRED)
}

/// The log-probability of a PHRED scale, by one product.
pub fn log_of_phred(p: f64) -> Answer {
    scaled(p, PHRED_TO_LOG)
}

fn scaled(p: f64, factor: f64) -> Answer {
    if p.is_nan() {
        not_good(0)
    } else {
        Answer::done(p * factor)
    }
}
