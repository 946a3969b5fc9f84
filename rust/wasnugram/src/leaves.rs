//! The kernels and the sums of log-probabilities, each with a value or a refusal.

use crate::raw::{self, Answer};
use crate::Refused;

fn result(answer: Answer) -> Result<f64, Refused> {
    match answer.refusal {
        0 => Ok(answer.value),
        _ => Err(Refused::of_leaf(answer)),
    }
}

/// exp(d) for d at most 0 (RULES, section 4.1). It is exactly 0 from about -42.98 down, so the value of a whole passage
/// has no probability here: compare values, or divide them by the number of samples first.
///
/// ```
/// use wasnugram::{exp, Refusal};
///
/// assert_eq!(exp(0.0), Ok(1.0));
/// assert!(exp(-42.97)? > 0.0);
/// assert_eq!(exp(-42.98), Ok(0.0));
/// assert_eq!(exp(f64::NEG_INFINITY), Ok(0.0));
/// assert_eq!(exp(1.0).unwrap_err().refusal, Refusal::NotGood);
/// # Ok::<(), wasnugram::Refused>(())
/// ```
pub fn exp(d: f64) -> Result<f64, Refused> {
    result(raw::exp(d))
}

/// ln(x) for x at least 0 (RULES, section 4.2).
///
/// ```
/// use wasnugram::{ln, Refusal};
///
/// assert_eq!(ln(0.5), Ok(-0.6931471805599453));
/// assert_eq!(ln(0.0), Ok(f64::NEG_INFINITY));
/// assert_eq!(ln(-1.0).unwrap_err().refusal, Refusal::NotGood);
/// ```
pub fn ln(x: f64) -> Result<f64, Refused> {
    result(raw::ln(x))
}

/// ln(1 - exp p) for p at most 0 (RULES, section 4.3).
///
/// ```
/// use wasnugram::{ln, ln_one_minus_exp, Refusal};
///
/// assert_eq!(ln_one_minus_exp(f64::NEG_INFINITY), Ok(0.0));
/// assert_eq!(ln_one_minus_exp(0.0), Ok(f64::NEG_INFINITY));
/// assert!((ln_one_minus_exp(ln(0.25)?)? - ln(0.75)?).abs() < 1e-7);
/// assert_eq!(ln_one_minus_exp(f64::NAN).unwrap_err().refusal, Refusal::NotGood);
/// # Ok::<(), wasnugram::Refused>(())
/// ```
pub fn ln_one_minus_exp(p: f64) -> Result<f64, Refused> {
    result(raw::ln_one_minus_exp(p))
}

/// The logarithm of the sum of probabilities, from their logarithms (RULES, section 5.2).
///
/// ```
/// use wasnugram::{ln_sum_exp, Refusal};
///
/// assert_eq!(ln_sum_exp(&[0.0, 0.0]), Ok(0.6931471805599453));
/// assert_eq!(ln_sum_exp(&[]), Ok(f64::NEG_INFINITY));
/// let spoiled = ln_sum_exp(&[-1.0, f64::NAN]).unwrap_err();
/// assert_eq!((spoiled.refusal, spoiled.place), (Refusal::NotGood, 1));
/// ```
pub fn ln_sum_exp(probs: &[f64]) -> Result<f64, Refused> {
    result(raw::ln_sum_exp(probs))
}

/// The logarithm of the sum of two probabilities, from their logarithms (RULES, section 5.3).
///
/// ```
/// use wasnugram::{ln_add_exp, Refusal};
///
/// assert_eq!(ln_add_exp(-0.6931471805599453, -0.6931471805599453), Ok(0.0));
/// assert_eq!(ln_add_exp(-1.0, f64::NEG_INFINITY), Ok(-1.0));
/// let spoiled = ln_add_exp(-1.0, f64::NAN).unwrap_err();
/// assert_eq!((spoiled.refusal, spoiled.place), (Refusal::NotGood, 1));
/// ```
pub fn ln_add_exp(p0: f64, p1: f64) -> Result<f64, Refused> {
    result(raw::ln_add_exp(p0, p1))
}

/// The logarithm of the difference of two probabilities, from their logarithms (RULES, section 5.4).
///
/// ```
/// use wasnugram::{ln_sub_exp, Refusal};
///
/// assert_eq!(ln_sub_exp(-1.0, -1.0), Ok(f64::NEG_INFINITY));
/// assert_eq!(ln_sub_exp(-1.0, f64::NEG_INFINITY), Ok(-1.0));
/// assert_eq!(ln_sub_exp(-2.0, -1.0).unwrap_err().refusal, Refusal::NegativeDifference);
/// ```
pub fn ln_sub_exp(p0: f64, p1: f64) -> Result<f64, Refused> {
    result(raw::ln_sub_exp(p0, p1))
}

/// Writes the logarithm of each cumulative sum; the value is the last one, minus infinity if there is none (RULES,
/// section 5.5).
///
/// ```
/// use wasnugram::{ln_cumsum_exp, Refusal, Table};
///
/// let mut sums = [0.0; 2];
/// assert_eq!(ln_cumsum_exp(&[0.0, 0.0], &mut sums), Ok(0.6931471805599453));
/// assert_eq!(sums, [0.0, 0.6931471805599453]);
///
/// // Three sums into two places: output 5, of length 2.
/// let short = ln_cumsum_exp(&[0.0, 0.0, 0.0], &mut sums).unwrap_err();
/// assert_eq!((short.refusal, short.table, short.place), (Refusal::OutputTooShort, Some(Table::Output(5)), 2));
/// ```
pub fn ln_cumsum_exp(probs: &[f64], sums: &mut [f64]) -> Result<f64, Refused> {
    result(raw::ln_cumsum_exp(probs, sums))
}

/// A value at most 0 as it is, and one within epsilon above 0 as 0.0 (RULES, section 5.6).
///
/// ```
/// use wasnugram::{cap_numerical_overshoot, Refusal};
///
/// assert_eq!(cap_numerical_overshoot(-1.0, 1e-9), Ok(-1.0));
/// assert_eq!(cap_numerical_overshoot(1e-10, 1e-9), Ok(0.0));
/// assert_eq!(cap_numerical_overshoot(0.5, 1e-9).unwrap_err().refusal, Refusal::Overshoot);
/// ```
pub fn cap_numerical_overshoot(value: f64, epsilon: f64) -> Result<f64, Refused> {
    result(raw::cap_numerical_overshoot(value, epsilon))
}
