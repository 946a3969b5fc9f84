//! Each intended difference from bio as published, by its smallest input: first what RULES.md says, then what bio does,
//! where its text is at hand.

use compare::case::Case;
use oracle::{caught, Modes, Walks};
use reference::answer::{
    BAD_STATES, BAD_SYMBOLS, END, INITIAL, NEGATIVE_DIFFERENCE, NOT_GOOD, NO_SAMPLES, OVERSHOOT, SAMPLES,
    TOO_MANY_SAMPLES, TRANSITION, UNKNOWN_SYMBOL, WRONG_LENGTH, ZERO_MASS,
};
use reference::leaves;
use reference::{Answer, Estimates, Shape};

const MINUS: f64 = f64::NEG_INFINITY;

/// S states and M symbols, all entries 0.0, on these samples.
fn zeros(states: usize, symbols: usize, ends: bool, samples: &[u16]) -> Case {
    Case {
        shape: Shape { states, symbols, ends },
        transition: vec![0.0; states * states],
        emission: vec![0.0; states * symbols],
        initial: vec![0.0; states],
        end: vec![0.0; states],
        samples: samples.to_vec(),
        index: 0,
    }
}

fn bio(modes: &Modes, case: &Case) -> Box<dyn Walks> {
    (modes.published.model)(&case.model()).expect("bio takes this model")
}

/// The best path and the answer.
fn decode(case: &Case) -> (Vec<u8>, Answer) {
    let cells = case.samples.len() * case.shape.states;
    let mut path = vec![0; case.samples.len()];
    let answer = reference::viterbi(
        &case.model(),
        &case.samples,
        &mut path,
        &mut vec![0.0; cells],
        &mut vec![0; cells],
    );
    (path, answer)
}

fn viterbi(case: &Case) -> Answer {
    decode(case).1
}

fn forward(case: &Case) -> Answer {
    let mut values = vec![0.0; case.samples.len() * case.shape.states];
    reference::forward(&case.model(), &case.samples, &mut values)
}

/// A pass's answer and its new tables: transition, emission, initial, end.
fn pass(case: &Case) -> (Answer, [Vec<f64>; 4]) {
    let tables = case.model().tables().map(<[f64]>::len);
    let [mut transition, mut emission, mut initial, mut end] = tables.map(|length| vec![0.0; length]);
    let cells = case.samples.len() * case.shape.states;
    let mut new = Estimates {
        new_transition: &mut transition,
        new_emission: &mut emission,
        new_initial: &mut initial,
        new_end: &mut end,
        alpha: &mut vec![0.0; cells],
        beta: &mut vec![0.0; cells],
    };
    let answer = reference::baum_welch(&case.model(), &case.samples, &mut new);
    (answer, [transition, emission, initial, end])
}

fn assert_decodes(case: &Case, path: &[u8], value: f64) {
    let (decoded, answer) = decode(case);
    assert_eq!(decoded, path);
    assert!(answer.same_bits(&Answer::done(value)), "{answer:?} instead of {value}");
}

fn assert_refused(answer: Answer, refusal: u8, table: u8, place: usize) {
    let expected = Answer::refused(refusal, table, place);
    assert!(answer.same_bits(&expected), "{answer:?} instead of {expected:?}");
}

#[test]
fn refusal_1_states() {
    let case = zeros(65, 1, false, &[0]);
    assert_refused(viterbi(&case), BAD_STATES, 0, 65);
    let Some(modes) = oracle::modes() else { return };
    assert_eq!(bio(&modes, &case).viterbi(&[0]), (vec![64], 0.0));
}

#[test]
fn refusal_2_symbols() {
    let case = zeros(1, 257, false, &[]);
    assert_refused(viterbi(&case), BAD_SYMBOLS, 0, 257);
    let Some(modes) = oracle::modes() else { return };
    assert_eq!(bio(&modes, &case).viterbi(&[256]), (vec![0], 0.0));
}

#[test]
fn refusal_3_samples() {
    let case = zeros(1, 1, false, &[0; 4097]);
    assert_refused(viterbi(&case), TOO_MANY_SAMPLES, SAMPLES, 4097);
    let Some(modes) = oracle::modes() else { return };
    assert_eq!(bio(&modes, &case).viterbi(&case.wide_samples()).1, 0.0);
}

#[test]
fn refusal_4_forward_and_a_pass_on_no_samples() {
    let case = zeros(1, 1, false, &[]);
    assert_refused(forward(&case), NO_SAMPLES, SAMPLES, 0);
    assert_refused(pass(&case).0, NO_SAMPLES, SAMPLES, 0);
    let Some(modes) = oracle::modes() else { return };
    assert!(caught(|| bio(&modes, &case).forward(&[])).is_none());
    assert!(caught(|| bio(&modes, &case).baum_welch(&[])).is_none());
}

#[test]
fn refusal_5_tables_where_bio_gives_an_error() {
    let mut case = zeros(1, 1, false, &[0]);
    case.initial.push(0.0);
    assert_refused(viterbi(&case), WRONG_LENGTH, INITIAL, 2);
    let Some(modes) = oracle::modes() else { return };
    assert!((modes.published.model)(&case.model()).is_none());
}

#[test]
fn refusal_5_the_end_table_which_bio_does_not_check() {
    let mut case = zeros(1, 1, true, &[0]);
    case.end = vec![0.0, 0.0];
    assert_refused(forward(&case), WRONG_LENGTH, END, 2);
    let Some(modes) = oracle::modes() else { return };
    assert_eq!(bio(&modes, &case).forward(&[0]).1, 0.0);
    case.end.clear();
    assert_refused(forward(&case), WRONG_LENGTH, END, 0);
    assert!(caught(|| bio(&modes, &case).forward(&[0])).is_none());
}

#[test]
fn refusal_7_nan_and_positive_entries() {
    let mut case = zeros(2, 1, false, &[0, 0]);
    case.transition[0] = f64::NAN;
    assert_refused(viterbi(&case), NOT_GOOD, TRANSITION, 0);
    let Some(modes) = oracle::modes() else { return };
    assert!(caught(|| bio(&modes, &case).viterbi(&[0, 0])).is_none());
    let mut case = zeros(1, 1, false, &[0]);
    case.initial[0] = 0.5;
    assert_refused(viterbi(&case), NOT_GOOD, INITIAL, 0);
    assert_eq!(bio(&modes, &case).viterbi(&[0]).1, 0.5);
}

#[test]
fn refusal_7_an_end_table_without_an_end_state() {
    let mut case = zeros(1, 1, false, &[0]);
    case.end[0] = -1.0;
    assert_refused(forward(&case), NOT_GOOD, END, 0);
    let Some(modes) = oracle::modes() else { return };
    assert_eq!(bio(&modes, &case).forward(&[0]).1, -1.0);
    case.end[0] = -0.0;
    assert_refused(forward(&case), NOT_GOOD, END, 0);
}

#[test]
fn refusal_7_outside_a_domain() {
    assert_refused(leaves::prob_of_log(1.0), NOT_GOOD, 0, 0);
    let Some(modes) = oracle::modes() else { return };
    let bio = modes.published.leaves;
    assert!((bio.prob_of_log)(1.0) > 2.7);
    assert_refused(leaves::log_of_prob(-1.0), NOT_GOOD, 0, 0);
    assert!((bio.log_of_prob)(-1.0).is_nan());
    assert_refused(leaves::ln_one_minus_exp(0.5), NOT_GOOD, 0, 0);
    assert!(caught(|| (bio.ln_one_minus_exp)(0.5)).is_none());
    assert_refused(leaves::ln_sum_exp(&[0.0, f64::NAN]), NOT_GOOD, 0, 1);
    assert!((bio.ln_sum_exp)(&[0.0, f64::NAN]).is_finite());
    assert_refused(leaves::phred_of_log(f64::NAN), NOT_GOOD, 0, 0);
    assert!((bio.phred_of_log)(f64::NAN).is_nan());
}

#[test]
fn refusal_8_a_sample_beyond_the_symbols() {
    let case = zeros(1, 1, false, &[1]);
    assert_refused(viterbi(&case), UNKNOWN_SYMBOL, SAMPLES, 0);
    let Some(modes) = oracle::modes() else { return };
    assert!(caught(|| bio(&modes, &case).viterbi(&[1])).is_none());
}

#[test]
fn refusal_9_no_path_at_all() {
    let mut case = zeros(1, 1, true, &[0]);
    case.emission[0] = MINUS;
    assert_refused(pass(&case).0, ZERO_MASS, 0, 1);
    let Some(modes) = oracle::modes() else { return };
    assert!(bio(&modes, &case).baum_welch(&[0]).initial[0].is_nan());
    case.shape.ends = false;
    assert_refused(pass(&case).0, ZERO_MASS, 0, 1);
    assert!(caught(|| bio(&modes, &case).baum_welch(&[0])).is_none());
}

#[test]
fn refusal_9_one_sample_without_an_end_state() {
    let case = zeros(1, 1, false, &[0]);
    assert_refused(pass(&case).0, ZERO_MASS, 0, 0);
    let Some(modes) = oracle::modes() else { return };
    assert!(bio(&modes, &case).baum_welch(&[0]).transition[0].is_nan());
}

#[test]
fn refusal_9_a_state_that_is_occupied_at_the_last_sample_alone() {
    let mut case = zeros(2, 1, false, &[0, 0]);
    case.initial[0] = -1000.0;
    assert_refused(pass(&case).0, ZERO_MASS, 0, 0);
    let Some(modes) = oracle::modes() else { return };
    assert_eq!(bio(&modes, &case).baum_welch(&[0, 0]).transition[0], f64::INFINITY);
}

#[test]
fn refusal_9_where_bio_goes_on_since_its_logarithm_has_finer_steps() {
    let mut case = zeros(2, 1, false, &[0, 0]);
    case.initial[0] = -25.0;
    assert_refused(pass(&case).0, ZERO_MASS, 0, 0);
    let Some(modes) = oracle::modes() else { return };
    assert!(bio(&modes, &case).baum_welch(&[0, 0]).transition[0] < 0.0);
}

#[test]
fn refusals_10_and_11_where_bio_panics() {
    assert_refused(leaves::ln_sub_exp(-2.0, -1.0), NEGATIVE_DIFFERENCE, 0, 0);
    let Some(modes) = oracle::modes() else { return };
    let bio = modes.published.leaves;
    assert!(caught(|| (bio.ln_sub_exp)(-2.0, -1.0)).is_none());
    assert_refused(leaves::cap_numerical_overshoot(1.0, 0.5), OVERSHOOT, 0, 0);
    assert!(caught(|| (bio.cap_numerical_overshoot)(1.0, 0.5)).is_none());
}

#[test]
fn refusal_11_a_nan_epsilon() {
    assert_refused(leaves::cap_numerical_overshoot(-1.0, f64::NAN), OVERSHOOT, 0, 0);
    let Some(modes) = oracle::modes() else { return };
    assert_eq!((modes.published.leaves.cap_numerical_overshoot)(-1.0, f64::NAN), -1.0);
}

#[test]
fn the_end_entry_is_in_the_value_of_the_best_path() {
    let mut case = zeros(1, 1, true, &[0]);
    case.end[0] = -1.0;
    assert_decodes(&case, &[0], -1.0);
    let Some(modes) = oracle::modes() else { return };
    assert_eq!(bio(&modes, &case).viterbi(&[0]), (vec![0], 0.0));
}

#[test]
fn the_end_entry_counts_in_the_choice_of_the_last_state() {
    let mut case = zeros(2, 1, true, &[0]);
    (case.initial, case.end) = (vec![-1.0, -2.0], vec![-3.0, -1.0]);
    assert_decodes(&case, &[1], -3.0);
    let Some(modes) = oracle::modes() else { return };
    assert_eq!(bio(&modes, &case).viterbi(&[0]), (vec![0], -1.0));
    // Without an end state both give bio's answer.
    (case.shape.ends, case.end) = (false, vec![0.0; 2]);
    assert_decodes(&case, &[0], -1.0);
    assert_eq!(bio(&modes, &case).viterbi(&[0]), (vec![0], -1.0));
}

#[test]
fn no_passage_is_less_likely_than_its_own_best_path() {
    let mut case = zeros(1, 1, true, &[0]);
    case.end[0] = -1.0;
    assert_eq!((viterbi(&case).value, forward(&case).value), (-1.0, -1.0));
    let Some(modes) = oracle::modes() else { return };
    let bio = bio(&modes, &case);
    assert_eq!((bio.viterbi(&[0]).1, bio.forward(&[0]).1), (0.0, -1.0));
}

#[test]
fn absent_symbols_keep_their_column() {
    let case = zeros(1, 2, true, &[1]);
    let (answer, [_, emission, _, _]) = pass(&case);
    assert_eq!(answer.refusal, 0);
    assert_eq!(emission, [MINUS, 0.0]);
    let Some(modes) = oracle::modes() else { return };
    assert_eq!(bio(&modes, &case).baum_welch(&[1]).emission, [0.0]);
}

#[test]
fn a_result_above_zero_is_capped() {
    let mut case = zeros(1, 1, false, &[0, 0]);
    (case.transition[0], case.emission[0], case.initial[0]) = (-0.1, -0.1, -0.9);
    let (answer, [_, _, initial, _]) = pass(&case);
    assert_eq!(answer.refusal, 0);
    assert_eq!(initial[0].to_bits(), 0);
    let Some(modes) = oracle::modes() else { return };
    assert_eq!(bio(&modes, &case).baum_welch(&[0, 0]).initial[0], f64::EPSILON);
}

#[test]
fn the_sign_of_zero() {
    assert_eq!(leaves::ln_one_minus_exp(MINUS).value.to_bits(), 0.0_f64.to_bits());
    let Some(modes) = oracle::modes() else { return };
    let bio = modes.published.leaves;
    assert_eq!((bio.ln_one_minus_exp)(MINUS).to_bits(), (-0.0_f64).to_bits());
    // Rust's sum of no numbers has been -0.0 in newer versions and 0.0 in older ones.
    assert_eq!(leaves::ln_sum_exp(&[-0.0]).value.to_bits(), 0.0_f64.to_bits());
    assert_eq!((bio.ln_sum_exp)(&[-0.0]), 0.0);
}

#[test]
fn the_kernels_themselves() {
    let ours = leaves::exp(-50.0).value;
    let Some(modes) = oracle::modes() else { return };
    let theirs = (modes.published.leaves.prob_of_log)(-50.0);
    assert_eq!(ours, 0.0);
    assert!(theirs > 0.0);
    let ours = leaves::ln(1.0 + 1e-10).value;
    let theirs = (modes.published.leaves.log_of_prob)(1.0 + 1e-10);
    assert_eq!(ours, 0.0);
    assert!(theirs > 0.0);
}
