//! The gate-post examples of RULES 9, each by its name there.

mod tables;

use reference::{backward, baum_welch, forward, leaves, viterbi, Answer, Estimates};
use tables::{all_zero, model_p, Tables};

const MINUS: f64 = f64::NEG_INFINITY;
// As the rules write it, in decimal.
#[allow(clippy::approx_constant)]
const LN_2: f64 = 0.6931471805599453;
/// 2^-53, half of the step from 1 to the next f64.
const HALF: f64 = f64::EPSILON / 2.0;

/// Model A.
fn model_a() -> Tables {
    Tables {
        transition: vec![-HALF],
        emission: vec![-HALF],
        initial: vec![-1.0],
        ..all_zero(1, 1)
    }
}

fn decode(tables: &Tables, samples: &[u16]) -> (Vec<u8>, Answer) {
    let cells = tables.initial.len() * samples.len();
    let mut path = vec![9; samples.len()];
    let answer = viterbi(
        &tables.model(),
        samples,
        &mut path,
        &mut vec![0.0; cells],
        &mut vec![0; cells],
    );
    (path, answer)
}

fn assert_answer(answer: Answer, refusal: u8, table: u8, place: usize, value: f64) {
    let expected = Answer {
        refusal,
        table,
        place,
        value,
    };
    assert!(answer.same_bits(&expected), "{answer:?} instead of {expected:?}");
}

/// Decodes to this path and value, to the bit.
fn assert_decodes(tables: &Tables, samples: &[u16], path: &[u8], value: f64) {
    let (decoded, answer) = decode(tables, samples);
    assert_eq!(decoded, path);
    assert_answer(answer, 0, 0, 0, value);
}

#[test]
fn p1_p2_p3_p4_paths_and_a_wrong_sample() {
    let p = model_p();
    assert_decodes(&p, &[0, 1, 1], &[0, 1, 1], -7.0);
    assert_decodes(&p, &[1], &[1], -3.0);
    assert_decodes(&p, &[], &[], MINUS);
    assert_answer(decode(&p, &[0, 1, 2]).1, 8, 4, 2, MINUS);
}

#[test]
fn p5_p6_entries_that_are_not_good() {
    let mut p = model_p();
    p.transition[0] = f64::NAN;
    assert_answer(decode(&p, &[0, 1, 1]).1, 7, 0, 0, MINUS);
    let mut p = model_p();
    p.emission[3] = f64::from_bits(1);
    assert_answer(decode(&p, &[0, 1, 1]).1, 7, 1, 3, MINUS);
    p.emission[3] = -0.0;
    assert_eq!(decode(&p, &[0, 1, 1]).1.refusal, 0);
}

#[test]
fn z1_z2_z3_ties_likelihood_and_nothing_reachable() {
    let z = all_zero(2, 2);
    assert_decodes(&z, &[0, 0], &[1, 1], 0.0);
    let mut values = [0.0; 2];
    assert_answer(forward(&z.model(), &[0], &mut values), 0, 0, 0, LN_2);
    assert_answer(backward(&z.model(), &[0], &mut values), 0, 0, 0, LN_2);
    let mut three = all_zero(3, 2);
    three.initial.fill(MINUS);
    assert_decodes(&three, &[0, 0], &[2, 2], MINUS);
}

#[test]
fn e1_e2_the_way_out_chooses_the_last_state() {
    let mut exit = model_p();
    (exit.ends, exit.end) = (true, vec![0.0, -4.0]);
    assert_decodes(&exit, &[0, 1, 1], &[0, 1, 0], -10.0);
    exit.end[0] = -1.0;
    assert_decodes(&exit, &[0, 1, 1], &[0, 1, 1], -11.0);
}

#[test]
fn e3_without_an_end_state_nothing_is_added() {
    let mut zeros = all_zero(2, 2);
    (zeros.emission, zeros.initial) = (vec![-0.0; 4], vec![-0.0; 2]);
    assert_decodes(&zeros, &[0], &[1], -0.0);
    zeros.ends = true;
    assert_decodes(&zeros, &[0], &[1], 0.0);
}

#[test]
fn a1_the_likelihood_may_equal_the_best_path_s_value() {
    let a = model_a();
    assert_decodes(&a, &[0, 0], &[0, 0], -1.0);
    assert_answer(forward(&a.model(), &[0, 0], &mut [0.0; 2]), 0, 0, 0, -1.0);
}

#[test]
fn a2_backward_may_be_below_the_best_path_s_value() {
    let below = f64::from_bits(0xbff0_0000_0000_0002);
    assert_eq!(below, -1.0 - 4.0 * HALF);
    assert!(below < -1.0);
    assert_answer(backward(&model_a().model(), &[0, 0], &mut [0.0; 2]), 0, 0, 0, below);
}

#[test]
fn k1_k2_kernels() {
    assert_answer(leaves::exp(0.0), 0, 0, 0, 1.0);
    assert_answer(leaves::exp(MINUS), 0, 0, 0, 0.0);
    assert_answer(leaves::ln(1.0), 0, 0, 0, 0.0);
    assert_answer(leaves::ln(2.0), 0, 0, 0, LN_2);
    assert_answer(leaves::ln(0.5), 0, 0, 0, -LN_2);
}

#[test]
fn s1_s2_sums() {
    assert_answer(leaves::ln_sum_exp(&[f64::INFINITY, -1.0]), 0, 0, 0, f64::INFINITY);
    assert_answer(leaves::ln_sub_exp(-1.0, -1.0), 0, 0, 0, MINUS);
}

#[test]
fn z4_a_pass_on_one_sample_without_end() {
    let z = all_zero(2, 2);
    let mut outputs = [[7.0; 4]; 6];
    let [new_transition, new_emission, new_initial, new_end, alpha, beta] = &mut outputs;
    let mut new = Estimates {
        new_transition,
        new_emission,
        new_initial,
        new_end,
        alpha,
        beta,
    };
    assert_answer(baum_welch(&z.model(), &[0], &mut new), 9, 0, 0, MINUS);
    assert_eq!(outputs[..4], [[7.0; 4]; 4]);
    assert_eq!(outputs[4..], [[0.0, 0.0, 7.0, 7.0]; 2]);
}
