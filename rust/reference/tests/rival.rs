//! Rivals that are worked out by hand.

mod tables;

use reference::answer::{BAD_INDEX, NOT_GOOD, NO_RIVAL, OUTPUT_TOO_SHORT, SAMPLES, TRANSITION, UNKNOWN_SYMBOL};
use reference::{rival, Answer, Rivalry};
use tables::{all_zero, model_p, Tables};

const MINUS: f64 = f64::NEG_INFINITY;

/// What the outputs are filled with.
const BYTE: u8 = 99;
const NUMBER: f64 = 99.0;

/// What a call gives, and its outputs.
struct Called {
    rivalry: Rivalry,
    path: Vec<u8>,
    rival_path: Vec<u8>,
    values: Vec<f64>,
    from: Vec<u8>,
}

fn call(tables: &Tables, samples: &[u16], index: usize) -> Called {
    let cells = tables.initial.len() * samples.len();
    let [mut path, mut rival_path] = [samples.len(), samples.len()].map(|length| vec![BYTE; length]);
    let (mut values, mut from) = (vec![NUMBER; cells], vec![BYTE; cells]);
    let rivalry = rival(
        &tables.model(),
        samples,
        index,
        &mut path,
        &mut rival_path,
        &mut values,
        &mut from,
    );
    Called {
        rivalry,
        path,
        rival_path,
        values,
        from,
    }
}

/// Done with this rival and its value, to the bit, beside this best path and its value.
fn assert_rival(tables: &Tables, samples: &[u16], index: usize, rival: (&[u8], f64), best: (&[u8], f64)) -> Called {
    let called = call(tables, samples, index);
    let Rivalry {
        answer,
        chosen,
        best: value,
    } = called.rivalry;
    assert!(answer.same_bits(&Answer::done(rival.1)), "{answer:?}");
    assert_eq!(called.rival_path, rival.0);
    assert_eq!((&called.path[..], value.to_bits()), (best.0, best.1.to_bits()));
    assert_eq!(chosen, usize::from(best.0[index]));
    called
}

/// Refused, and no output has changed.
fn assert_refused(called: &Called, refusal: u8, table: u8, place: usize) {
    let Rivalry { answer, chosen, best } = called.rivalry;
    let expected = Answer::refused(refusal, table, place);
    assert!(answer.same_bits(&expected), "{answer:?} instead of {expected:?}");
    assert_eq!((chosen, best), (0, MINUS));
    let bytes = [&called.path, &called.rival_path, &called.from];
    assert!(bytes.into_iter().flatten().all(|byte| *byte == BYTE));
    assert!(called.values.iter().all(|value| *value == NUMBER));
}

#[test]
fn model_p_at_each_index() {
    let (p, samples) = (model_p(), [0, 1, 1]);
    let best: (&[u8], f64) = (&[0, 1, 1], -7.0);
    let first = assert_rival(&p, &samples, 0, (&[1, 1, 1], -9.0), best);
    assert_eq!(first.values, [MINUS, -5.0, -10.0, -7.0, -12.0, -9.0]);
    assert_eq!(first.from, [0, 1, 1, 1, 1, 1]);
    let middle = assert_rival(&p, &samples, 1, (&[0, 0, 1], -9.0), best);
    assert_eq!(middle.values, [-2.0, -5.0, -6.0, MINUS, -10.0, -9.0]);
    assert_eq!(middle.from, [0, 1, 0, 0, 0, 0]);
    let last = assert_rival(&p, &samples, 2, (&[0, 1, 0], -10.0), best);
    assert_eq!(last.values, [-2.0, -5.0, -6.0, -5.0, -10.0, MINUS]);
    assert_eq!(last.from, [0, 1, 0, 0, 1, 1]);
}

#[test]
fn the_end_entry_is_added_last() {
    let mut p = model_p();
    (p.ends, p.end) = (true, vec![0.0, -4.0]);
    let (samples, best): ([u16; 3], (&[u8], f64)) = ([0, 1, 1], (&[0, 1, 0], -10.0));
    assert_rival(&p, &samples, 0, (&[1, 1, 0], -12.0), best);
    assert_rival(&p, &samples, 1, (&[0, 0, 0], -10.0), best);
    assert_rival(&p, &samples, 2, (&[0, 1, 1], -11.0), best);
}

#[test]
fn the_highest_numbered_of_equal_ones_wins() {
    let (tied, samples) = (all_zero(3, 1), [0, 0, 0]);
    let best: (&[u8], f64) = (&[2, 2, 2], 0.0);
    assert_rival(&tied, &samples, 0, (&[1, 2, 2], 0.0), best);
    assert_rival(&tied, &samples, 1, (&[2, 1, 2], 0.0), best);
    assert_rival(&tied, &samples, 2, (&[2, 2, 1], 0.0), best);
}

#[test]
fn each_value_has_the_sign_of_its_own_path() {
    let mut zeros = all_zero(3, 1);
    (zeros.initial, zeros.emission) = (vec![-0.0, 0.0, -0.0], vec![-0.0; 3]);
    assert_rival(&zeros, &[0], 0, (&[1], 0.0), (&[2], -0.0));
    zeros.initial = vec![0.0, -0.0, 0.0];
    assert_rival(&zeros, &[0], 0, (&[1], -0.0), (&[2], 0.0));
}

#[test]
fn the_state_is_barred_at_the_index_alone() {
    let mut sticky = model_p();
    (sticky.initial, sticky.emission) = (vec![-1.0, -5.0], vec![-1.0, -4.0]);
    assert_rival(&sticky, &[0; 6], 3, (&[0, 0, 0, 1, 0, 0], -17.0), (&[0; 6], -12.0));
}

#[test]
fn refusal_15_no_path_with_another_state() {
    assert_refused(&call(&all_zero(1, 1), &[0, 0], 1), NO_RIVAL, 0, 0);
    // Nothing leads to the other state: there is a rival at the first sample and none at the last.
    let mut one_way = all_zero(2, 1);
    one_way.transition = vec![-1.0, MINUS, -1.0, MINUS];
    (one_way.initial, one_way.emission) = (vec![-1.0, -2.0], vec![-1.0, -1.0]);
    assert_rival(&one_way, &[0, 0], 0, (&[1, 0], -5.0), (&[0, 0], -4.0));
    assert_refused(&call(&one_way, &[0, 0], 1), NO_RIVAL, 0, 0);
    // No path at all.
    one_way.initial = vec![MINUS; 2];
    assert_refused(&call(&one_way, &[0, 0], 0), NO_RIVAL, 0, 0);
    // There is no way out of the other state.
    let mut no_way_out = all_zero(2, 1);
    (no_way_out.ends, no_way_out.end) = (true, vec![0.0, MINUS]);
    assert_refused(&call(&no_way_out, &[0], 0), NO_RIVAL, 0, 0);
    // The other state's score overflows.
    let mut huge = all_zero(2, 1);
    (huge.initial, huge.emission) = (vec![-1.0, -f64::MAX], vec![-1.0, -f64::MAX]);
    assert_refused(&call(&huge, &[0], 0), NO_RIVAL, 0, 0);
}

#[test]
fn refusal_16_no_sample_has_the_index() {
    let p = model_p();
    for index in [3, 4, usize::MAX] {
        assert_refused(&call(&p, &[0, 1, 1], index), BAD_INDEX, 0, 0);
    }
    assert_refused(&call(&p, &[], 0), BAD_INDEX, 0, 0);
    // Before 15, and after 8 and 7.
    assert_refused(&call(&all_zero(1, 1), &[0], 1), BAD_INDEX, 0, 0);
    assert_refused(&call(&p, &[0, 1, 2], 3), UNKNOWN_SYMBOL, SAMPLES, 2);
    let mut bad = model_p();
    bad.transition[3] = f64::NAN;
    assert_refused(&call(&bad, &[], 0), NOT_GOOD, TRANSITION, 3);
}

/// The answer where one of the outputs is by one place too short.
fn with_one_short(short: usize) -> Answer {
    let lengths: Vec<usize> = [3, 3, 6, 6]
        .iter()
        .enumerate()
        .map(|(place, needed)| needed - usize::from(place == short))
        .collect();
    let mut bytes = [0, 1, 3].map(|place| vec![BYTE; lengths[place]]);
    let [path, rival_path, from] = &mut bytes;
    rival(
        &model_p().model(),
        &[0, 1, 1],
        1,
        path,
        rival_path,
        &mut vec![NUMBER; lengths[2]],
        from,
    )
    .answer
}

#[test]
fn refusal_6_names_each_output() {
    for (short, length) in [2, 2, 5, 5].into_iter().enumerate() {
        let expected = Answer::refused(OUTPUT_TOO_SHORT, 5 + short as u8, length);
        let answer = with_one_short(short);
        assert!(answer.same_bits(&expected), "{answer:?} instead of {expected:?}");
    }
}
