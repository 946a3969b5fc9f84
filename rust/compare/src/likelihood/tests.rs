//! That a likelihood under the best path is seen, and that the models are close enough to tell.

mod wrong;

use super::gaps::{Below, Gaps};
use super::{close, model_a, walked, Totals, Walks, BELOW, HALF, KINDS, MINUS, WALKS};
use crate::case::Case;
use crate::engine::{Engine, REFERENCE};
use crate::lent::{lend, Output};
use crate::likeness;
use crate::random::Random;
use crate::rival::random_small;
use crate::shrink::smallest;
use crate::verdict::Verdict;
use wrong::{step_under, Seen, LIKELIHOODS};

/// How many close models of each kind are looked at.
const OF_EACH: usize = 64;

/// Model A, without samples too; close models of every kind; small ones.
fn cases() -> Vec<Case> {
    let random = &mut Random::new(1);
    let mut no_samples = model_a();
    no_samples.samples.clear();
    let mut cases = vec![model_a(), no_samples];
    cases.extend((0..OF_EACH * KINDS.len()).map(|number| close(number, random)));
    cases.extend((0..OF_EACH).map(|_| random_small(random)));
    cases
}

/// Who sees that an engine is wrong, on these cases.
fn seen(engine: &Engine, cases: &[Case]) -> Seen {
    let beside = |case: &Case| {
        let differs = |call| likeness::library(engine, call, case, lend(call, case, &mut Random::new(2))).wrong;
        WALKS.into_iter().any(|call| differs(call).is_some())
    };
    [
        cases.iter().any(|case| is_under(engine, case)),
        cases.iter().any(beside),
    ]
}

fn is_under(engine: &Engine, case: &Case) -> bool {
    Walks::by(engine, case).never_under().wrong.is_some()
}

/// The call of the wrong likelihood of this name.
fn named(name: &str) -> Engine {
    let wrong = LIKELIHOODS.iter().find(|(known, ..)| *known == name);
    let (_, _, call) = wrong.expect("a wrong likelihood");
    Engine {
        call: *call,
        ..REFERENCE
    }
}

#[test]
fn every_wrong_likelihood_is_told_from_the_right_one() {
    let cases = cases();
    for (name, by, call) in LIKELIHOODS {
        assert_eq!(seen(&Engine { call, ..REFERENCE }, &cases), by, "{name}");
    }
    assert_eq!(seen(&REFERENCE, &cases), [false; 2]);
}

#[test]
fn model_a_alone_tells_by_one_step() {
    let seen = [
        "the answer is backward's",
        "the answer is one step under Viterbi's value",
        "the last cell is one step under Viterbi's",
        "the answer is NaN",
        "transition and emission are added to each other first",
        "a sum is rounded down",
    ];
    assert!(seen.iter().all(|name| is_under(&named(name), &model_a())));
    assert!(!is_under(&REFERENCE, &model_a()));
    assert_eq!(Walks::by(&REFERENCE, &model_a()).are_gate_posts().wrong, None);
    let gate_posts = |name: &str| Walks::by(&named(name), &model_a()).are_gate_posts();
    assert!(gate_posts("everything is certain").wrong.is_some());
}

#[test]
fn backward_that_is_not_below_on_model_a_is_seen() {
    let mut walks = Walks::by(&REFERENCE, &model_a());
    walks.backward.given.answer.value = -1.0;
    assert_eq!(walks.never_under().wrong, None);
    assert!(walks.are_gate_posts().wrong.is_some());
}

#[test]
fn a_wrong_likelihood_is_shown_by_its_smallest_case() {
    let shown = |name: &str| {
        let engine = named(name);
        let shows = |case: &Case| is_under(&engine, case);
        let cases = cases();
        let long = cases
            .iter()
            .filter(|case| shows(case))
            .max_by_key(|case| case.samples.len());
        let case = smallest(long.expect("a case that shows it"), &shows);
        (case.shape.states, case.samples.len())
    };
    assert_eq!(shown("the last cell is one step under Viterbi's"), (1, 1));
    assert_eq!(shown("the table is by columns"), (2, 2));
}

#[test]
fn bio_is_never_under_with_our_kernels() {
    let Some(modes) = oracle::modes() else { return };
    for case in cases() {
        let walks = Walks::of_bio(&modes.kernels, &case);
        assert_eq!(walks.is_none(), case.samples.is_empty());
        assert_eq!(walks.and_then(|walks| walks.never_under().wrong), None, "{case:?}");
    }
    let mut walks = Walks::of_bio(&modes.kernels, &model_a()).expect("there are samples");
    assert_eq!(walks.are_gate_posts().wrong, None);
    walks.forward.given.answer.value = BELOW;
    assert!(walks.never_under().wrong.is_some());
}

#[test]
fn at_least_is_that_of_f64() {
    let holds = |ours: f64, theirs: f64| {
        let mut verdict = Verdict::default();
        verdict.at_least("number", ours, theirs);
        verdict.each_at_least("table", &[ours], &[theirs]);
        assert_eq!(verdict.numbers, 3);
        verdict.wrong.is_none()
    };
    assert!([(0.0, -0.0), (-0.0, 0.0), (MINUS, MINUS), (-1.0, -1.0), (-1.0, MINUS)]
        .iter()
        .all(|(a, b)| holds(*a, *b)));
    let under = [
        (step_under(-1.0), -1.0),
        (step_under(0.0), -0.0),
        (MINUS, -f64::MAX),
        (f64::NAN, MINUS),
        (0.0, f64::NAN),
        (f64::NAN, f64::NAN),
    ];
    assert!(!under.iter().any(|(a, b)| holds(*a, *b)));
    let mut verdict = Verdict::default();
    verdict.each_at_least("table", &[0.0], &[0.0, 0.0]);
    assert!(verdict.wrong.is_some());
}

/// Walks of one state whose answers are forward's, Viterbi's and backward's, and whose cells are those of the first two.
fn walks(likelihood: f64, best: f64, backward: f64) -> Walks {
    let from = || Output::Bytes(vec![0]);
    Walks {
        viterbi: walked(best, vec![from(), Output::Numbers(vec![best]), from()]),
        forward: walked(likelihood, vec![Output::Numbers(vec![likelihood])]),
        backward: walked(backward, vec![Output::Numbers(vec![0.0])]),
    }
}

#[test]
fn gaps_are_counted() {
    let mut totals = Totals::default();
    let told = [
        (-1.0, -1.0, BELOW),
        (MINUS, MINUS, MINUS),
        (0.0, -0.0, 0.0),
        (-1.0, -4.0, -8.0),
        (-1.0, -1.5, MINUS),
    ];
    told.iter().for_each(|(a, b, c)| totals.add(&walks(*a, *b, *c)));
    let gaps = Gaps {
        pairs: 5,
        equal: 3,
        impossible: 1,
        least: 0.0,
        least_above: 0.5,
        greatest: 3.0,
    };
    assert_eq!((totals.answers, totals.cells), (gaps, gaps));
    let below = Below {
        times: 3,
        impossible: 1,
        most: 4.0,
        most_of_the_value: 1.0,
    };
    assert_eq!(totals.backward, below);
    totals.add(&walks(-1.0 - 2.0 * HALF, -1.0, -1.0));
    assert_eq!(totals.answers.least, -2.0 * HALF);
}

#[test]
fn no_samples_have_no_gap() {
    let mut none = model_a();
    none.samples.clear();
    let mut totals = Totals::default();
    totals.add(&Walks::by(&REFERENCE, &none));
    assert_eq!(totals, Totals::default());
}

/// Close models of a kind.
fn of_kind(kind: usize) -> Vec<Case> {
    let random = &mut Random::new(3);
    let (_, make) = KINDS[kind];
    (0..4 * OF_EACH).map(|_| make(random)).collect()
}

fn totals(cases: &[Case]) -> Totals {
    let mut totals = Totals::default();
    cases.iter().for_each(|case| totals.add(&Walks::by(&REFERENCE, case)));
    totals
}

#[test]
fn close_models_are_close() {
    for (kind, (name, _)) in KINDS.iter().enumerate() {
        for case in of_kind(kind) {
            let [likelihood, best, _] = Walks::by(&REFERENCE, &case).answers();
            let is_close = likelihood == best || likelihood - best < 1e-3 * best.abs().max(1.0);
            assert!(is_close, "{name}: {likelihood} beside {best}");
        }
    }
}

#[test]
fn close_models_are_equal_and_possible_and_end_both_ways() {
    for (kind, (name, _)) in KINDS.iter().enumerate() {
        let cases = of_kind(kind);
        let totals = totals(&cases);
        let possible = totals.answers.equal - totals.answers.impossible;
        assert!(
            possible > OF_EACH as u64 / 4,
            "{name}: {possible} are equal and possible"
        );
        let ends = cases.iter().filter(|case| case.shape.ends).count();
        assert!((OF_EACH..3 * OF_EACH).contains(&ends), "{name}: {ends} end");
    }
}
