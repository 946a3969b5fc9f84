//! That each comparison sees what is wrong, and that the cases tell.

mod wrong;

use super::{against_bio, all_paths, at_every_index, on_a_grid, random_small};
use crate::case::{any, Case, Sizes};
use crate::damage::{self, Damaged};
use crate::engine::{Engine, REFERENCE};
use crate::lent::{lend, Call, Output};
use crate::likeness;
use crate::random::Random;
use crate::shrink::smallest;
use oracle::Modes;
use reference::answer::{BAD_INDEX, DONE, NO_RIVAL};
use wrong::{Seen, RIVALS};

/// Random small models at each index, and at the one after the last.
fn small() -> Vec<Case> {
    let random = &mut Random::new(1);
    let models = (0..600).map(|_| random_small(random));
    let cases = models.flat_map(|case| {
        at_every_index(&case)
            .chain([case.at(case.samples.len())])
            .collect::<Vec<_>>()
    });
    cases.collect()
}

/// Damaged models, and the outputs that they are lent.
fn damaged() -> Vec<(Damaged, Vec<Output>)> {
    let random = &mut Random::new(2);
    let cases = (0..1500).filter_map(|number| {
        let sizes = Sizes {
            states: 1 + number % 5,
            symbols: 1 + number % 3,
            samples: random.below(6),
        };
        let mut case = any(sizes, random);
        case.index = random.below(sizes.samples.max(1));
        let damaged = damage::damaged(Call::Rival, &case, random)?;
        let mut outputs = lend(Call::Rival, &case, random);
        damaged.cut(&mut outputs);
        Some((damaged, outputs))
    });
    cases.collect()
}

/// Who sees that an engine is wrong, on these cases.
fn seen(engine: &Engine, modes: &Modes, small: &[Case], damaged: &[(Damaged, Vec<Output>)]) -> Seen {
    let (bio, add) = (&modes.published, modes.published.leaves.add);
    let lent = |case: &Case| lend(Call::Rival, case, &mut Random::new(3));
    let beside = |case: &Case, lent: Vec<Output>| likeness::library(engine, Call::Rival, case, lent);
    let memory = |case: &Case, named, lent| likeness::memory_by(engine, Call::Rival, case, named, lent);
    let is_beside = |(damaged, lent): &(Damaged, Vec<Output>)| beside(&damaged.case, lent.clone()).wrong.is_some();
    let is_refused = |(damaged, lent): &(Damaged, Vec<Output>)| {
        memory(&damaged.case, Some(damaged.named), lent.clone()).wrong.is_some()
    };
    [
        small.iter().any(|case| against_bio(engine, bio, case).wrong.is_some()),
        small.iter().any(|case| all_paths(engine, add, case).wrong.is_some()),
        small.iter().any(|case| beside(case, lent(case)).wrong.is_some()) || damaged.iter().any(is_beside),
        small.iter().any(|case| memory(case, None, lent(case)).wrong.is_some()) || damaged.iter().any(is_refused),
    ]
}

#[test]
fn every_wrong_rival_is_told_from_the_right_one() {
    let Some(modes) = oracle::modes() else { return };
    let (small, damaged) = (small(), damaged());
    for (name, by, call) in RIVALS {
        let engine = Engine { call, ..REFERENCE };
        assert_eq!(seen(&engine, &modes, &small, &damaged), by, "{name}");
    }
    assert_eq!(seen(&REFERENCE, &modes, &small, &damaged), [false; 4]);
}

/// The call of the wrong rival of this name.
fn named(name: &str) -> Engine {
    let wrong = RIVALS.iter().find(|(known, ..)| *known == name);
    let (_, _, call) = wrong.expect("a wrong rival");
    Engine {
        call: *call,
        ..REFERENCE
    }
}

#[test]
fn a_wrong_rival_is_shown_by_its_smallest_case() {
    let Some(modes) = oracle::modes() else { return };
    let shown = |name: &str| {
        let engine = named(name);
        let is_seen = |case: &Case| against_bio(&engine, &modes.published, case).wrong.is_some();
        let cases = small();
        let long = cases
            .iter()
            .filter(|case| is_seen(case))
            .max_by_key(|case| case.samples.len());
        smallest(long.expect("a case that shows it"), &is_seen)
    };
    let case = shown("the chosen state is allowed at the last sample");
    assert_eq!((case.shape.states, case.samples.len(), case.index), (1, 1, 0));
    let case = shown("the state is barred one sample later");
    assert_eq!((case.shape.states, case.samples.len(), case.index), (1, 1, 0));
    let case = shown("15 where the rival ties with the best path");
    assert_eq!((case.shape.states, case.samples.len(), case.index), (2, 1, 0));
    let case = shown("the state is barred at every sample of the same symbol");
    assert_eq!((case.shape.states, case.samples.len()), (2, 2));
}

#[test]
fn small_models_have_ties_zeros_and_no_rivals() {
    let [mut tied, mut alone, mut beyond, mut negative, mut ends] = [0; 5];
    for case in small() {
        let given = (REFERENCE.call)(Call::Rival, &case, &mut lend(Call::Rival, &case, &mut Random::new(4)));
        let best = given.beside.expect("a rival has a best path beside it").best;
        match given.answer.refusal {
            DONE => {
                tied += u32::from(given.answer.value == best);
                negative += u32::from(given.answer.value.to_bits() == (-0.0_f64).to_bits());
                ends += u32::from(case.shape.ends);
            }
            NO_RIVAL => alone += u32::from(case.shape.states > 1),
            BAD_INDEX => beyond += 1,
            refusal => panic!("refusal {refusal}"),
        }
    }
    let counts = [tied, alone, beyond, negative, ends];
    assert!(counts.iter().all(|count| *count > 40), "{counts:?}");
}

#[test]
fn damaged_models_are_refused_for_all_that_is_looked_at() {
    let mut met = [0; 17];
    for (damaged, lent) in damaged() {
        let verdict = likeness::memory(Call::Rival, &damaged.case, Some(damaged.named), lent);
        assert_eq!(verdict.wrong, None);
        met[usize::from(verdict.refusal)] += 1;
    }
    let refusals: Vec<usize> = (0..met.len()).filter(|refusal| met[*refusal] > 20).collect();
    assert_eq!(refusals, [1, 2, 3, 5, 6, 7, 8, 16], "{met:?}");
}

#[test]
fn models_on_a_grid_are_all_there_and_each_once() {
    let cases: Vec<Case> = on_a_grid().collect();
    assert_eq!(cases.len(), 4_usize.pow(8) + 3_usize.pow(10));
    let entries = |case: &Case| -> Vec<u64> {
        let model = case.model();
        let entries = model.tables().concat();
        entries
            .iter()
            .map(|entry| entry.to_bits())
            .chain([u64::from(case.shape.ends)])
            .collect()
    };
    let mut words: Vec<Vec<u64>> = cases.iter().map(entries).collect();
    words.sort_unstable();
    words.dedup();
    assert_eq!(words.len(), cases.len());
}
