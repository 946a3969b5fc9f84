//! That the rule, the cases and the comparison see what is wrong.

use super::rounds::{with, Put, SIZES};
use super::{by_the_rule, first_fault, is_good, is_good_in, round, BLOCK, MINUS_INFINITY, MINUS_ZERO};
use crate::case::{ordinary, Case, Sizes};
use crate::engine::{Engine, Given, REFERENCE};
use crate::lent::{lend, Call, Output};
use crate::likeness;
use crate::random::Random;
use reference::answer::NOT_GOOD;
use reference::Answer;

/// Answers a call.
type Answers = fn(Call, &Case, &mut [Output]) -> Given;

/// Looks for the first bad word of a table.
type Finds = fn(&[u64]) -> Option<usize>;

/// A place of the transition table that is bad in the cases below.
const PLACE: usize = 64;

/// A model with one bad entry, on so many samples.
fn bad(samples: usize) -> Case {
    let sizes = Sizes {
        states: 9,
        symbols: 2,
        samples,
    };
    let put = Put {
        table: 0,
        place: PLACE,
        word: MINUS_INFINITY + 1,
    };
    with(&ordinary(sizes, &mut Random::new(1)), &[put])
}

/// Whether the comparison sees that an answer is wrong: by the rule, and beside the reference.
fn is_seen(call: Answers, case: &Case) -> [bool; 2] {
    let engine = Engine { call, ..REFERENCE };
    let lent = lend(Call::Viterbi, case, &mut Random::new(2));
    let by_the_rule = by_the_rule(&engine, case, lent.clone());
    let beside = likeness::library(&engine, Call::Viterbi, case, lent);
    [by_the_rule.wrong.is_some(), beside.wrong.is_some()]
}

#[test]
fn a_wrong_answer_is_seen() {
    let wrong: [Answers; 5] = [
        |_, _, _| Answer::done(f64::NEG_INFINITY).into(),
        |_, _, _| Answer::refused(NOT_GOOD, 0, PLACE + 1).into(),
        |_, _, _| Answer::refused(NOT_GOOD, 0, PLACE - 1).into(),
        |_, _, _| Answer::refused(NOT_GOOD, 1, PLACE).into(),
        |_, _, _| {
            let refused = Answer::refused(NOT_GOOD, 0, PLACE);
            Answer { value: 0.0, ..refused }.into()
        },
    ];
    for answer in wrong {
        assert_eq!(is_seen(answer, &bad(0)), [true; 2]);
    }
    assert_eq!(
        is_seen(|_, _, _| Answer::refused(NOT_GOOD, 0, PLACE).into(), &bad(0)),
        [false; 2]
    );
}

#[test]
fn a_good_entry_that_is_refused_is_seen() {
    let put = Put {
        table: 0,
        place: PLACE,
        word: MINUS_INFINITY,
    };
    for samples in [0, 2] {
        let good = with(&bad(samples), &[put]);
        assert_eq!(
            is_seen(|_, _, _| Answer::refused(NOT_GOOD, 0, PLACE).into(), &good),
            [true; 2]
        );
        assert_eq!(is_seen(REFERENCE.call, &good), [false; 2]);
    }
}

#[test]
fn memory_that_changes_is_seen() {
    let writes = |call: Call, case: &Case, outputs: &mut [Output]| {
        if let Output::Bytes(path) = &mut outputs[0] {
            path[0] ^= 1;
        }
        (REFERENCE.call)(call, case, outputs)
    };
    assert_eq!(is_seen(writes, &bad(2)), [true; 2]);
    assert_eq!(is_seen(REFERENCE.call, &bad(2)), [false; 2]);
}

/// Ways to look for the first bad word of a table that are wrong, each in its own way.
const WRONG: [(&str, Finds); 12] = [
    ("nothing is bad", |_| None),
    ("the last is named", |words| {
        words.iter().rposition(|word| !is_good(*word))
    }),
    ("NaN with a sign is good", |words| {
        words.iter().position(|word| *word != 0 && *word < MINUS_ZERO)
    }),
    ("signalling NaN with a sign is good", |words| {
        let is_bad = |word: &u64| !is_good(*word) && !(MINUS_INFINITY..MINUS_INFINITY | 1 << 51).contains(word);
        words.iter().position(is_bad)
    }),
    ("the low half is not looked at", |words| {
        words.iter().position(|word| !is_good(word >> 32 << 32))
    }),
    ("minus infinity is bad", |words| {
        words.iter().position(|word| !is_good(*word) || *word == MINUS_INFINITY)
    }),
    ("-0.0 is bad", |words| {
        words.iter().position(|word| !is_good(*word) || *word == MINUS_ZERO)
    }),
    ("what is left after whole blocks is not looked at", |words| {
        let whole = words.len() / BLOCK * BLOCK;
        words[..whole].iter().position(|word| !is_good(*word))
    }),
    ("the first block is not looked at", |words| {
        let bad = |place: &usize| !is_good(words[*place]);
        (BLOCK..words.len()).find(bad)
    }),
    ("the last of a block is not looked at", |words| {
        let bad = |place: &usize| place % BLOCK != BLOCK - 1 && !is_good(words[*place]);
        (0..words.len()).find(bad)
    }),
    ("a block is named by its first place", |words| {
        let place = words.iter().position(|word| !is_good(*word))?;
        Some(place / BLOCK * BLOCK)
    }),
    ("two bad ones in a block cancel each other", |words| {
        let bad = |place: &usize| !is_good(words[*place]);
        let is_odd = |place: &usize| {
            let start = place / BLOCK * BLOCK;
            let block = start..words.len().min(start + BLOCK);
            block.filter(bad).count() % 2 == 1
        };
        (0..words.len()).find(|place| bad(place) && is_odd(place))
    }),
];

/// The fault that such a way finds in the three tables that it is meant for.
fn found(finds: Finds, case: &Case) -> Option<(u8, usize)> {
    let model = case.model();
    let mut tables = (0..3).zip(model.tables());
    tables.find_map(|(number, table)| {
        let words: Vec<u64> = table.iter().map(|entry| entry.to_bits()).collect();
        Some((number, finds(&words)?))
    })
}

/// A round with tables of two blocks and more, but for cases whose first fault is in the end table.
fn of_three_tables() -> impl Iterator<Item = Case> {
    let cases = round(4, &mut Random::new(3));
    cases.filter(|case| first_fault(case).is_none_or(|(table, _)| table < 3))
}

#[test]
fn a_round_tells_wrong_ways_to_look_from_the_right_one() {
    for (name, finds) in WRONG {
        let is_wrong = |case: Case| found(finds, &case) != first_fault(&case);
        assert!(of_three_tables().any(is_wrong), "{name}");
    }
    let right = |words: &[u64]| words.iter().position(|word| !is_good(*word));
    assert!(of_three_tables().all(|case| found(right, &case) == first_fault(&case)));
}

/// The cases of as many rounds as have every size once.
fn of_all_sizes() -> impl Iterator<Item = Case> {
    let mut random = Random::new(4);
    (0..SIZES.len()).flat_map(move |number| round(number, &mut random))
}

#[test]
fn cases_are_done_and_refused_in_every_table_with_an_end_state_and_without() {
    let mut counts = [[0; 5]; 2];
    for case in of_all_sizes() {
        let table = first_fault(&case).map_or(4, |(table, _)| usize::from(table));
        counts[usize::from(case.shape.ends)][table] += 1;
    }
    assert!(counts.as_flattened().iter().all(|count| *count > 1000), "{counts:?}");
}

/// Every entry that is bad, by table and place.
fn faults(case: &Case) -> Vec<(u8, usize)> {
    let model = case.model();
    let tables = (0..).zip(model.tables());
    let places = tables.flat_map(|(number, table)| {
        let is_bad = move |place: &usize| !is_good_in(case, number, table[*place].to_bits());
        (0..table.len()).filter(is_bad).map(move |place| (number, place))
    });
    places.collect()
}

#[test]
fn two_bad_entries_are_in_one_block_in_two_blocks_and_in_two_tables() {
    let [mut one_block, mut two_blocks, mut two_tables] = [0; 3];
    for case in of_all_sizes() {
        if let [first, second] = faults(&case)[..] {
            let is_one_block = first.1 / BLOCK == second.1 / BLOCK;
            match first.0 == second.0 {
                true if is_one_block => one_block += 1,
                true => two_blocks += 1,
                false => two_tables += 1,
            }
        }
    }
    let counts = [one_block, two_blocks, two_tables];
    assert!(counts.iter().all(|count| *count > 300), "{counts:?}");
}
