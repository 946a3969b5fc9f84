//! That the rule, the files and each comparison see what is wrong.

mod wrong;

use super::files::DAMAGES;
use super::rule::{self, file_of};
use super::{
    by_the_rule, length_by_the_rule, library, read_back, round, shapes, told_by_its_place, written_again,
    written_by_the_rule, Lent,
};
use crate::case::{any, Case, Sizes};
use crate::damage;
use crate::engine::{Engine, ModelFile, REFERENCE};
use crate::lent::{lend, Call, Output};
use crate::likeness;
use crate::random::Random;
use reference::answer::DONE;
use reference::Shape;
use wrong::{Answers, Reads, READERS, WRITERS};

fn reader(read: Reads) -> Engine {
    Engine {
        model_file: ModelFile {
            read,
            ..REFERENCE.model_file
        },
        ..REFERENCE
    }
}

/// The wrong reader of this name.
fn named(name: &str) -> Engine {
    let (_, read) = READERS
        .iter()
        .find(|(known, _)| *known == name)
        .expect("a wrong reader");
    reader(*read)
}

/// The files of some rounds, most of them on small models.
fn files() -> impl Iterator<Item = Lent> {
    let mut random = Random::new(1);
    (1..=64).flat_map(move |number| round(number, &mut random).1)
}

/// Models of two states and two symbols, without an end state and with one.
fn small() -> [Case; 2] {
    let ends = Case {
        shape: Shape {
            states: 2,
            symbols: 2,
            ends: true,
        },
        transition: vec![-1.0, -2.0, -2.0, -1.0],
        emission: vec![-1.0, -3.0, -3.0, -0.0],
        initial: vec![-1.0, -2.0],
        end: vec![-0.0, -4.0],
        samples: Vec::new(),
        index: 0,
    };
    [ends.without_end_state(), ends]
}

#[test]
fn every_wrong_reader_is_told_from_the_right_one() {
    let files: Vec<Lent> = files().collect();
    for (name, read) in READERS {
        let engine = reader(read);
        assert!(
            files.iter().any(|lent| by_the_rule(&engine, lent).wrong.is_some()),
            "{name}"
        );
        assert!(
            files.iter().any(|lent| library(&engine, lent).wrong.is_some()),
            "{name}"
        );
    }
    for lent in &files {
        assert_eq!(by_the_rule(&REFERENCE, lent).wrong, None);
        assert_eq!(library(&REFERENCE, lent).wrong, None);
    }
}

/// Whether a flip at every bit of the small files is told by its place.
fn flips_are_told(engine: &Engine) -> bool {
    small().iter().all(|case| {
        let whole = Lent::of(case, [0; 4]);
        let mut bits = (0..whole.file.len()).flat_map(|place| (0..8).map(move |bit| (place, bit)));
        bits.all(|(place, bit)| {
            let flipped = whole.flipped(place, bit);
            told_by_its_place(engine, case.shape, &flipped, place).wrong.is_none()
        })
    })
}

#[test]
fn a_flip_that_passes_is_seen() {
    for name in [
        "the sum skips the last word",
        "an offset is not compared",
        "a table number is not compared",
        "the flag's high byte is not looked at",
        "any flag but 1 is none",
        "the number of entries is not looked at",
    ] {
        assert!(!flips_are_told(&named(name)), "{name}");
    }
    assert!(flips_are_told(&REFERENCE));
}

#[test]
fn what_is_read_and_is_not_the_file_is_seen() {
    let files: Vec<Lent> = files().collect();
    let differs = |engine: Engine| {
        let mut verdicts = files.iter().filter_map(move |lent| written_again(&engine, lent));
        verdicts.any(|verdict| verdict.wrong.is_some())
    };
    for name in [
        "an offset is not compared",
        "a table number is not compared",
        "bytes after the bodies pass",
        "missing bytes are read as 0",
        "the flag's high byte is not looked at",
        "any flag but 1 is none",
        "the number of entries is not looked at",
        "the end table is not filled",
        "-0.0 is read as +0.0",
        "the shape is always without an end state",
    ] {
        assert!(differs(named(name)), "{name}");
    }
    assert!(!differs(REFERENCE));
}

#[test]
fn every_wrong_writer_is_told_from_the_right_one() {
    let [_, ends] = small();
    let lent = |case: &Case| vec![Output::Bytes(vec![0x5a; rule::length(case.shape) + 2])];
    for (name, call) in WRITERS {
        let engine = Engine { call, ..REFERENCE };
        assert!(written_by_the_rule(&engine, &ends).wrong.is_some(), "{name}");
        let beside = likeness::library(&engine, Call::WriteModel, &ends, lent(&ends));
        assert!(beside.wrong.is_some(), "{name}");
        let is_in_the_file = !["a byte of surplus is written", "done is minus infinity"].contains(&name);
        assert_eq!(read_back(&engine, &ends).wrong.is_some(), is_in_the_file, "{name}");
    }
    for case in small() {
        assert_eq!(written_by_the_rule(&REFERENCE, &case).wrong, None);
        assert_eq!(read_back(&REFERENCE, &case).wrong, None);
        let beside = likeness::library(&REFERENCE, Call::WriteModel, &case, lent(&case));
        assert_eq!(beside.wrong, None);
    }
}

#[test]
fn a_writer_that_writes_before_it_refuses_is_seen() {
    let writes: Answers = |call, case, outputs| {
        if let Output::Bytes(file) = &mut outputs[0] {
            file[0] ^= 1;
        }
        (REFERENCE.call)(call, case, outputs)
    };
    let [mut bad, _] = small();
    bad.initial[1] = f64::NAN;
    let lent = lend(Call::WriteModel, &bad, &mut Random::new(2));
    for (call, is_wrong) in [(writes, true), (REFERENCE.call, false)] {
        let engine = Engine { call, ..REFERENCE };
        let verdict = likeness::library(&engine, Call::WriteModel, &bad, lent.clone());
        assert_eq!(verdict.wrong.is_some(), is_wrong);
    }
}

#[test]
fn damaged_models_are_refused_by_the_writer_for_all_that_it_looks_at() {
    let mut met = [0; 15];
    let random = &mut Random::new(3);
    for number in 0..500 {
        let case = any(Sizes::sweep(number, 0, random), random);
        let Some(damaged) = damage::damaged(Call::WriteModel, &case, random) else {
            continue;
        };
        let mut outputs = lend(Call::WriteModel, &case, random);
        damaged.cut(&mut outputs);
        let verdict = likeness::memory(Call::WriteModel, &damaged.case, Some(damaged.named), outputs);
        assert_eq!(verdict.wrong, None);
        met[usize::from(verdict.refusal)] += 1;
    }
    let is_met = |refusal: &usize| met[*refusal] > 0;
    assert!(
        [1, 2, 5, 6, 7].iter().all(is_met) && met.iter().filter(|count| **count > 0).count() == 5,
        "{met:?}"
    );
}

#[test]
fn a_wrong_length_is_seen() {
    let wrong: [fn(Shape) -> usize; 3] = [
        |shape| rule::length(Shape { ends: false, ..shape }),
        |shape| {
            rule::length(Shape {
                states: shape.states.min(64),
                ..shape
            })
        },
        |shape| match shape.symbols {
            256 => 0,
            _ => rule::length(shape),
        },
    ];
    let engine = |length| Engine {
        model_file: ModelFile {
            length,
            ..REFERENCE.model_file
        },
        ..REFERENCE
    };
    for length in wrong {
        assert!(shapes().any(|shape| length_by_the_rule(&engine(length), shape).wrong.is_some()));
    }
    assert!(shapes().all(|shape| length_by_the_rule(&REFERENCE, shape).wrong.is_none()));
}

/// What each kind of damage alone leads to, in the order of `DAMAGES`.
const LEADS_TO: [&[u8]; 18] = [
    &[1, 2, 13, 14],
    &[0, 1, 2, 13, 14],
    &[13],
    &[13],
    &[0, 1, 2, 13],
    &[0, 13],
    &[0, 14],
    &[0, 14],
    &[0],
    &[0, 7],
    &[0, 7],
    &[7],
    &[14],
    &[0, 6],
    &[1, 2, 13],
    &[13],
    &[14],
    &[0, 7],
];

#[test]
fn each_kind_of_damage_leads_to_what_it_is_meant_for() {
    let mut met = vec![Vec::new(); DAMAGES.len()];
    let random = &mut Random::new(4);
    for number in 0..1024 {
        let (case, files) = round(number * 16 + 1, random);
        assert_eq!(files[0].file, file_of(&case));
        for (met, lent) in met.iter_mut().zip(&files[1..]) {
            met.push(rule::fault(lent).map_or(DONE, |(refusal, ..)| refusal));
        }
    }
    for ((mut met, expected), (name, _)) in met.into_iter().zip(LEADS_TO).zip(DAMAGES) {
        met.sort_unstable();
        met.dedup();
        assert_eq!(met, expected, "{name}");
    }
}

#[test]
fn exchanged_words_are_another_model() {
    let random = &mut Random::new(5);
    let place = DAMAGES.iter().position(|(name, _)| *name == "two words exchanged");
    let place = 1 + place.expect("a kind of damage");
    let exchanged = (1..64).filter(|number| {
        let (_, files) = round(*number, random);
        let [whole, other] = [0, place].map(|place| files[place].read_by(&REFERENCE));
        assert_eq!(other.reading.answer.refusal, DONE);
        whole.tables != other.tables
    });
    assert!(exchanged.count() > 10);
}
