//! Model files: the reader and the writer held to a rule on bytes, and the library to the reference.
//!
//! bio has no model file. So the third beside the library and the reference is a rule that says of every byte what it
//! must be, and of a flipped bit what it must lead to by its place alone.

mod files;
mod rule;
mod to_freeze;

pub use files::round;
pub use to_freeze::{lengths_to_freeze, models_to_freeze, refused_to_freeze, to_freeze};

use crate::case::Case;
use crate::damage::Named;
use crate::engine::{Engine, REFERENCE};
use crate::frozen::{FILL, FILLED};
use crate::lent::{Call, Output};
use crate::verdict::Verdict;
use reference::answer::{BAD_LAYOUT, BAD_STATES, BAD_SUM, BAD_SYMBOLS, DONE, FIRST_OUTPUT};
use reference::{Answer, Reading, Shape, Tables};

/// How many bytes more than its length a file is lent.
const SURPLUS: usize = 3;

/// A file, and the lengths of the tables that it is to be read into.
#[derive(Clone, Debug)]
pub struct Lent {
    pub file: Vec<u8>,
    pub lengths: [usize; 4],
}

/// What a reader answered, and the tables as it left them.
#[derive(Clone, Debug)]
pub struct Left {
    pub reading: Reading,
    pub tables: [Vec<f64>; 4],
}

impl Lent {
    /// The file of a model, to be read into tables with so many entries more than they need.
    pub fn of(case: &Case, surplus: [usize; 4]) -> Lent {
        let needed = case.shape.lengths();
        Lent {
            file: rule::file_of(case),
            lengths: [0, 1, 2, 3].map(|table| needed[table] + surplus[table]),
        }
    }

    /// Has the file read by somebody, into filled tables.
    pub fn read_by(&self, engine: &Engine) -> Left {
        let mut tables = self.lengths.map(|length| vec![FILLED; length]);
        let [transition, emission, initial, end] = &mut tables;
        let mut lent = Tables {
            transition,
            emission,
            initial,
            end,
        };
        let reading = (engine.model_file.read)(&self.file, &mut lent);
        Left { reading, tables }
    }

    /// The same with one bit of this byte another.
    pub fn flipped(&self, place: usize, bit: usize) -> Lent {
        let mut flipped = self.clone();
        flipped.file[place] ^= 1 << bit;
        flipped
    }
}

impl Left {
    /// The model that was read, if one was.
    fn model(&self) -> Option<Case> {
        let Reading { answer, shape } = self.reading;
        if answer.refusal != DONE {
            return None;
        }
        let needed = shape.lengths();
        let front = |table: usize| self.tables[table].get(..needed[table]).unwrap_or_default().to_vec();
        Some(Case {
            shape,
            transition: front(0),
            emission: front(1),
            initial: front(2),
            end: front(3),
            samples: Vec::new(),
            index: 0,
        })
    }
}

/// Somebody's answer to a file against the rule: answer, shape and every bit of the lent tables.
pub fn by_the_rule(engine: &Engine, lent: &Lent) -> Verdict {
    compared(&rule::left(lent), &lent.read_by(engine))
}

/// The library's answer to a file against the reference's: answer, shape and every bit of the lent tables.
pub fn library(library: &Engine, lent: &Lent) -> Verdict {
    compared(&lent.read_by(&REFERENCE), &lent.read_by(library))
}

fn compared(ours: &Left, theirs: &Left) -> Verdict {
    let mut verdict = Verdict {
        refusal: ours.reading.answer.refusal,
        ..Verdict::default()
    };
    verdict.answer(&ours.reading.answer, &theirs.reading.answer);
    verdict.shape(ours.reading.shape, theirs.reading.shape);
    for (number, (ours, theirs)) in (FIRST_OUTPUT + 1..).zip(ours.tables.iter().zip(&theirs.tables)) {
        verdict.table(&format!("output {number}"), ours, theirs);
    }
    verdict
}

/// Somebody's answer to the file of a model of this shape with one bit flipped, by the place of the flip alone.
pub fn told_by_its_place(engine: &Engine, shape: Shape, flipped: &Lent, place: usize) -> Verdict {
    let answer = flipped.read_by(engine).reading.answer;
    match told(shape, place) {
        Some((refusal, table, place)) => {
            let mut verdict = Verdict::default();
            verdict.answer(&Answer::refused(refusal, table, place), &answer);
            verdict
        }
        None => {
            let is_told = [BAD_STATES, BAD_SYMBOLS, BAD_LAYOUT].contains(&answer.refusal);
            Verdict {
                numbers: 1,
                wrong: (!is_told).then(|| format!("byte {place}: {answer:?}")),
                ..Verdict::default()
            }
        }
    }
}

/// What a flipped bit at this place is refused with: in a label 13 at the place, in a sum or a body 14 with its table.
/// None in the first numbers, where it is 1, 2 or 13 by more than the place.
fn told(shape: Shape, place: usize) -> Option<Named> {
    let mut tables = (0..).zip(rule::places(shape));
    tables.find_map(|(table, at)| match place {
        _ if (at.entry..at.sum()).contains(&place) => Some((BAD_LAYOUT, 0, place)),
        _ if (at.sum()..at.entry + 16).contains(&place) => Some((BAD_SUM, table, 0)),
        _ if (at.body..at.end()).contains(&place) => Some((BAD_SUM, table, 0)),
        _ => None,
    })
}

/// What somebody read, if anything, written again by the same: the file, and the lent surplus as it was.
pub fn written_again(engine: &Engine, lent: &Lent) -> Option<Verdict> {
    let model = lent.read_by(engine).model()?;
    Some(written_is(engine, &model, &lent.file))
}

/// Somebody's file of a good model against the rule's, and the lent surplus.
pub fn written_by_the_rule(engine: &Engine, case: &Case) -> Verdict {
    written_is(engine, case, &rule::file_of(case))
}

fn written_is(engine: &Engine, case: &Case, file: &[u8]) -> Verdict {
    let (answer, bytes) = written(engine, case);
    let mut verdict = Verdict::default();
    verdict.answer(&Answer::done(0.0), &answer);
    verdict.bytes("file", &[file, &[FILL; SURPLUS]].concat(), &bytes);
    verdict
}

/// The answer of somebody's writer, and the bytes that it was lent, as they are left.
fn written(engine: &Engine, case: &Case) -> (Answer, Vec<u8>) {
    let length = rule::length(case.shape) + SURPLUS;
    let mut outputs = [Output::Bytes(vec![FILL; length])];
    let answer = (engine.call)(Call::WriteModel, case, &mut outputs).answer;
    let [Output::Bytes(bytes)] = outputs else {
        unreachable!("a file is bytes");
    };
    (answer, bytes)
}

/// A good model written and read again by somebody: the same shape and the same bits.
pub fn read_back(engine: &Engine, case: &Case) -> Verdict {
    let (_, mut file) = written(engine, case);
    file.truncate(rule::length(case.shape));
    let lent = Lent {
        file,
        lengths: case.shape.lengths(),
    };
    let Some(model) = lent.read_by(engine).model() else {
        return Verdict::wrong("what was written is not read".to_string());
    };
    let mut verdict = Verdict::default();
    verdict.shape(case.shape, model.shape);
    for (number, (ours, theirs)) in case.model().tables().iter().zip(model.model().tables()).enumerate() {
        verdict.table(&format!("table {number}"), ours, theirs);
    }
    verdict
}

/// Somebody's length of a file against the rule's.
pub fn length_by_the_rule(engine: &Engine, shape: Shape) -> Verdict {
    let mut verdict = Verdict::default();
    let length = (engine.model_file.length)(shape);
    verdict.whole("length", rule::length(shape) as u64, length as u64);
    verdict
}

/// Every shape that a model has, and shapes around them that none has.
pub fn shapes() -> impl Iterator<Item = Shape> {
    let states = (0..=66).chain([255, 256, 65_537, 1 << 32, usize::MAX]);
    states.flat_map(|states| {
        let symbols = (0..=258).chain([511, 512, 65_537, 1 << 32, usize::MAX]);
        symbols.flat_map(move |symbols| [false, true].map(|ends| Shape { states, symbols, ends }))
    })
}

#[cfg(test)]
mod tests;
