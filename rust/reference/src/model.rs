//! The model as its caller lends it, and the checks 1 to 8 in the order of RULES 3.3.

use crate::answer::{
    Answer, BAD_STATES, BAD_SYMBOLS, FIRST_OUTPUT, NOT_GOOD, NO_SAMPLES, OUTPUT_TOO_SHORT, SAMPLES, TOO_MANY_SAMPLES,
    UNKNOWN_SYMBOL, WRONG_LENGTH,
};

/// The greatest shapes that are taken.
pub const MOST_STATES: usize = 64;
pub const MOST_SYMBOLS: usize = 256;
pub const MOST_SAMPLES: usize = 4096;

/// How many states and symbols there are, and whether there is an end state.
#[derive(Clone, Copy, Debug, PartialEq, Eq)]
pub struct Shape {
    pub states: usize,
    pub symbols: usize,
    pub ends: bool,
}

impl Shape {
    /// The length of a table with a row for each of T samples. It saturates, since the checks may still be to come.
    pub fn cells(&self, samples: usize) -> usize {
        samples.saturating_mul(self.states)
    }

    /// The lengths of the four tables by number, of a shape that 1 and 2 let pass.
    pub fn lengths(&self) -> [usize; 4] {
        [
            self.states * self.states,
            self.states * self.symbols,
            self.states,
            self.states,
        ]
    }
}

/// A shape and the four lent tables by rows: transition (from, to), emission (state, symbol), initial, end.
#[derive(Clone, Copy, Debug)]
pub struct Model<'a> {
    pub shape: Shape,
    pub transition: &'a [f64],
    pub emission: &'a [f64],
    pub initial: &'a [f64],
    pub end: &'a [f64],
}

impl Model<'_> {
    /// The four tables in the order of their numbers.
    pub fn tables(&self) -> [&[f64]; 4] {
        [self.transition, self.emission, self.initial, self.end]
    }

    /// The log-probability of going from state k to state j.
    pub fn transition(&self, k: usize, j: usize) -> f64 {
        self.transition[k * self.shape.states + j]
    }

    /// The log-probability that state j emits this sample.
    pub fn emission(&self, j: usize, sample: u16) -> f64 {
        self.emission[j * self.shape.symbols + usize::from(sample)]
    }
}

/// An output's length and the length that the call needs of it.
#[derive(Clone, Copy)]
pub struct Output {
    pub length: usize,
    pub needed: usize,
}

/// Whether a call can answer for no samples at all.
#[derive(Clone, Copy, PartialEq)]
pub enum Empty {
    Taken,
    Refused,
}

/// The first refusal among 1 to 8 that applies, if any. `outputs` is asked only for shapes that 1 to 4 let pass.
pub fn check<const N: usize>(
    model: &Model,
    samples: &[u16],
    empty: Empty,
    outputs: impl FnOnce() -> [Output; N],
) -> Option<Answer> {
    check_shape(model.shape)
        .or_else(|| check_number(samples.len(), empty))
        .or_else(|| check_tables(model))
        .or_else(|| check_outputs(FIRST_OUTPUT, &outputs()))
        .or_else(|| check_entries(model))
        .or_else(|| check_samples(model.shape, samples))
}

/// Refusals 1 and 2.
pub(crate) fn check_shape(shape: Shape) -> Option<Answer> {
    if !(1..=MOST_STATES).contains(&shape.states) {
        Some(Answer::refused(BAD_STATES, 0, shape.states))
    } else if !(1..=MOST_SYMBOLS).contains(&shape.symbols) {
        Some(Answer::refused(BAD_SYMBOLS, 0, shape.symbols))
    } else {
        None
    }
}

/// Refusals 3 and 4.
fn check_number(length: usize, empty: Empty) -> Option<Answer> {
    if length > MOST_SAMPLES {
        Some(Answer::refused(TOO_MANY_SAMPLES, SAMPLES, length))
    } else if length == 0 && empty == Empty::Refused {
        Some(Answer::refused(NO_SAMPLES, SAMPLES, 0))
    } else {
        None
    }
}

/// Refusal 5, tables by number.
fn check_tables(model: &Model) -> Option<Answer> {
    (0..)
        .zip(model.tables().iter().zip(model.shape.lengths()))
        .find(|(_, (table, length))| table.len() != *length)
        .map(|(number, (table, _))| Answer::refused(WRONG_LENGTH, number, table.len()))
}

/// Refusal 6, outputs by number from the first one's.
pub(crate) fn check_outputs(first: u8, outputs: &[Output]) -> Option<Answer> {
    (first..)
        .zip(outputs)
        .find(|(_, output)| output.length < output.needed)
        .map(|(number, output)| Answer::refused(OUTPUT_TOO_SHORT, number, output.length))
}

/// Refusal 7, tables by number and places upward.
fn check_entries(model: &Model) -> Option<Answer> {
    let [transition, emission, initial, end] = model.tables();
    let bad_end = if model.shape.ends {
        first_not_good(end)
    } else {
        end.iter().position(|entry| entry.to_bits() != 0)
    };
    let bad = [
        first_not_good(transition),
        first_not_good(emission),
        first_not_good(initial),
        bad_end,
    ];
    (0..)
        .zip(bad)
        .find_map(|(table, place)| place.map(|place| Answer::refused(NOT_GOOD, table, place)))
}

/// The place of the first entry that is not good.
fn first_not_good(table: &[f64]) -> Option<usize> {
    table.iter().position(|entry| is_not_good(*entry))
}

/// Whether an entry is NaN or above 0.
pub(crate) fn is_not_good(entry: f64) -> bool {
    entry.is_nan() || entry > 0.0
}

/// Refusal 8.
fn check_samples(shape: Shape, samples: &[u16]) -> Option<Answer> {
    samples
        .iter()
        .position(|sample| usize::from(*sample) >= shape.symbols)
        .map(|place| Answer::refused(UNKNOWN_SYMBOL, SAMPLES, place))
}
