//! The model file (docs/MODEL-FILE.md): its length, its writer and its reader.
//!
//! Four first numbers, then an entry of the contents for each table, then the bodies. An entry is a label, which is the
//! table's number and the offset of its body, and a sum of the body's words. All numbers are little-endian.

use crate::answer::{Answer, BAD_LAYOUT, BAD_SUM, FIRST_OUTPUT, NOT_GOOD};
use crate::model::{check, check_outputs, check_shape, is_not_good, Empty, Model, Output, Shape};
use std::ops::Range;

/// The bytes of the four first numbers, of an entry of the contents, of the label that it starts with, and of a word.
const FIRST: usize = 8;
const ENTRY: usize = 16;
const LABEL: usize = 8;
const WORD: usize = 8;

/// The number of the first table that is read into; the file itself has number 5.
const FIRST_TABLE: u8 = FIRST_OUTPUT + 1;

/// The shape beside a refusal.
const NO_SHAPE: Shape = Shape {
    states: 0,
    symbols: 0,
    ends: false,
};

/// The tables that a file is read into; each may be longer than the file's model needs.
#[derive(Debug)]
pub struct Tables<'a> {
    pub transition: &'a mut [f64],
    pub emission: &'a mut [f64],
    pub initial: &'a mut [f64],
    pub end: &'a mut [f64],
}

/// What the reader gives: an answer, and the shape of the file beside it.
#[derive(Clone, Copy, Debug)]
pub struct Reading {
    pub answer: Answer,
    pub shape: Shape,
}

/// The bytes of a file of this shape; 0 where no model has this shape.
pub fn file_length(shape: Shape) -> usize {
    match check_shape(shape) {
        Some(_) => 0,
        None => bodies(shape).last().map_or(0, |body| body.end),
    }
}

/// Writes the file of a model at the front of some bytes. Surplus is left alone.
pub fn write_model(model: &Model, file: &mut [u8]) -> Answer {
    let length = file.len();
    let output = || Output {
        length,
        needed: file_length(model.shape),
    };
    if let Some(refusal) = check(model, &[], Empty::Taken, || [output()]) {
        return refusal;
    }
    for (place, bytes) in demanded(model.shape) {
        file[place..place + bytes.len()].copy_from_slice(&bytes);
    }
    for (number, (table, body)) in model.tables().into_iter().zip(bodies(model.shape)).enumerate() {
        write_body(table, &mut file[body.clone()]);
        let sum = sum(&file[body]);
        file[sum_place(number)].copy_from_slice(&sum.to_le_bytes());
    }
    Answer::done(0.0)
}

/// Reads the file of a model into the front of four tables. Surplus is left alone.
pub fn read_model(file: &[u8], tables: &mut Tables) -> Reading {
    if let Some(answer) = first_fault(file, tables) {
        return Reading {
            answer,
            shape: NO_SHAPE,
        };
    }
    let shape = shape_of(file);
    tables.end[..shape.states].fill(0.0);
    for (table, body) in tables.all().into_iter().zip(bodies(shape)) {
        read_body(&file[body], table);
    }
    Reading {
        answer: Answer::done(0.0),
        shape,
    }
}

impl Tables<'_> {
    /// The four tables in the order of their numbers.
    fn all(&mut self) -> [&mut [f64]; 4] {
        [self.transition, self.emission, self.initial, self.end]
    }

    /// Their lengths, and those that this shape needs of them.
    fn outputs(&self, shape: Shape) -> [Output; 4] {
        let lengths = [&*self.transition, self.emission, self.initial, self.end].map(<[f64]>::len);
        let needed = shape.lengths();
        [0, 1, 2, 3].map(|table| Output {
            length: lengths[table],
            needed: needed[table],
        })
    }
}

/// How many tables are in a file of this shape.
fn count(shape: Shape) -> usize {
    3 + usize::from(shape.ends)
}

/// Where each body lies in a file of this shape, tables upward.
fn bodies(shape: Shape) -> impl Iterator<Item = Range<usize>> {
    let mut offset = FIRST + ENTRY * count(shape);
    shape.lengths().into_iter().take(count(shape)).map(move |words| {
        let start = offset;
        offset += WORD * words;
        start..offset
    })
}

/// Where the sum of this table lies.
fn sum_place(table: usize) -> Range<usize> {
    let entry = FIRST + ENTRY * table;
    entry + LABEL..entry + ENTRY
}

/// What this shape demands, with its places: the first numbers and each label. Sums and bodies may be anything.
fn demanded(shape: Shape) -> impl Iterator<Item = (usize, [u8; 8])> {
    let labels = bodies(shape).enumerate();
    let labels = labels.map(|(table, body)| (FIRST + ENTRY * table, label(table, body.start)));
    std::iter::once((0, first_numbers(shape))).chain(labels)
}

/// States, symbols, end flag and number of entries, two bytes each.
fn first_numbers(shape: Shape) -> [u8; FIRST] {
    let numbers = [shape.states, shape.symbols, usize::from(shape.ends), count(shape)];
    let [[a, b], [c, d], [e, f], [g, h]] = numbers.map(|number| (number as u16).to_le_bytes());
    [a, b, c, d, e, f, g, h]
}

/// A table's number and the offset of its body, four bytes each.
fn label(table: usize, offset: usize) -> [u8; LABEL] {
    (table as u64 | (offset as u64) << 32).to_le_bytes()
}

/// The words of some bytes.
fn words(bytes: &[u8]) -> impl Iterator<Item = u64> + '_ {
    let words = bytes.chunks_exact(WORD);
    words.map(|word| u64::from_le_bytes(word.try_into().expect("eight bytes")))
}

/// The wrapping sum of the words of a body.
fn sum(body: &[u8]) -> u64 {
    words(body).fold(0, u64::wrapping_add)
}

fn write_body(table: &[f64], body: &mut [u8]) {
    for (entry, word) in table.iter().zip(body.chunks_exact_mut(WORD)) {
        word.copy_from_slice(&entry.to_bits().to_le_bytes());
    }
}

fn read_body(body: &[u8], table: &mut [f64]) {
    for (word, entry) in words(body).zip(table) {
        *entry = f64::from_bits(word);
    }
}

/// The shape that the first numbers of a file give, a flag of anything but 1 in its low byte being none.
fn shape_of(file: &[u8]) -> Shape {
    let number = |place: usize| usize::from(u16::from_le_bytes([file[place], file[place + 1]]));
    Shape {
        states: number(0),
        symbols: number(2),
        ends: file[4] == 1,
    }
}

/// The first refusal that applies to a file and the tables that it is to be read into, if any.
fn first_fault(file: &[u8], tables: &Tables) -> Option<Answer> {
    if file.len() < FIRST {
        return Some(Answer::refused(BAD_LAYOUT, 0, file.len()));
    }
    let shape = shape_of(file);
    check_shape(shape)
        .or_else(|| check_layout(shape, file))
        .or_else(|| check_sums(shape, file))
        .or_else(|| check_outputs(FIRST_TABLE, &tables.outputs(shape)))
        .or_else(|| check_words(shape, file))
}

/// Refusal 13: the first byte that is not as demanded, or the shorter length where the lengths differ.
fn check_layout(shape: Shape, file: &[u8]) -> Option<Answer> {
    let length = file_length(shape);
    let shorter = file.len().min(length);
    let wrong = demanded(shape)
        .flat_map(|(start, bytes)| (start..).zip(bytes))
        .find(|(place, byte)| file.get(*place) != Some(byte))
        .map(|(place, _)| place.min(shorter));
    let place = wrong.or((file.len() != length).then_some(shorter));
    place.map(|place| Answer::refused(BAD_LAYOUT, 0, place))
}

/// Refusal 14, tables upward.
fn check_sums(shape: Shape, file: &[u8]) -> Option<Answer> {
    bodies(shape)
        .enumerate()
        .find(|(table, body)| file[sum_place(*table)] != sum(&file[body.clone()]).to_le_bytes())
        .map(|(table, _)| Answer::refused(BAD_SUM, table as u8, 0))
}

/// Refusal 7, tables and places upward.
fn check_words(shape: Shape, file: &[u8]) -> Option<Answer> {
    (0..).zip(bodies(shape)).find_map(|(table, body)| {
        let place = words(&file[body]).position(|word| is_not_good(f64::from_bits(word)))?;
        Some(Answer::refused(NOT_GOOD, table, place))
    })
}
