//! The rule on bytes: what each byte of a file of some shape must be, one after the other, and what follows of it.
//!
//! It counts in whole numbers that never wrap, and looks at the bits of an entry alone.

use super::{Left, Lent};
use crate::case::Case;
use crate::damage::Named;
use crate::entries::is_good;
use crate::frozen::FILLED;
use reference::answer::{BAD_LAYOUT, BAD_STATES, BAD_SUM, BAD_SYMBOLS, NOT_GOOD, OUTPUT_TOO_SHORT};
use reference::{Answer, Reading, Shape};

/// The shape beside a refusal.
const NO_SHAPE: Shape = Shape {
    states: 0,
    symbols: 0,
    ends: false,
};

/// Where a table's entry of the contents and its body start, and the body's words.
#[derive(Clone, Copy, Debug)]
pub struct Place {
    pub entry: usize,
    pub body: usize,
    pub words: usize,
}

impl Place {
    /// Where the sum is.
    pub fn sum(&self) -> usize {
        self.entry + 8
    }

    /// The first byte after the body.
    pub fn end(&self) -> usize {
        self.body + 8 * self.words
    }
}

/// The tables that are in a file of this shape, and where.
pub fn places(shape: Shape) -> Vec<Place> {
    let Shape { states, symbols, ends } = shape;
    let mut words = vec![states * states, states * symbols, states];
    words.extend(ends.then_some(states));
    let mut places: Vec<Place> = Vec::new();
    for (table, words) in words.iter().copied().enumerate() {
        places.push(Place {
            entry: 8 + 16 * table,
            body: places.last().map_or(8 + 16 * (3 + usize::from(ends)), Place::end),
            words,
        });
    }
    places
}

/// The bytes of a file of this shape; 0 where no model has it.
pub fn length(shape: Shape) -> usize {
    if size_fault(shape).is_some() {
        return 0;
    }
    demands(shape).len()
}

/// What each byte of a file must be, and none where it may be anything.
fn demands(shape: Shape) -> Vec<Option<u8>> {
    let places = places(shape);
    let first = [shape.states, shape.symbols, usize::from(shape.ends), places.len()];
    let mut demands: Vec<Option<u8>> = first.into_iter().flat_map(|number| digits(number, 2)).collect();
    for (table, place) in places.iter().enumerate() {
        demands.extend(digits(table, 4));
        demands.extend(digits(place.body, 4));
        demands.extend([None; 8]);
    }
    let words: usize = places.iter().map(|place| place.words).sum();
    demands.extend(vec![None; 8 * words]);
    demands
}

/// The bytes of a number, the lowest first.
fn digits(number: usize, bytes: u32) -> impl Iterator<Item = Option<u8>> {
    (0..bytes).map(move |place| Some((number / 256_usize.pow(place) % 256) as u8))
}

/// The number of some bytes, the lowest first.
fn whole(bytes: &[u8]) -> u128 {
    bytes
        .iter()
        .rev()
        .fold(0, |number, byte| 256 * number + u128::from(*byte))
}

/// The words of some bytes.
fn words(bytes: &[u8]) -> impl Iterator<Item = u128> + '_ {
    bytes.chunks(8).map(whole)
}

/// The sum of the words, at 2^64.
pub fn sum(bytes: &[u8]) -> u64 {
    (words(bytes).sum::<u128>() % (1 << 64)) as u64
}

/// The file of a model.
pub fn file_of(case: &Case) -> Vec<u8> {
    let mut file: Vec<u8> = demands(case.shape).into_iter().map(Option::unwrap_or_default).collect();
    for (place, table) in places(case.shape).iter().zip(case.model().tables()) {
        let body: Vec<u8> = table.iter().flat_map(|entry| entry.to_bits().to_le_bytes()).collect();
        file[place.sum()..][..8].copy_from_slice(&sum(&body).to_le_bytes());
        file[place.body..place.end()].copy_from_slice(&body);
    }
    file
}

/// What a reader must leave.
pub fn left(lent: &Lent) -> Left {
    let mut tables = lent.lengths.map(|length| vec![FILLED; length]);
    if let Some((refusal, table, place)) = fault(lent) {
        let answer = Answer::refused(refusal, table, place);
        let reading = Reading {
            answer,
            shape: NO_SHAPE,
        };
        return Left { reading, tables };
    }
    let shape = shape_of(&lent.file);
    tables[3][..shape.states].fill(0.0);
    for (place, table) in places(shape).iter().zip(&mut tables) {
        let words = words(&lent.file[place.body..place.end()]);
        words
            .zip(table)
            .for_each(|(word, entry)| *entry = f64::from_bits(word as u64));
    }
    let answer = Answer::done(0.0);
    Left {
        reading: Reading { answer, shape },
        tables,
    }
}

/// The refusal that a reader must give, with its table and place; none where the file is to be read.
pub fn fault(lent: &Lent) -> Option<Named> {
    let file = &lent.file[..];
    if file.len() < 8 {
        return Some((BAD_LAYOUT, 0, file.len()));
    }
    let shape = shape_of(file);
    size_fault(shape)
        .or_else(|| layout_fault(shape, file))
        .or_else(|| sum_fault(shape, file))
        .or_else(|| room_fault(shape, lent.lengths))
        .or_else(|| word_fault(shape, file))
}

/// The shape by the first numbers of a file; an end state is a 1 at byte 4.
pub fn shape_of(file: &[u8]) -> Shape {
    Shape {
        states: whole(&file[..2]) as usize,
        symbols: whole(&file[2..4]) as usize,
        ends: file[4] == 1,
    }
}

pub fn size_fault(shape: Shape) -> Option<Named> {
    match shape {
        Shape { states, .. } if states == 0 || states > 64 => Some((BAD_STATES, 0, states)),
        Shape { symbols, .. } if symbols == 0 || symbols > 256 => Some((BAD_SYMBOLS, 0, symbols)),
        _ => None,
    }
}

/// The first place at which file and demands part, one of them by its end.
fn layout_fault(shape: Shape, file: &[u8]) -> Option<Named> {
    let demands = demands(shape);
    let is_wrong = |place: &usize| match (demands.get(*place), file.get(*place)) {
        (Some(None), Some(_)) => false,
        (Some(demand), byte) => *demand != byte.copied() || byte.is_none(),
        (None, _) => true,
    };
    let place = (0..demands.len().max(file.len())).find(is_wrong)?;
    Some((BAD_LAYOUT, 0, place))
}

fn sum_fault(shape: Shape, file: &[u8]) -> Option<Named> {
    let places = places(shape);
    let is_wrong = |place: &Place| whole(&file[place.sum()..][..8]) != sum(&file[place.body..place.end()]).into();
    let table = places.iter().position(is_wrong)?;
    Some((BAD_SUM, table as u8, 0))
}

fn room_fault(shape: Shape, lengths: [usize; 4]) -> Option<Named> {
    let Shape { states, symbols, .. } = shape;
    let needed = [states * states, states * symbols, states, states];
    let table = (0..4).find(|table| lengths[*table] < needed[*table])?;
    Some((OUTPUT_TOO_SHORT, 6 + table as u8, lengths[table]))
}

fn word_fault(shape: Shape, file: &[u8]) -> Option<Named> {
    (0..).zip(places(shape)).find_map(|(table, place)| {
        let mut words = words(&file[place.body..place.end()]);
        Some((NOT_GOOD, table, words.position(|word| !is_good(word as u64))?))
    })
}
