//! The cases at scale, round by round.

use super::{is_good_in, words, BLOCK};
use crate::case::{self, Case, Sizes};
use crate::random::Random;

/// States and symbols, one for each round: tables of a single entry and of up to 32 blocks, of whole blocks, of one entry
/// more and of one less.
pub const SIZES: [(usize, usize); 10] = [
    (8, 16),
    (9, 7),
    (10, 13),
    (5, 51),
    (12, 11),
    (13, 5),
    (16, 16),
    (1, 127),
    (3, 43),
    (64, 1),
];

/// How many times random words are put at random places of each model, one word and then two.
const RANDOM: usize = 500;

/// A word as the entry of a place.
#[derive(Clone, Copy)]
pub struct Put {
    pub table: usize,
    pub place: usize,
    pub word: u64,
}

/// The cases of a round: a model without an end state and one with it, each with one of its entries another, or two.
pub fn round(number: usize, random: &mut Random) -> impl Iterator<Item = Case> {
    let models = models(SIZES[number % SIZES.len()], random);
    let changed = models.map(|model| {
        let changes = changes(&model, random);
        changes.into_iter().map(move |puts| with(&model, &puts))
    });
    changed.into_iter().flatten()
}

/// A random good model without an end state, and with one, whose table is the initial one.
fn models((states, symbols): (usize, usize), random: &mut Random) -> [Case; 2] {
    let sizes = Sizes {
        states,
        symbols,
        samples: random.below(3),
    };
    let mut ends = case::any(sizes, random);
    (ends.shape.ends, ends.end) = (true, ends.initial.clone());
    [ends.without_end_state(), ends]
}

/// The model with these entries.
pub fn with(model: &Case, puts: &[Put]) -> Case {
    let mut case = model.clone();
    for put in puts {
        case.tables_mut()[put.table][put.place] = f64::from_bits(put.word);
    }
    case
}

/// Every telling word at every border, random words anywhere, and two bad ones.
fn changes(model: &Case, random: &mut Random) -> Vec<Vec<Put>> {
    let mut changes: Vec<Vec<Put>> = at_borders(model).map(|put| vec![put]).collect();
    changes.extend((0..RANDOM).map(|_| vec![anywhere(model, random)]));
    changes.extend((0..RANDOM).map(|_| two_bad(model, random)));
    changes
}

/// Every telling word at every border of every table.
fn at_borders(model: &Case) -> impl Iterator<Item = Put> {
    let lengths = model.model().tables().map(<[f64]>::len);
    let places = lengths
        .into_iter()
        .enumerate()
        .flat_map(|(table, length)| borders(length).into_iter().map(move |place| (table, place)));
    places.flat_map(|(table, place)| {
        let words = words::telling().into_iter();
        words.map(move |word| Put { table, place, word })
    })
}

/// The first place of a table and the last, and those around the ends of the first two blocks.
pub fn borders(length: usize) -> Vec<usize> {
    let inner = [0, BLOCK - 1, BLOCK, BLOCK + 1, 2 * BLOCK - 1, 2 * BLOCK];
    let mut places: Vec<usize> = inner.into_iter().filter(|place| *place < length).collect();
    places.push(length - 1);
    places.dedup();
    places
}

/// Any word at any place.
fn anywhere(model: &Case, random: &mut Random) -> Put {
    let table = random.below(4);
    Put {
        table,
        place: random.below(length_of(model, table)),
        word: words::any(random),
    }
}

/// Two words that are not good: in one block, in one table, or anywhere. They may fall on one place.
fn two_bad(model: &Case, random: &mut Random) -> Vec<Put> {
    let first = anywhere(model, random);
    let mut second = anywhere(model, random);
    let length = length_of(model, first.table);
    let block = first.place / BLOCK * BLOCK;
    let places = [block..length.min(block + BLOCK), 0..length];
    if let Some(places) = places.get(random.below(3)) {
        second.table = first.table;
        second.place = places.start + random.below(places.len());
    }
    [first, second].map(|put| made_bad(model, put, random)).to_vec()
}

/// A word that is not good at the same place.
fn made_bad(model: &Case, mut put: Put, random: &mut Random) -> Put {
    while is_good_in(model, put.table as u8, put.word) {
        put.word = words::any(random);
    }
    put
}

fn length_of(model: &Case, table: usize) -> usize {
    model.model().tables()[table].len()
}
