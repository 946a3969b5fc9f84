//! What the decoder says to a model in which one bit has flipped.

use crate::decode::{decode, Lent};
use crate::model::{Tables, EMISSION, END, NAMES};
use crate::states::{ADULT, SYMBOLS};
use wasnugram::{viterbi, Refusal, Refused, Table};

/// A bit of an entry of a table; bit 63 is the sign.
#[derive(Clone, Copy)]
pub struct Flip {
    pub table: usize,
    pub place: usize,
    pub bit: u32,
}

/// What came of it.
pub struct Outcome {
    pub before: f64,
    pub after: f64,
    pub refused: Option<Refused>,
    /// Whether the lent memory holds what it held before the call.
    pub untouched: bool,
}

impl Flip {
    /// The sign of the adult's most frequent symbol: every barrier broken but the highest.
    pub fn shown() -> Flip {
        Flip {
            table: EMISSION,
            place: ADULT * SYMBOLS + 0b0111_1111,
            bit: 63,
        }
    }

    /// Every bit of every entry.
    pub fn all(tables: &Tables) -> impl Iterator<Item = Flip> {
        let lengths = tables.entries.each_ref().map(Vec::len);
        let entries = (0..NAMES.len()).flat_map(move |table| (0..lengths[table]).map(move |place| (table, place)));
        entries.flat_map(|(table, place)| (0..u64::BITS).map(move |bit| Flip { table, place, bit }))
    }

    pub fn apply(self, tables: &mut Tables) {
        let entry = &mut tables.entries[self.table][self.place];
        *entry = f64::from_bits(entry.to_bits() ^ 1 << self.bit);
    }

    /// Decodes the samples with the flipped model.
    pub fn tried(self, tables: &Tables, samples: &[u16]) -> Outcome {
        let mut flipped = tables.clone();
        self.apply(&mut flipped);
        let untouched = Lent::filled(0xa5);
        let mut lent = untouched.clone();
        Outcome {
            before: tables.entries[self.table][self.place],
            after: flipped.entries[self.table][self.place],
            refused: decode(&flipped, samples, &mut lent).err(),
            untouched: lent == untouched,
        }
    }
}

/// What came of every flip of one bit in the model.
#[derive(Debug, PartialEq, Eq)]
pub struct Tally {
    /// The entry is no longer good, and the refusal names it.
    pub refused: usize,
    /// The entry is another number that is at most 0.
    pub accepted: usize,
    /// Anything else.
    pub wrong: usize,
}

impl Tally {
    pub fn flips(&self) -> usize {
        self.refused + self.accepted + self.wrong
    }
}

/// Tries every flip. No samples are lent: the checks of a model come first, and nothing follows them.
pub fn every_flip(tables: &Tables) -> Tally {
    let mut tables = tables.clone();
    let mut tally = Tally {
        refused: 0,
        accepted: 0,
        wrong: 0,
    };
    for flip in Flip::all(&tables) {
        count(flip, &mut tables, &mut tally);
    }
    tally
}

/// Flips, looks, and flips back.
fn count(flip: Flip, tables: &mut Tables, tally: &mut Tally) {
    flip.apply(tables);
    let answer = viterbi(&tables.lend(), &[], &mut [], &mut [], &mut []);
    let named = Refused {
        refusal: Refusal::NotGood,
        table: Some(Table::from_number(flip.table as u8)),
        place: flip.place,
    };
    match (answer, good(flip, tables)) {
        (Ok(_), true) => tally.accepted += 1,
        (Err(refused), false) if refused == named => tally.refused += 1,
        _ => tally.wrong += 1,
    }
    flip.apply(tables);
}

/// Whether the rules call the flipped entry good: at most 0, and +0.0 in the end table of a model without an end state.
fn good(flip: Flip, tables: &Tables) -> bool {
    let entry = tables.entries[flip.table][flip.place];
    match flip.table {
        END => entry.to_bits() == 0,
        _ => entry <= 0.0,
    }
}
