//! What the reader says to a model file in which one bit has flipped, or whose end is missing.

use crate::flip::{Flip, Outcome};
use crate::model::{NAMES, SHAPE};
use crate::stored::Stored;
use std::collections::BTreeMap;
use wasnugram::{read_model, Refused, Shape, Tables};

/// Where the bodies begin: after the first eight bytes, and an entry of the contents for each of three tables.
const FIRST_BODY: usize = 8 + 16 * 3;

/// A bit of a byte of the file.
#[derive(Clone, Copy)]
pub struct FileFlip {
    pub byte: usize,
    pub bit: usize,
}

impl FileFlip {
    /// Every bit of every byte.
    pub fn all(file: &[u8]) -> impl Iterator<Item = FileFlip> {
        (0..file.len()).flat_map(|byte| (0..8).map(move |bit| FileFlip { byte, bit }))
    }

    /// The bit of the file in which this bit of a table is stored.
    pub fn of(flip: Flip) -> FileFlip {
        let sizes = [SHAPE.transition_length(), SHAPE.emission_length(), SHAPE.states];
        let words = sizes[..flip.table].iter().sum::<usize>() + flip.place;
        FileFlip {
            byte: FIRST_BODY + 8 * words + flip.bit as usize / 8,
            bit: flip.bit as usize % 8,
        }
    }

    pub fn apply(self, file: &mut [u8]) {
        file[self.byte] ^= 1 << self.bit;
    }
}

impl Flip {
    /// Reads the file with this bit of a table flipped.
    pub fn tried_in_file(self, stored: &Stored) -> Outcome {
        let mut flipped = stored.file.clone();
        let at = FileFlip::of(self);
        at.apply(&mut flipped);
        let mut room = Room::filled();
        Outcome {
            before: word(&stored.file, at.byte),
            after: word(&flipped, at.byte),
            refused: room.read(&flipped),
            untouched: room.is_untouched(),
        }
    }
}

/// The entry in whose eight bytes this byte is.
fn word(file: &[u8], byte: usize) -> f64 {
    let word = file.chunks_exact(8).nth(byte / 8).expect("a byte of a body");
    f64::from_le_bytes(word.try_into().expect("eight bytes"))
}

/// What a gate lends to the reader, filled with a number that no model has.
struct Room([Vec<f64>; NAMES.len()]);

impl Room {
    const FILL: f64 = 165.0;

    fn filled() -> Room {
        let Shape { states, .. } = SHAPE;
        let lengths = [SHAPE.transition_length(), SHAPE.emission_length(), states, states];
        Room(lengths.map(|length| vec![Room::FILL; length]))
    }

    /// The reader's refusal; none where it reads the file.
    fn read(&mut self, file: &[u8]) -> Option<Refused> {
        let [transition, emission, initial, end] = &mut self.0;
        let tables = Tables {
            transition,
            emission,
            initial,
            end,
        };
        read_model(file, tables).err()
    }

    fn is_untouched(&self) -> bool {
        self.0.iter().flatten().all(|entry| *entry == Room::FILL)
    }
}

/// What the reader said to many files.
#[derive(Debug, Default, PartialEq, Eq)]
pub struct Refusals {
    /// How many it refused, by the refusal's number.
    pub refused: BTreeMap<u8, usize>,
    /// How many it read.
    pub read: usize,
}

impl Refusals {
    /// Of the file with each of its bits flipped, one at a time.
    pub fn of_flips(stored: &Stored) -> Refusals {
        let mut file = stored.file.clone();
        let mut room = Room::filled();
        let mut refusals = Refusals::default();
        for flip in FileFlip::all(&stored.file) {
            flip.apply(&mut file);
            refusals.count(room.read(&file));
            flip.apply(&mut file);
        }
        refusals
    }

    /// Of the file cut off at each length below its own.
    pub fn of_cuts(stored: &Stored) -> Refusals {
        let mut room = Room::filled();
        let mut refusals = Refusals::default();
        for length in 0..stored.file.len() {
            refusals.count(room.read(&stored.file[..length]));
        }
        refusals
    }

    pub fn files(&self) -> usize {
        self.refused.values().sum::<usize>() + self.read
    }

    fn count(&mut self, refused: Option<Refused>) {
        match refused {
            Some(refused) => *self.refused.entry(refused.refusal.number()).or_default() += 1,
            None => self.read += 1,
        }
    }
}
