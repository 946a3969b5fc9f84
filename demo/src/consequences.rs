//! What the flips that a call accepts do to a recorded morning: rows of states and fares, each against those of the model
//! as it is.

use crate::decode::{decode, fares, Decoded, Lent};
use crate::flip::Flip;
use crate::model::{columns, Tables, EMISSION};
use crate::recording::Passage;

/// Of every flip of one bit in the model.
#[derive(Debug, Default, PartialEq, Eq)]
pub struct Consequences {
    pub refused: usize,
    /// Accepted, and every passage has the row of states that it had.
    pub harmless: usize,
    /// Accepted, and some passage has another row of states, but all pay what they paid.
    pub other_states: usize,
    /// Accepted, and some passage pays another fare, or none since no row of states explains it.
    pub other_fares: usize,
}

impl Consequences {
    /// Tries every flip.
    pub fn of(passages: &[Passage]) -> Consequences {
        let mut morning = Decodings::of(passages);
        let mut consequences = Consequences::default();
        for flip in Flip::all(&morning.tables) {
            *consequences.count(morning.consequence(flip)) += 1;
        }
        consequences
    }

    fn count(&mut self, consequence: Consequence) -> &mut usize {
        match consequence {
            Consequence::Refused => &mut self.refused,
            Consequence::Harmless => &mut self.harmless,
            Consequence::OtherStates => &mut self.other_states,
            Consequence::OtherFares => &mut self.other_fares,
        }
    }
}

/// From the least to the worst.
#[derive(Clone, Copy, PartialEq, Eq, PartialOrd, Ord)]
enum Consequence {
    Refused,
    Harmless,
    OtherStates,
    OtherFares,
}

/// The passages and how the model as it is decodes them.
struct Decodings<'a> {
    tables: Tables,
    passages: Vec<(&'a Passage, Decoded)>,
    lent: Lent,
}

impl<'a> Decodings<'a> {
    fn of(passages: &'a [Passage]) -> Decodings<'a> {
        let tables = Tables::of_the_gate();
        let mut lent = Lent::filled(0);
        let mut decoded = |passage: &Passage| decode(&tables, &passage.samples, &mut lent).expect("the model is good");
        let passages = passages.iter().map(|passage| (passage, decoded(passage))).collect();
        Decodings { tables, passages, lent }
    }

    /// Flips, decodes all that may differ, and flips back.
    fn consequence(&mut self, flip: Flip) -> Consequence {
        flip.apply(&mut self.tables);
        let worst = self.worst(flip);
        flip.apply(&mut self.tables);
        worst
    }

    fn worst(&mut self, flip: Flip) -> Consequence {
        if decode(&self.tables, &[], &mut self.lent).is_err() {
            return Consequence::Refused;
        }
        let mut worst = Consequence::Harmless;
        for (passage, before) in self.passages.iter().filter(|(passage, _)| is_read(flip, passage)) {
            let after = decode(&self.tables, &passage.samples, &mut self.lent).expect("no sample is at fault");
            worst = worst.max(difference(before, &after));
        }
        worst
    }
}

/// An emission is read only where a sample has its symbol.
fn is_read(flip: Flip, passage: &Passage) -> bool {
    let symbol = (flip.place % columns(EMISSION)) as u16;
    flip.table != EMISSION || passage.samples.contains(&symbol)
}

fn difference(before: &Decoded, after: &Decoded) -> Consequence {
    if before.row == after.row {
        Consequence::Harmless
    } else if fares(&before.row) == fares(&after.row) {
        Consequence::OtherStates
    } else {
        Consequence::OtherFares
    }
}
