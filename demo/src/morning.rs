//! A morning from the recording to its fares: every passage decoded by the stored model, its rivals, and what a flipped
//! bit does to the model's file and to its tables.

use crate::decode::{decode, fares, Decoded, Lent};
use crate::file_flip::Refusals;
use crate::flip::{every_flip, Flip, Outcome, Tally};
use crate::model::Tables;
use crate::recording::{caption, read, Passage};
use crate::rivals::Rivals;
use crate::states::Fare;
use crate::stored::Stored;
use wasnugram::Refused;

/// A passage, the row of states that explains it, and the rivals of that row.
pub struct Explained {
    pub passage: Passage,
    pub decoded: Decoded,
    pub rivals: Rivals,
}

pub struct Morning {
    pub caption: String,
    pub passages: Vec<Explained>,
    pub flip: Flip,
    /// What comes of that flip in the model file.
    pub in_file: Outcome,
    /// What comes of every flip of one bit in the model file, and of every cut.
    pub flips: Refusals,
    pub cuts: Refusals,
    /// What comes of the flip in the tables, which no sum guards any more, and of every one.
    pub outcome: Outcome,
    pub tally: Tally,
}

impl Explained {
    fn of(tables: &Tables, passage: Passage, lent: &mut Lent) -> Result<Explained, Refused> {
        let decoded = decode(tables, &passage.samples, lent)?;
        let rivals = Rivals::of(tables, &passage.samples, &decoded, lent)?;
        Ok(Explained {
            passage,
            decoded,
            rivals,
        })
    }
}

impl Morning {
    /// Decodes a recording; else says which line of it is wrong.
    pub fn of(recording: &str, stored: &Stored) -> Result<Morning, String> {
        let tables = &stored.tables;
        let mut lent = Lent::filled(0);
        let mut passages = Vec::new();
        for passage in read(recording)? {
            let explained = Explained::of(tables, passage, &mut lent);
            passages.push(explained.map_err(|refused| refused.to_string())?);
        }
        let flip = Flip::shown();
        let samples = passages.first().map_or(&[][..], |first| &first.passage.samples);
        Ok(Morning {
            caption: caption(recording).to_string(),
            in_file: flip.tried_in_file(stored),
            flips: Refusals::of_flips(stored),
            cuts: Refusals::of_cuts(stored),
            outcome: flip.tried(tables, samples),
            tally: every_flip(tables),
            flip,
            passages,
        })
    }

    pub fn fares(&self) -> Vec<Fare> {
        self.passages
            .iter()
            .flat_map(|explained| fares(&explained.decoded.row))
            .collect()
    }
}
