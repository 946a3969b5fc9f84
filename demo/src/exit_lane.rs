//! An exit lane: every passage of its recording, decoded with the end flag and without it.

use crate::decode::{decode, Decoded, Lent};
use crate::model::Tables;
use crate::recording::{caption, read, Passage};

pub struct ExitLane {
    pub caption: String,
    pub passages: Vec<Exit>,
}

/// A passage, decoded twice.
pub struct Exit {
    pub passage: Passage,
    pub with_end: Decoded,
    pub without_end: Decoded,
}

impl ExitLane {
    /// Decodes a recording; else says which line of it is wrong. Nothing but the end flag and the end table tells the two
    /// models apart.
    pub fn of(recording: &str) -> Result<ExitLane, String> {
        let tables = Tables::of_the_exit_lane();
        let endless = tables.clone().without_end();
        let mut lent = Lent::filled(0);
        let mut decoded = |tables: &Tables, passage: &Passage| {
            decode(tables, &passage.samples, &mut lent).map_err(|refused| refused.to_string())
        };
        let mut passages = Vec::new();
        for passage in read(recording)? {
            passages.push(Exit {
                with_end: decoded(&tables, &passage)?,
                without_end: decoded(&endless, &passage)?,
                passage,
            });
        }
        Ok(ExitLane {
            caption: caption(recording).to_string(),
            passages,
        })
    }
}
