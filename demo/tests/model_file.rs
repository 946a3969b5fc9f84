//! The stored model: its file is what the writer gives for the gate's tables, and no damage to it passes.

use demo::file_flip::Refusals;
use demo::flip::Flip;
use demo::model::Tables;
use demo::stored::Stored;
use std::collections::BTreeMap;
use wasnugram::{model_file, Refusal, Table};

const FILE: &[u8] = include_bytes!("../model.bin");

fn stored() -> Stored {
    Stored::read(FILE.to_vec()).unwrap()
}

fn bits(tables: &Tables) -> Vec<u64> {
    tables.entries.iter().flatten().map(|entry| entry.to_bits()).collect()
}

#[test]
fn the_file_is_that_of_the_tables() {
    let tables = Tables::of_the_gate();
    assert!(model_file(&tables.lend()).unwrap() == FILE, "model.bin differs");
    assert_eq!(bits(&stored().tables), bits(&tables));
}

/// The entry that the report shows is that of the tables, before the flip and after.
#[test]
fn the_shown_flip_is_refused_by_the_sum() {
    let shown = Flip::shown();
    let outcome = shown.tried_in_file(&stored());
    let in_tables = shown.tried(&Tables::of_the_gate(), &[]);
    assert_eq!((outcome.before, outcome.after), (in_tables.before, in_tables.after));
    let refused = outcome.refused.unwrap();
    assert_eq!(
        (refused.refusal, refused.table, refused.place),
        (Refusal::BadSum, Some(Table::Emission), 0)
    );
    assert!(outcome.untouched);
}

/// Of the bits of the number of states, ten make it greater than 64; every one of the number of symbols makes it 0 or
/// greater than 256. The rest of the first eight bytes and three labels of eight are the layout.
#[test]
fn every_flip_is_refused() {
    let refused = BTreeMap::from([
        (1, 10),
        (2, 16),
        (13, 6 + 32 + 3 * 64),
        (14, 64 * (3 + 144 + 3072 + 12)),
    ]);
    assert_eq!(Refusals::of_flips(&stored()), Refusals { refused, read: 0 });
}

#[test]
fn every_cut_is_refused() {
    let refused = BTreeMap::from([(13, 25_880)]);
    assert_eq!(Refusals::of_cuts(&stored()), Refusals { refused, read: 0 });
}
