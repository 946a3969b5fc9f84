//! The exit lane: what the end flag moves, and what it leaves alone.

use demo::decode::{decode, Decoded, Lent};
use demo::exit_lane::{Exit, ExitLane};
use demo::model::{Tables, END};
use demo::recording::read;
use demo::simulation::simulated_exit_lane;
use demo::states::STATES;
use demo::words::last;

const RECORDING: &str = include_str!("../exit.txt");

#[test]
fn the_recording_is_the_simulated_one() {
    assert_eq!(read(RECORDING).unwrap(), [simulated_exit_lane()]);
}

/// The last sample alone is told otherwise. A flag that did nothing would leave both in one state.
#[test]
fn the_end_flag_moves_the_last_state() {
    let exit_lane = ExitLane::of(RECORDING).unwrap();
    let [Exit {
        with_end, without_end, ..
    }] = &exit_lane.passages[..]
    else {
        panic!("the recording has one passage");
    };
    assert_eq!((last(&with_end.row), last(&without_end.row)), ("empty", "adult-step"));
    let before = with_end.row.len() - 1;
    assert_eq!(with_end.row[..before], without_end.row[..before]);
}

fn bits(numbers: &[f64]) -> Vec<u64> {
    numbers.iter().map(|number| number.to_bits()).collect()
}

fn decoded(tables: &Tables) -> (Decoded, Lent) {
    let mut lent = Lent::filled(0);
    let decoded = decode(tables, &simulated_exit_lane().samples, &mut lent).unwrap();
    (decoded, lent)
}

/// Values and predecessors are the same to the bit; the value is the greatest of the last row, with the end entry added
/// to each.
#[test]
fn the_end_flag_leaves_values_and_predecessors_alone() {
    let tables = Tables::of_the_exit_lane();
    let (with_end, lent) = decoded(&tables);
    let (without_end, lent_without) = decoded(&tables.clone().without_end());
    assert!(bits(&lent.values) == bits(&lent_without.values) && lent.from == lent_without.from);
    let cells = with_end.row.len() * STATES;
    let last_row = &lent.values[cells - STATES..cells];
    let sums = last_row
        .iter()
        .zip(&tables.entries[END])
        .map(|(value, end)| value + end);
    assert_eq!(sums.reduce(f64::max), Some(with_end.value));
    assert_eq!(last_row.iter().copied().reduce(f64::max), Some(without_end.value));
    assert!(with_end.value < without_end.value);
}
