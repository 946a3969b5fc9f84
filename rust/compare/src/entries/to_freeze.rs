//! The cases of the frozen list.

use super::rounds::{borders, with, Put};
use super::words::EDGES;
use super::{MINUS_INFINITY, MINUS_ZERO};
use crate::case::{of_kinds, Case, Kind, Sizes};
use crate::random::Random;

/// A signalling and a quiet NaN, one of them with a sign, and the least number above 0.
const SIGNALLING: u64 = MINUS_INFINITY + 1;
const QUIET: u64 = 0x7ff8_0000_0000_0000;
const LEAST: u64 = 1;

/// The last entry of the end table, which means another thing without an end state.
const LAST_END: [u64; 7] = [
    0,
    MINUS_ZERO,
    0xbff0_0000_0000_0000,
    MINUS_INFINITY,
    SIGNALLING,
    QUIET,
    LEAST,
];

/// Two bad entries of sixteen states and two symbols by table and place, in one block, in two blocks and in two tables. The
/// first is the one to be named.
const TWO_BAD: [[(usize, usize); 2]; 9] = [
    [(0, 5), (0, 60)],
    [(0, 126), (0, 127)],
    [(0, 63), (0, 64)],
    [(0, 127), (0, 128)],
    [(0, 128), (0, 129)],
    [(0, 10), (0, 255)],
    [(0, 255), (1, 0)],
    [(1, 31), (2, 0)],
    [(2, 15), (3, 0)],
];

/// Entries of nine states and sixteen symbols in the other tables.
const ELSEWHERE: [(usize, usize, u64); 6] = [
    (1, 127, QUIET),
    (1, 128, SIGNALLING),
    (1, 143, LEAST),
    (1, 143, MINUS_INFINITY),
    (2, 0, SIGNALLING),
    (2, 8, QUIET),
];

/// Models with one entry at an edge, and with two bad ones, each on two samples.
pub fn to_freeze(random: &mut Random) -> Vec<Case> {
    let mut cases = Vec::new();
    cases.extend(
        EDGES
            .iter()
            .enumerate()
            .map(|(number, word)| edge(number, *word, random)),
    );
    cases.extend(LAST_END.iter().flat_map(|word| last_end(*word, random)));
    cases.extend(TWO_BAD.iter().map(|places| two_bad(places, random)));
    cases.extend(ELSEWHERE.iter().map(|entry| elsewhere(*entry, random)));
    cases
}

/// An edge at a border of the transition table, borders in turn: seven edges for sixteen states, seven for fifteen, and so
/// on down to thirteen.
fn edge(number: usize, word: u64, random: &mut Random) -> Case {
    let states = 16 - number / 7 % 4;
    let borders = borders(states * states);
    let place = borders[number % borders.len()];
    with(&model(states, 2, random), &[Put { table: 0, place, word }])
}

/// A word at the end of the end table, with an end state and without one.
fn last_end(word: u64, random: &mut Random) -> [Case; 2] {
    let mut ends = model(12, 2, random);
    (ends.shape.ends, ends.end) = (true, ends.initial.clone());
    let last = Put {
        table: 3,
        place: 11,
        word,
    };
    [ends.without_end_state(), ends].map(|model| with(&model, &[last]))
}

fn two_bad([first, second]: &[(usize, usize); 2], random: &mut Random) -> Case {
    let put = |(table, place), word| Put { table, place, word };
    let puts = [put(*first, SIGNALLING), put(*second, LEAST)];
    with(&model(16, 2, random), &puts)
}

fn elsewhere((table, place, word): (usize, usize, u64), random: &mut Random) -> Case {
    with(&model(9, 16, random), &[Put { table, place, word }])
}

/// A random good model of all kinds of entries, on two samples.
fn model(states: usize, symbols: usize, random: &mut Random) -> Case {
    let sizes = Sizes {
        states,
        symbols,
        samples: 2,
    };
    of_kinds(sizes, [Kind::Mixed; 4], random)
}
