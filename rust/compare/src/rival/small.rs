//! Models so small that every path can be scored.

use super::all_paths::has_few_paths;
use super::MINUS;
use crate::case::{any, Case, Sizes};
use crate::random::Random;
use reference::Shape;

/// Entries by whose sums paths tie: with zeros of both signs, by rounding, and by overflow.
const GRIDS: [&[f64]; 6] = [
    &[0.0, -0.0, -1.0, MINUS],
    &[0.0, -1.0, -2.0],
    &[-0.0, -1.0, MINUS],
    // A sum is -0.0 only where every entry is.
    &[-0.0, -0.0, -0.0, -0.0, 0.0],
    &[-9007199254740992.0, -1.0, -0.5, -0.0],
    &[-1e308, -0.9e308, -1.0, MINUS],
];

/// The samples of the models on a grid.
const ON_A_GRID: [u16; 3] = [0; 3];

/// Every model of two states and one symbol whose entries are on a grid, on three samples: without an end state the grid
/// has zeros of both signs.
pub fn on_a_grid() -> impl Iterator<Item = Case> {
    let kinds = [(GRIDS[0], false), (GRIDS[2], true)];
    kinds.into_iter().flat_map(|(grid, ends)| {
        let entries = if ends { 10 } else { 8 };
        (0..grid.len().pow(entries)).map(move |number| numbered(grid, ends, number))
    })
}

/// The numberth model on a grid: the digits of its number are its entries.
fn numbered(grid: &[f64], ends: bool, mut number: usize) -> Case {
    let mut table = |length: usize| -> Vec<f64> {
        let digit = |_| {
            let entry = grid[number % grid.len()];
            number /= grid.len();
            entry
        };
        (0..length).map(digit).collect()
    };
    Case {
        shape: Shape {
            states: 2,
            symbols: 1,
            ends,
        },
        transition: table(4),
        emission: table(2),
        initial: table(2),
        end: if ends { table(2) } else { vec![0.0; 2] },
        samples: ON_A_GRID.to_vec(),
        index: 0,
    }
}

/// A random model of up to four states on up to six samples: all entries from a grid, or of random kinds.
pub fn random_small(random: &mut Random) -> Case {
    let sizes = Sizes {
        states: 1 + random.below(4),
        symbols: 1 + random.below(3),
        samples: 1 + random.below(6),
    };
    let mut case = any(sizes, random);
    if !random.once_in(3) {
        let grid = random.pick(&GRIDS);
        let tables = if case.shape.ends { 4 } else { 3 };
        let entries = case.tables_mut().into_iter().take(tables).flatten();
        entries.for_each(|entry| *entry = random.pick(grid));
    }
    debug_assert!(has_few_paths(&case));
    case
}
