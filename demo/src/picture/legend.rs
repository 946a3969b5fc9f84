//! The model at a glance: for each state its colour, its name, and how often it breaks each barrier.

use super::svg::{rectangle, text, Anchor};
use crate::states::{State, ALL, BARRIERS};
use crate::words;

pub const HEIGHT: usize = BARRIERS * CELL + 46;

const CELL: usize = 14;
const LABELS: usize = 78;
const PITCH: usize = 93;
const WIDE: usize = 80;

pub fn legend(left: usize, top: usize) -> String {
    let labels = (0..BARRIERS).map(|barrier| label(left, top + below(barrier), barrier));
    let states = ALL
        .iter()
        .enumerate()
        .map(|(at, state)| column(left + LABELS + at * PITCH, top, state));
    labels.chain(states).collect()
}

/// The highest barrier stands at the top.
fn below(barrier: usize) -> usize {
    (BARRIERS - 1 - barrier) * CELL
}

fn label(left: usize, top: usize, barrier: usize) -> String {
    text(
        left + LABELS - 12,
        top + CELL - 3,
        "small",
        Anchor::End,
        &words::barrier(barrier),
    )
}

fn column(left: usize, top: usize, state: &State) -> String {
    let cells = (0..BARRIERS).map(|barrier| cell(left, top + below(barrier), state.broken[barrier]));
    let band = top + BARRIERS * CELL + 2;
    let class = if state.fare.is_some() { "strong" } else { "soft" };
    cells.collect::<String>()
        + &rectangle(left, band, WIDE, 14, state.colour)
        + &text(left + WIDE / 2, band + 32, class, Anchor::Middle, state.name)
}

/// The more often the barrier is broken, the darker.
fn cell(left: usize, top: usize, percent: u8) -> String {
    let shade = |light: u32, dark: u32| light - (light - dark) * u32::from(percent) / 100;
    let colour = format!(
        "#{:02x}{:02x}{:02x}",
        shade(0xf1, 0x1c),
        shade(0xf3, 0x24),
        shade(0xf5, 0x30)
    );
    rectangle(left, top, WIDE, CELL - 1, &colour)
}
