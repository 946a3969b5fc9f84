//! The best path, RULES 6.1.

use crate::answer::Answer;
use crate::model::{check, Empty, Model, Output};

/// Writes the best path (one state for each sample), the value of each cell and the predecessor of each cell; the
/// value is the path's score, its end entry included where there is an end state. Surplus of the outputs is left alone.
pub fn viterbi(model: &Model, samples: &[u16], path: &mut [u8], values: &mut [f64], from: &mut [u8]) -> Answer {
    let cells = model.shape.cells(samples.len());
    let outputs = || {
        [
            Output {
                length: path.len(),
                needed: samples.len(),
            },
            Output {
                length: values.len(),
                needed: cells,
            },
            Output {
                length: from.len(),
                needed: cells,
            },
        ]
    };
    if let Some(refusal) = check(model, samples, Empty::Taken, outputs) {
        return refusal;
    }
    viterbi_unchecked(model, samples, path, &mut values[..cells], &mut from[..cells])
}

/// The walk alone, for a model that the checks let pass and tables of just their length.
pub fn viterbi_unchecked(
    model: &Model,
    samples: &[u16],
    path: &mut [u8],
    values: &mut [f64],
    from: &mut [u8],
) -> Answer {
    let Some(first) = samples.first() else {
        return Answer::done(f64::NEG_INFINITY);
    };
    for j in 0..model.shape.states {
        values[j] = model.initial[j] + model.emission(j, *first);
        from[j] = j as u8;
    }
    walk_on(model, samples, 1, path, values, from)
}

/// The rows of this sample and of all later ones, over those before it, which are there; then the path and its value.
pub fn walk_on(
    model: &Model,
    samples: &[u16],
    start: usize,
    path: &mut [u8],
    values: &mut [f64],
    from: &mut [u8],
) -> Answer {
    let states = model.shape.states;
    for (t, sample) in samples.iter().enumerate().skip(start) {
        let (before, rest) = values.split_at_mut(t * states);
        let previous = &before[(t - 1) * states..];
        let row = &mut rest[..states];
        let row_from = &mut from[t * states..(t + 1) * states];
        step(model, previous, *sample, row, row_from);
    }
    let last_row = &values[values.len() - states..];
    let scores = last_row.iter().enumerate().map(|(j, value)| ended(model, j, *value));
    let (last, score) = last_greatest(scores);
    trace_back(from, last, states, &mut path[..samples.len()]);
    Answer::done(score)
}

/// One later row: the best predecessor of each state and the cell's value.
fn step(model: &Model, previous: &[f64], sample: u16, row: &mut [f64], row_from: &mut [u8]) {
    for (j, (cell, cell_from)) in row.iter_mut().zip(row_from).enumerate() {
        let (best, sum) = best_predecessor(model, previous, j);
        *cell = sum + model.emission(j, sample);
        *cell_from = best as u8;
    }
}

/// The highest-numbered of the best predecessors of state j, and its value + transition. One at minus infinity ranks
/// below every other, even below one whose sum is minus infinity.
fn best_predecessor(model: &Model, previous: &[f64], j: usize) -> (usize, f64) {
    let mut best = 0;
    let mut best_sum = previous[0] + model.transition(0, j);
    let mut best_reached = previous[0] != f64::NEG_INFINITY;
    for (k, value) in previous.iter().enumerate().skip(1) {
        let sum = *value + model.transition(k, j);
        let reached = *value != f64::NEG_INFINITY;
        let wins = if reached == best_reached {
            sum >= best_sum
        } else {
            reached
        };
        if wins {
            (best, best_sum, best_reached) = (k, sum, reached);
        }
    }
    (best, best_sum)
}

/// How a path's score ends, where j is its last state and this its value in the last row: with an end state the end entry
/// is added, last of all. Without one nothing is, since -0.0 + 0.0 is +0.0.
fn ended(model: &Model, j: usize, value: f64) -> f64 {
    if model.shape.ends {
        value + model.end[j]
    } else {
        value
    }
}

/// The highest-numbered of the greatest scores, which start at state 0, and the score.
fn last_greatest(scores: impl Iterator<Item = f64>) -> (usize, f64) {
    let mut greatest = (0, f64::NEG_INFINITY);
    for (j, score) in scores.enumerate() {
        if score >= greatest.1 {
            greatest = (j, score);
        }
    }
    greatest
}

/// Fills the path from its last state backward.
fn trace_back(from: &[u8], last: usize, states: usize, path: &mut [u8]) {
    let mut state = last;
    for (t, cell) in path.iter_mut().enumerate().rev() {
        *cell = state as u8;
        state = usize::from(from[t * states + state]);
    }
}
