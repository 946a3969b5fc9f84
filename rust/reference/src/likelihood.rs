//! Forward and backward, RULES 6.2 and 6.3.

use crate::answer::Answer;
use crate::kernels::{exp, exp_as_written};
use crate::model::{check, Empty, Model, Output, MOST_STATES};
use crate::sums::ln_sum_exp_by;

/// Writes row t of the forward table for each sample t; the value is the log-likelihood of the samples.
pub fn forward(model: &Model, samples: &[u16], values: &mut [f64]) -> Answer {
    forward_by(exp, model, samples, values)
}

/// `forward` with the exp that is a loop as RULES 4.1 reads, for the benchmarks.
pub fn forward_as_written(model: &Model, samples: &[u16], values: &mut [f64]) -> Answer {
    forward_by(exp_as_written, model, samples, values)
}

fn forward_by(exp: impl Fn(f64) -> f64, model: &Model, samples: &[u16], values: &mut [f64]) -> Answer {
    let cells = model.shape.cells(samples.len());
    let outputs = || {
        [Output {
            length: values.len(),
            needed: cells,
        }]
    };
    if let Some(refusal) = check(model, samples, Empty::Refused, outputs) {
        return refusal;
    }
    Answer::done(forward_unchecked(exp, model, samples, &mut values[..cells]))
}

/// Writes row i of the backward table, beta at sample T-1-i; the value is the log-likelihood of the samples.
pub fn backward(model: &Model, samples: &[u16], values: &mut [f64]) -> Answer {
    backward_by(exp, model, samples, values)
}

/// `backward` with the exp that is a loop as RULES 4.1 reads, for the benchmarks.
pub fn backward_as_written(model: &Model, samples: &[u16], values: &mut [f64]) -> Answer {
    backward_by(exp_as_written, model, samples, values)
}

fn backward_by(exp: impl Fn(f64) -> f64, model: &Model, samples: &[u16], values: &mut [f64]) -> Answer {
    let cells = model.shape.cells(samples.len());
    let outputs = || {
        [Output {
            length: values.len(),
            needed: cells,
        }]
    };
    if let Some(refusal) = check(model, samples, Empty::Taken, outputs) {
        return refusal;
    }
    Answer::done(backward_unchecked(exp, model, samples, &mut values[..cells]))
}

/// `ln_sum_exp` of one term for each state, in the order of the states.
fn sum_over_states(exp: impl Fn(f64) -> f64, states: usize, term: impl Fn(usize) -> f64) -> f64 {
    let mut terms = [0.0; MOST_STATES];
    for (k, cell) in terms[..states].iter_mut().enumerate() {
        *cell = term(k);
    }
    ln_sum_exp_by(exp, &terms[..states])
}

/// The walk alone, for one sample or more and a table of just its length.
pub fn forward_unchecked(exp: impl Fn(f64) -> f64, model: &Model, samples: &[u16], values: &mut [f64]) -> f64 {
    let states = model.shape.states;
    for (j, cell) in values[..states].iter_mut().enumerate() {
        *cell = model.initial[j] + model.emission(j, samples[0]);
    }
    for (t, sample) in samples.iter().enumerate().skip(1) {
        let (before, rest) = values.split_at_mut(t * states);
        let previous = &before[(t - 1) * states..];
        for (j, cell) in rest[..states].iter_mut().enumerate() {
            let emission = model.emission(j, *sample);
            *cell = sum_over_states(&exp, states, |k| (previous[k] + model.transition(k, j)) + emission);
        }
    }
    let last_row = &values[values.len() - states..];
    sum_over_states(&exp, states, |k| last_row[k] + model.end[k])
}

/// The walk alone, for a table of just its length; minus infinity for no samples.
pub fn backward_unchecked(exp: impl Fn(f64) -> f64, model: &Model, samples: &[u16], values: &mut [f64]) -> f64 {
    let states = model.shape.states;
    let Some((first, later)) = samples.split_first() else {
        return f64::NEG_INFINITY;
    };
    values[..states].copy_from_slice(model.end);
    for (i, sample) in later.iter().rev().enumerate() {
        let (before, rest) = values.split_at_mut((i + 1) * states);
        let previous = &before[i * states..];
        for (j, cell) in rest[..states].iter_mut().enumerate() {
            *cell = sum_over_states(&exp, states, |k| {
                (previous[k] + model.transition(j, k)) + model.emission(k, *sample)
            });
        }
    }
    let last_row = &values[values.len() - states..];
    sum_over_states(&exp, states, |k| {
        (last_row[k] + model.initial[k]) + model.emission(k, *first)
    })
}
