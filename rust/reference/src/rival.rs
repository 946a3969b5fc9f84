//! The strongest rival (RULES 6.4): the best path among those with another state at one sample than the best of all.

use crate::answer::{Answer, BAD_INDEX, NO_RIVAL};
use crate::model::{check, Empty, Model, Output, Shape};
use crate::viterbi::viterbi_unchecked;

/// What the call gives: the answer, whose value is the rival's score, the state that the best path has at the index, and
/// the best path's value. On a refusal the chosen state is 0 and the best value minus infinity.
#[derive(Clone, Copy, Debug)]
pub struct Rivalry {
    pub answer: Answer,
    pub chosen: usize,
    pub best: f64,
}

/// A walk of Viterbi in memory of its own.
struct Walk {
    path: Vec<u8>,
    values: Vec<f64>,
    from: Vec<u8>,
    value: f64,
}

/// Writes the best path, the rival, and the value and the predecessor of each cell of the rival's walk. Surplus of the
/// outputs is left alone.
pub fn rival(
    model: &Model,
    samples: &[u16],
    index: usize,
    path: &mut [u8],
    rival_path: &mut [u8],
    values: &mut [f64],
    from: &mut [u8],
) -> Rivalry {
    let cells = model.shape.cells(samples.len());
    let needed = [samples.len(), samples.len(), cells, cells];
    let lengths = [path.len(), rival_path.len(), values.len(), from.len()];
    let outputs = || {
        [0, 1, 2, 3].map(|place| Output {
            length: lengths[place],
            needed: needed[place],
        })
    };
    if let Some(refusal) = check(model, samples, Empty::Taken, outputs) {
        return refused(refusal);
    }
    if index >= samples.len() {
        return refused(Answer::refused(BAD_INDEX, 0, 0));
    }
    let best = walked(model, samples);
    let chosen = usize::from(best.path[index]);
    let rival = walked_without(model, samples, chosen, index);
    if rival.value == f64::NEG_INFINITY {
        return refused(Answer::refused(NO_RIVAL, 0, 0));
    }
    path[..samples.len()].copy_from_slice(&best.path);
    rival_path[..samples.len()].copy_from_slice(&rival.path);
    values[..cells].copy_from_slice(&rival.values);
    from[..cells].copy_from_slice(&rival.from);
    Rivalry {
        answer: Answer::done(rival.value),
        chosen,
        best: best.value,
    }
}

fn refused(answer: Answer) -> Rivalry {
    Rivalry {
        answer,
        chosen: 0,
        best: f64::NEG_INFINITY,
    }
}

fn walked(model: &Model, samples: &[u16]) -> Walk {
    let cells = model.shape.cells(samples.len());
    let mut walk = Walk {
        path: vec![0; samples.len()],
        values: vec![0.0; cells],
        from: vec![0; cells],
        value: 0.0,
    };
    let answer = viterbi_unchecked(model, samples, &mut walk.path, &mut walk.values, &mut walk.from);
    walk.value = answer.value;
    walk
}

/// The walk of the model in which this state cannot emit the sample at the index. That sample becomes one more symbol,
/// which every other state emits as it did the sample.
fn walked_without(model: &Model, samples: &[u16], barred: usize, index: usize) -> Walk {
    let Shape { states, symbols, .. } = model.shape;
    let mut emission = Vec::with_capacity(states * (symbols + 1));
    for (j, row) in model.emission.chunks(symbols).enumerate() {
        emission.extend(row);
        emission.push(match j == barred {
            true => f64::NEG_INFINITY,
            false => model.emission(j, samples[index]),
        });
    }
    let mut samples = samples.to_vec();
    samples[index] = symbols as u16;
    let model = Model {
        shape: Shape {
            symbols: symbols + 1,
            ..model.shape
        },
        emission: &emission,
        ..*model
    };
    walked(&model, &samples)
}
