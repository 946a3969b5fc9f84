//! Who answers the calls: the reference, and the proved library, unless this is built without it.

#[cfg(feature = "library")]
mod proved;

use crate::case::Case;
use crate::lent::{Call, Output};
use reference::{leaves, Answer, Estimates, Reading, Rivalry, Shape, Tables};

/// Something that answers calls.
#[derive(Clone, Copy)]
pub struct Engine {
    /// A call on a model, on lent memory.
    pub call: fn(Call, &Case, &mut [Output]) -> Given,
    pub leaves: Leaves,
    pub model_file: ModelFile,
}

/// What a call on a model gives: its answer, and what `rival` alone gives beside it.
#[derive(Clone, Copy, Debug)]
pub struct Given {
    pub answer: Answer,
    pub beside: Option<Beside>,
}

/// The state that the best path has at the index, and the best path's value.
#[derive(Clone, Copy, Debug)]
pub struct Beside {
    pub chosen: usize,
    pub best: f64,
}

impl Given {
    /// What a call gives that is refused: beside the answer there is no state chosen and nothing best.
    pub fn refused(call: Call, answer: Answer) -> Given {
        let none = Beside {
            chosen: 0,
            best: f64::NEG_INFINITY,
        };
        Given {
            answer,
            beside: call.takes_index().then_some(none),
        }
    }
}

impl From<Answer> for Given {
    fn from(answer: Answer) -> Given {
        Given { answer, beside: None }
    }
}

impl From<Rivalry> for Given {
    fn from(rivalry: Rivalry) -> Given {
        let Rivalry { answer, chosen, best } = rivalry;
        Given {
            answer,
            beside: Some(Beside { chosen, best }),
        }
    }
}

/// A leaf of one argument, and one of two.
pub type One = fn(f64) -> Answer;
pub type Two = fn(f64, f64) -> Answer;

/// The leaves and kernels that the library exports.
#[derive(Clone, Copy)]
pub struct Leaves {
    pub exp: One,
    pub ln: One,
    pub ln_one_minus_exp: One,
    pub ln_add_exp: Two,
    pub ln_sub_exp: Two,
    pub cap_numerical_overshoot: Two,
    pub ln_sum_exp: fn(&[f64]) -> Answer,
    pub ln_cumsum_exp: fn(&[f64], &mut [f64]) -> Answer,
}

/// The reader of a model file, and the length of one. Its writer is a call on a model.
#[derive(Clone, Copy)]
pub struct ModelFile {
    pub read: fn(&[u8], &mut Tables) -> Reading,
    pub length: fn(Shape) -> usize,
}

/// The independent reference.
pub const REFERENCE: Engine = Engine {
    call: reference_call,
    leaves: Leaves {
        exp: leaves::exp,
        ln: leaves::ln,
        ln_one_minus_exp: leaves::ln_one_minus_exp,
        ln_add_exp: leaves::ln_add_exp,
        ln_sub_exp: leaves::ln_sub_exp,
        cap_numerical_overshoot: leaves::cap_numerical_overshoot,
        ln_sum_exp: leaves::ln_sum_exp,
        ln_cumsum_exp: leaves::ln_cumsum_exp,
    },
    model_file: ModelFile {
        read: reference::read_model,
        length: reference::file_length,
    },
};

/// The proved library; none where this is built without it.
#[cfg(feature = "library")]
pub fn library() -> Option<Engine> {
    Some(proved::LIBRARY)
}

/// The proved library; none where this is built without it.
#[cfg(not(feature = "library"))]
pub fn library() -> Option<Engine> {
    None
}

fn reference_call(call: Call, case: &Case, outputs: &mut [Output]) -> Given {
    let model = case.model();
    match (call, outputs) {
        (Call::Viterbi, [Output::Bytes(path), Output::Numbers(values), Output::Bytes(from)]) => {
            reference::viterbi(&model, &case.samples, path, values, from).into()
        }
        (Call::Forward, [Output::Numbers(values)]) => reference::forward(&model, &case.samples, values).into(),
        (Call::Backward, [Output::Numbers(values)]) => reference::backward(&model, &case.samples, values).into(),
        (Call::BaumWelch, outputs) => reference::baum_welch(&model, &case.samples, &mut estimates(outputs)).into(),
        (Call::WriteModel, [Output::Bytes(file)]) => reference::write_model(&model, file).into(),
        (Call::Rival, [Output::Bytes(path), Output::Bytes(rival), Output::Numbers(values), Output::Bytes(from)]) => {
            reference::rival(&model, &case.samples, case.index, path, rival, values, from).into()
        }
        _ => unreachable!("each call is lent its own outputs"),
    }
}

/// The six outputs of a pass, as its argument.
fn estimates(outputs: &mut [Output]) -> Estimates<'_> {
    let mut numbers = outputs.iter_mut().map(|output| match output {
        Output::Numbers(numbers) => numbers.as_mut_slice(),
        Output::Bytes(_) => unreachable!("a pass writes numbers"),
    });
    let mut next = || numbers.next().expect("a pass has six outputs");
    Estimates {
        new_transition: next(),
        new_emission: next(),
        new_initial: next(),
        new_end: next(),
        alpha: next(),
        beta: next(),
    }
}
