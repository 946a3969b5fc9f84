//! The memory that a call is lent, filled with a pattern, and what RULES 3.4 says of it afterwards.

use crate::case::Case;
use crate::random::Random;
use reference::answer::{DONE, ZERO_MASS};
use reference::Answer;

/// The calls on a model.
#[derive(Clone, Copy, Debug, PartialEq)]
pub enum Call {
    Viterbi,
    Forward,
    Backward,
    BaumWelch,
    WriteModel,
    Rival,
}

/// The calls on a model and its samples alone; `rival` is lent an index with them.
pub const CALLS: [Call; 4] = [Call::Viterbi, Call::Forward, Call::Backward, Call::BaumWelch];

impl Call {
    pub fn name(self) -> &'static str {
        match self {
            Call::Viterbi => "viterbi",
            Call::Forward => "forward",
            Call::Backward => "backward",
            Call::BaumWelch => "baum_welch",
            Call::WriteModel => "write_model",
            Call::Rival => "rival",
        }
    }

    /// Whether the call refuses to answer for no samples.
    pub fn needs_samples(self) -> bool {
        matches!(self, Call::Forward | Call::BaumWelch)
    }

    /// Whether the call is lent samples at all.
    pub fn takes_samples(self) -> bool {
        self != Call::WriteModel
    }

    /// Whether the call is lent an index.
    pub fn takes_index(self) -> bool {
        self == Call::Rival
    }

    /// The length that each output needs, in argument order.
    pub fn needed(self, case: &Case) -> Vec<usize> {
        let (states, symbols) = (case.shape.states, case.shape.symbols);
        let cells = states * case.samples.len();
        match self {
            Call::Viterbi => vec![case.samples.len(), cells, cells],
            Call::Forward | Call::Backward => vec![cells],
            Call::BaumWelch => vec![states * states, states * symbols, states, states, cells, cells],
            Call::WriteModel => vec![reference::file_length(case.shape)],
            Call::Rival => vec![case.samples.len(), case.samples.len(), cells, cells],
        }
    }

    /// Whether the output of this place is bytes.
    pub fn writes_bytes(self, place: usize) -> bool {
        match self {
            Call::Viterbi => place != 1,
            Call::WriteModel => true,
            Call::Rival => place != 2,
            _ => false,
        }
    }

    /// Whether the output of this place is scratch.
    fn is_scratch(self, place: usize) -> bool {
        self == Call::BaumWelch && place >= 4
    }
}

/// One lent output.
#[derive(Clone, Debug)]
pub enum Output {
    Bytes(Vec<u8>),
    Numbers(Vec<f64>),
}

impl Output {
    fn filled(call: Call, place: usize, length: usize, random: &mut Random) -> Output {
        if call.writes_bytes(place) {
            Output::Bytes((0..length).map(|_| random.bits() as u8).collect())
        } else {
            Output::Numbers((0..length).map(|_| f64::from_bits(random.bits())).collect())
        }
    }

    pub fn len(&self) -> usize {
        match self {
            Output::Bytes(bytes) => bytes.len(),
            Output::Numbers(numbers) => numbers.len(),
        }
    }

    pub fn is_empty(&self) -> bool {
        self.len() == 0
    }

    pub fn truncate(&mut self, length: usize) {
        match self {
            Output::Bytes(bytes) => bytes.truncate(length),
            Output::Numbers(numbers) => numbers.truncate(length),
        }
    }

    /// The bits of each element.
    pub fn bits(&self) -> Vec<u64> {
        match self {
            Output::Bytes(bytes) => bytes.iter().map(|byte| u64::from(*byte)).collect(),
            Output::Numbers(numbers) => numbers.iter().map(|number| number.to_bits()).collect(),
        }
    }
}

/// Outputs for a call, each up to three longer than needed, filled with random bits.
pub fn lend(call: Call, case: &Case, random: &mut Random) -> Vec<Output> {
    let needed = call.needed(case);
    let outputs = needed.iter().enumerate();
    outputs
        .map(|(place, needed)| {
            let surplus = random.below(4);
            Output::filled(call, place, needed + surplus, random)
        })
        .collect()
}

/// What is wrong with the memory after a call, by RULES 3.4: 1 to 8, 15 and 16 leave all of it alone; 9
/// leaves the outputs alone; done and 9 leave surplus alone and the needed scratch at +0.0.
pub fn fault(call: Call, case: &Case, answer: &Answer, before: &[Output], after: &[Output]) -> Option<String> {
    let needed = if answer.refusal == DONE || answer.refusal == ZERO_MASS {
        call.needed(case)
    } else {
        vec![0; before.len()]
    };
    let outputs = before.iter().zip(after).zip(needed).enumerate();
    for (place, ((before, after), needed)) in outputs {
        let scratch = call.is_scratch(place);
        let kept = if answer.refusal == ZERO_MASS && !scratch {
            0
        } else {
            needed
        };
        let (before, after) = (before.bits(), after.bits());
        if before[kept..] != after[kept..] {
            return Some(format!("output {} changed where it must not", 5 + place));
        }
        if scratch && after[..kept].iter().any(|bits| *bits != 0) {
            return Some(format!("scratch {} is not +0.0", 5 + place));
        }
    }
    None
}
