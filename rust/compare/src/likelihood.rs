//! The likelihood beside the best path: forward's answer is never under Viterbi's value, and no cell of forward's is under
//! the cell of the same sample and state.
//!
//! Reference and library are held to that by their own calls, and bio by its own walks with our kernels. Backward adds from
//! the other end, so that its answer may be below Viterbi's value. It is counted for contrast: where it is below, a sum that
//! is rounded otherwise can be seen.

mod close;
mod gaps;
mod to_freeze;

pub use close::{close, KINDS};
pub use gaps::{Summary, Totals};
pub use to_freeze::to_freeze;

use crate::case::Case;
use crate::engine::Engine;
use crate::lent::{Call, Output};
use crate::likeness::{bio_model, ours_by, Ours};
use crate::sketch::Sketch;
use crate::verdict::Verdict;
use oracle::Bio;
use reference::answer::{DONE, NO_SAMPLES};
use reference::Answer;

const MINUS: f64 = f64::NEG_INFINITY;

/// 2^-53, half of the step from 1 to the next f64: -1 less this is a tie, and rounds to -1.
const HALF: f64 = f64::EPSILON / 2.0;

/// 2^970, half of the step that would come after the greatest f64: with it the greatest overflows, and with the next number
/// below it does not.
const HALF_OF_THE_LAST: f64 = f64::from_bits((970 + 1023) << 52);
const LESS_THAN_HALF: f64 = HALF_OF_THE_LAST * (1.0 - HALF);

/// Model A of RULES 9, on two samples.
const MODEL_A: Sketch = Sketch {
    initial: &[-1.0],
    transition: &[-HALF],
    emission: &[-HALF],
    end: None,
    samples: &[0, 0],
};

/// What backward answers on model A (gate post A2).
const BELOW: f64 = f64::from_bits(0xbff0_0000_0000_0002);

/// The walks that are held beside each other.
pub const WALKS: [Call; 3] = [Call::Viterbi, Call::Forward, Call::Backward];

/// Model A of RULES 9, on two samples.
pub fn model_a() -> Case {
    MODEL_A.case()
}

/// What Viterbi, forward and backward give on one model and its samples.
pub struct Walks {
    pub viterbi: Ours,
    pub forward: Ours,
    pub backward: Ours,
}

impl Walks {
    /// By somebody's calls.
    pub fn by(engine: &Engine, case: &Case) -> Walks {
        let [viterbi, forward, backward] = WALKS.map(|call| ours_by(engine, call, case));
        Walks {
            viterbi,
            forward,
            backward,
        }
    }

    /// By bio's own walks, without the end state of the case, since bio leaves it out of Viterbi. None for no samples, where
    /// bio's forward panics.
    pub fn of_bio(bio: &Bio, case: &Case) -> Option<Walks> {
        if case.samples.is_empty() {
            return None;
        }
        let walks = bio_model(bio, &case.without_end_state());
        let samples = case.wide_samples();
        let (path, best) = walks.viterbi(&samples);
        let (values, from) = walks.viterbi_tables(&samples);
        let (alpha, likelihood) = walks.forward(&samples);
        let (beta, backward) = walks.backward(&samples);
        let tables = vec![Output::Bytes(path), Output::Numbers(values), Output::Bytes(from)];
        Some(Walks {
            viterbi: walked(best, tables),
            forward: walked(likelihood, vec![Output::Numbers(alpha)]),
            backward: walked(backward, vec![Output::Numbers(beta)]),
        })
    }

    /// Whether there is a likelihood: without samples forward is refused.
    fn is_told(&self) -> bool {
        self.forward.answer().refusal == DONE
    }

    /// Forward's answer, Viterbi's value and backward's answer.
    fn answers(&self) -> [f64; 3] {
        [&self.forward, &self.viterbi, &self.backward].map(|walk| walk.answer().value)
    }

    /// Each cell of forward with that of Viterbi.
    fn cells(&self) -> impl Iterator<Item = (f64, f64)> + '_ {
        let best = self.viterbi.numbers(1).iter().copied();
        self.forward.numbers(0).iter().copied().zip(best)
    }

    /// That both calls are done, forward's answer is at least Viterbi's value, and each of its cells at least Viterbi's. For no
    /// samples forward must be refused, and there is nothing else to say.
    pub fn never_under(&self) -> Verdict {
        let has_samples = !self.viterbi.bytes(0).is_empty();
        let due = if has_samples { DONE } else { NO_SAMPLES };
        let mut verdict = Verdict::default();
        let [forward, viterbi] = [&self.forward, &self.viterbi].map(|walk| u64::from(walk.answer().refusal));
        verdict.whole("refusal of viterbi", viterbi, u64::from(DONE));
        verdict.whole("refusal of forward", forward, u64::from(due));
        if has_samples {
            let [likelihood, best, _] = self.answers();
            verdict.at_least("forward's answer", likelihood, best);
            verdict.each_at_least("forward's cell", self.forward.numbers(0), self.viterbi.numbers(1));
        }
        verdict
    }

    /// That these walks on model A answer as the gate posts A1 and A2 say, to the bit: so backward is below, and counted.
    pub fn are_gate_posts(&self) -> Verdict {
        let mut verdict = self.never_under();
        let [likelihood, best, backward] = self.answers();
        verdict.number("viterbi", best, -1.0);
        verdict.bytes("path", self.viterbi.bytes(0), &[0, 0]);
        verdict.number("forward", likelihood, -1.0);
        verdict.number("backward", backward, BELOW);
        verdict
    }
}

/// A walk that is done.
fn walked(value: f64, outputs: Vec<Output>) -> Ours {
    Ours {
        given: Answer::done(value).into(),
        outputs,
    }
}

#[cfg(test)]
mod tests;
