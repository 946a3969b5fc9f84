//! The strongest rival: held to bio's Viterbi on the model in which the chosen state is barred, and to all paths.
//!
//! bio has no rival. So it is made of what bio has: its Viterbi walks a model in which each sample has a symbol of its own,
//! so that the emission of one state at one time can be minus infinity; and its additions score every path of small
//! models.

mod all_paths;
mod small;
mod to_freeze;

pub use all_paths::{all_paths, has_few_paths, Adds};
pub use small::{on_a_grid, random_small};
pub use to_freeze::{at_every_index, refused_to_freeze, to_freeze};

use crate::case::Case;
use crate::engine::{Engine, Given};
use crate::lent::Call;
use crate::likeness::{best_of_bio, best_path, best_path_to_the_end, ours_by, Ours};
use crate::verdict::Verdict;
use oracle::Bio;
use reference::answer::{BAD_INDEX, NO_RIVAL};
use reference::{Answer, Rivalry, Shape};

const MINUS: f64 = f64::NEG_INFINITY;

/// Somebody's rival against bio's best path, and against bio's Viterbi with that path's state at the index barred: both
/// paths, both values and both tables, bit for bit. Where bio's barred value is minus infinity, 15.
pub fn against_bio(engine: &Engine, bio: &Bio, case: &Case) -> Verdict {
    let ours = ours_by(engine, Call::Rival, case);
    if case.index >= case.samples.len() {
        return must_be_refused(&ours, BAD_INDEX);
    }
    let own = with_own_symbols(case);
    let (path, best) = best_of_bio(bio, &own);
    let chosen = path[case.index];
    let barred = with_barred(&own, usize::from(chosen));
    let (_, value) = best_of_bio(bio, &barred);
    if value == MINUS {
        return must_be_refused(&ours, NO_RIVAL);
    }
    let mut verdict = walked_as_barred(&ours, bio, &barred);
    verdict.given(&ours.given, &done(value, usize::from(chosen), best));
    verdict.bytes("path", ours.bytes(0), &path);
    verdict
}

/// What the call gives that is done.
fn done(value: f64, chosen: usize, best: f64) -> Given {
    let answer = Answer::done(value);
    Rivalry { answer, chosen, best }.into()
}

fn must_be_refused(ours: &Ours, refusal: u8) -> Verdict {
    let mut verdict = Verdict {
        refusal,
        ..Verdict::default()
    };
    let refused = Given::refused(Call::Rival, Answer::refused(refusal, 0, 0));
    verdict.given(&ours.given, &refused);
    verdict
}

/// The rival's path, values and predecessors as those of Viterbi on the barred model, to the end state as a state too.
fn walked_as_barred(ours: &Ours, bio: &Bio, barred: &Case) -> Verdict {
    let walk = Ours {
        given: ours.given.answer.into(),
        outputs: ours.outputs[1..].to_vec(),
    };
    let mut verdict = best_path(&walk, bio, barred);
    // What the end table changes in bio's Viterbi is counted with Viterbi.
    verdict.intended.clear();
    if barred.shape.ends {
        let to_the_end = best_path_to_the_end(&walk, bio, barred);
        verdict.numbers += to_the_end.numbers;
        verdict.wrong = verdict.wrong.or(to_the_end.wrong);
    }
    verdict
}

/// The case with a symbol of its own for each sample.
fn with_own_symbols(case: &Case) -> Case {
    let Shape { states, ends, .. } = case.shape;
    let symbols = case.samples.len();
    let model = case.model();
    let cells = (0..states).flat_map(|j| case.samples.iter().map(move |sample| (j, *sample)));
    Case {
        shape: Shape { states, symbols, ends },
        emission: cells.map(|(j, sample)| model.emission(j, sample)).collect(),
        samples: (0..symbols as u16).collect(),
        ..case.clone()
    }
}

/// The case, whose samples have symbols of their own, with this state barred at the index.
fn with_barred(own: &Case, state: usize) -> Case {
    let mut barred = own.clone();
    barred.emission[state * own.shape.symbols + own.index] = MINUS;
    barred
}

#[cfg(test)]
mod tests;
