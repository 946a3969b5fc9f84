//! The check of a model's entries.
//!
//! What is timed is Viterbi without samples, which is the checks of a call and nothing else, against a plain loop over the
//! entries alone, which asks of each whether it is NaN or above 0 and stops at the first that is.

use crate::contest::Contestants;
use crate::walks::on_lent_memory;
use compare::case::{of_kinds, Case, Kind, Sizes};
use compare::engine::{self, Engine};
use compare::lent::{lend, Call};
use compare::random::Random;
use reference::answer::NOT_GOOD;
use reference::Answer;
use std::hint::black_box;

/// The table and the place of an entry that is not good.
type Fault = (u8, usize);

pub fn contest() {
    let good = good_model();
    print("3,240 good", &good, None);
    let mut last = good.clone();
    last.end[11] = 0.5;
    print("the last of them bad", &last, Some((3, 11)));
    let mut emission = good;
    emission.emission[3071] = 0.5;
    print("the last emission bad", &emission, Some((1, 3071)));
}

/// A random model with an end state whose rows are distributions, and no samples.
pub fn good_model() -> Case {
    let sizes = Sizes {
        states: 12,
        symbols: 256,
        samples: 0,
    };
    let mut case = of_kinds(sizes, [Kind::Normalised; 4], &mut Random::new(1));
    (case.shape.ends, case.end) = (true, case.initial.clone());
    case
}

/// Times a model that has this fault, or none, and prints a line. Both contestants must find the fault, which is looked at
/// before the clock starts.
fn print(name: &str, case: &Case, fault: Option<Fault>) {
    assert_eq!(first_fault(case), fault, "the plain loop");
    let library = engine::library().inspect(|library| must_name(library, case, fault));
    let contestants = Contestants {
        plain: Box::new(|| {
            black_box(first_fault(black_box(case)));
        }),
        bio: None,
        library: library.map(|library| on_lent_memory(library, Call::Viterbi, case)),
    };
    contestants.print(name, 1);
}

/// Holds the library's answer to the fault: refusal 7 that names it, or done. The value is minus infinity in both.
fn must_name(library: &Engine, case: &Case, fault: Option<Fault>) {
    let mut outputs = lend(Call::Viterbi, case, &mut Random::new(2));
    let answer = (library.call)(Call::Viterbi, case, &mut outputs).answer;
    let expected = match fault {
        Some((table, place)) => Answer::refused(NOT_GOOD, table, place),
        None => Answer::done(f64::NEG_INFINITY),
    };
    assert!(answer.same_bits(&expected), "{answer:?} instead of {expected:?}");
}

/// The first entry of a model with an end state that is not good, tables by number and places upward.
fn first_fault(case: &Case) -> Option<Fault> {
    let model = case.model();
    let mut tables = (0..).zip(model.tables());
    tables.find_map(|(number, table)| Some((number, first_not_good(table)?)))
}

/// The place of the first entry that is NaN or above 0. Of the shapes that were tried this is the fastest and the steadiest:
/// `position` took a fifth more time, and so did the four copies of the loop that inlining makes, in some runs.
#[inline(never)]
fn first_not_good(table: &[f64]) -> Option<usize> {
    for (place, entry) in table.iter().enumerate() {
        if entry.is_nan() || *entry > 0.0 {
            return Some(place);
        }
    }
    None
}
