//! Entries by their bits: words as entries of a good model, and the answer that they lead to by a rule on whole numbers.
//!
//! The library looks at the 64 bits of an entry, and at 128 entries at once; the reference compares numbers, one after the
//! other. So the words are those next to which a rule on bits may go wrong, and the places those where blocks begin and
//! end. bio looks at no entry.

mod rounds;
mod to_freeze;
pub mod words;

pub use rounds::round;
pub use to_freeze::to_freeze;

use crate::case::Case;
use crate::engine::Engine;
use crate::lent::{fault, Call, Output};
use crate::verdict::Verdict;
use reference::answer::{END, NOT_GOOD};
use reference::Answer;

/// The bits of -0.0 and of minus infinity.
pub const MINUS_ZERO: u64 = 0x8000_0000_0000_0000;
pub const MINUS_INFINITY: u64 = 0xfff0_0000_0000_0000;

/// How many entries the library looks at at once.
const BLOCK: usize = 128;

/// Whether an entry of these bits is good, RULES 2.5 said of whole numbers: no bit is set, or the sign is and the rest is
/// at most infinity's.
pub fn is_good(word: u64) -> bool {
    word == 0 || (MINUS_ZERO..=MINUS_INFINITY).contains(&word)
}

/// The same in this table of a case: without an end state the end table has no bit set.
fn is_good_in(case: &Case, table: u8, word: u64) -> bool {
    if table == END && !case.shape.ends {
        word == 0
    } else {
        is_good(word)
    }
}

/// The table and the place of the first entry whose bits are not good, tables by number and places upward.
pub fn first_fault(case: &Case) -> Option<(u8, usize)> {
    let model = case.model();
    let mut tables = (0..).zip(model.tables());
    tables.find_map(|(number, table)| {
        let is_bad = |entry: &f64| !is_good_in(case, number, entry.to_bits());
        Some((number, table.iter().position(is_bad)?))
    })
}

/// Somebody's answer to Viterbi against the rule on words, and the lent memory against RULES 3.4. The rule knows the value
/// where there are no samples, and of a refusal.
pub fn by_the_rule(engine: &Engine, case: &Case, lent: Vec<Output>) -> Verdict {
    let mut outputs = lent.clone();
    let answer = (engine.call)(Call::Viterbi, case, &mut outputs).answer;
    let mut verdict = Verdict {
        numbers: outputs.iter().map(|output| output.len() as u64).sum(),
        wrong: fault(Call::Viterbi, case, &answer, &lent, &outputs),
        refusal: answer.refusal,
        ..Verdict::default()
    };
    verdict.answer(&answer, &expected(case, &answer));
    verdict
}

/// The answer by the rule on words; the value of a path is the given one's.
fn expected(case: &Case, given: &Answer) -> Answer {
    match first_fault(case) {
        Some((table, place)) => Answer::refused(NOT_GOOD, table, place),
        None if case.samples.is_empty() => Answer::done(f64::NEG_INFINITY),
        None => Answer::done(given.value),
    }
}

#[cfg(test)]
mod tests;
