//! The rule on all paths: every path of a small model is scored from left to right by somebody's additions, and ties are
//! told by the best of all prefixes.

use super::{done, must_be_refused, MINUS};
use crate::case::Case;
use crate::engine::Engine;
use crate::lent::Call;
use crate::likeness::{ours_by, Ours};
use crate::verdict::Verdict;
use reference::answer::{BAD_INDEX, NO_RIVAL};

/// The most paths of which each is scored.
const MOST_PATHS: usize = 1 << 14;

/// Adds two log-probabilities.
pub type Adds = fn(f64, f64) -> f64;

/// A state that no path may have at a time.
#[derive(Clone, Copy)]
struct Bar {
    state: usize,
    time: usize,
}

/// The scores of all prefixes of a case's paths. A prefix is a number whose digits to the base S are its states, the first
/// state lowest.
struct Prefixes<'a> {
    case: &'a Case,
    add: Adds,
    /// For each time, the score of each prefix that ends there.
    scores: Vec<Vec<f64>>,
}

/// A path and its own score.
struct Scored {
    path: Vec<u8>,
    score: f64,
}

/// Whether a case has so few paths that each can be scored.
pub fn has_few_paths(case: &Case) -> bool {
    let paths = case.shape.states.checked_pow(case.samples.len() as u32);
    paths.is_some_and(|paths| paths <= MOST_PATHS)
}

/// Somebody's rival against all paths of a case: both paths by the rule on ties, their own scores to the bit, and as numbers
/// the greatest score of all paths with another state at the index and the greatest of all prefixes to each cell. Where the
/// greatest is minus infinity, 15.
pub fn all_paths(engine: &Engine, add: Adds, case: &Case) -> Verdict {
    let ours = ours_by(engine, Call::Rival, case);
    if case.index >= case.samples.len() {
        return must_be_refused(&ours, BAD_INDEX);
    }
    let prefixes = Prefixes::of(case, add);
    let best = prefixes.best(None);
    let bar = Bar {
        state: usize::from(best.path[case.index]),
        time: case.index,
    };
    if prefixes.greatest(Some(bar)) == MINUS {
        return must_be_refused(&ours, NO_RIVAL);
    }
    let mut verdict = Verdict::default();
    let rival = prefixes.best(Some(bar));
    verdict.given(&ours.given, &done(rival.score, bar.state, best.score));
    verdict.bytes("path", ours.bytes(0), &best.path);
    verdict.bytes("rival's path", ours.bytes(1), &rival.path);
    prefixes.are_greatest(&mut verdict, &ours, bar);
    verdict
}

impl Prefixes<'_> {
    fn of(case: &Case, add: Adds) -> Prefixes<'_> {
        let mut prefixes = Prefixes {
            case,
            add,
            scores: Vec::new(),
        };
        for time in 0..case.samples.len() {
            let count = prefixes.count(time);
            let scores = (0..count).map(|prefix| prefixes.score(time, prefix)).collect();
            prefixes.scores.push(scores);
        }
        prefixes
    }

    fn states(&self) -> usize {
        self.case.shape.states
    }

    /// How many prefixes end at this time.
    fn count(&self, time: usize) -> usize {
        self.states().pow(time as u32 + 1)
    }

    /// The state of a prefix at a time.
    fn state(&self, prefix: usize, time: usize) -> usize {
        prefix / self.states().pow(time as u32) % self.states()
    }

    /// The score of a prefix that ends at this time, where those of all shorter ones are there.
    fn score(&self, time: usize, prefix: usize) -> f64 {
        let model = self.case.model();
        let state = self.state(prefix, time);
        let before = match time {
            0 => model.initial[state],
            _ => {
                let score = self.scores[time - 1][prefix % self.count(time - 1)];
                (self.add)(score, model.transition(self.state(prefix, time - 1), state))
            }
        };
        (self.add)(before, model.emission(state, self.case.samples[time]))
    }

    /// The last time.
    fn last(&self) -> usize {
        self.case.samples.len() - 1
    }

    /// The score of a whole path: with an end state the end entry is added last.
    fn whole(&self, path: usize) -> f64 {
        let score = self.scores[self.last()][path];
        match self.case.shape.ends {
            true => (self.add)(score, self.case.end[self.state(path, self.last())]),
            false => score,
        }
    }

    /// The prefixes that end at this time and do not meet the bar.
    fn allowed(&self, time: usize, bar: Option<Bar>) -> impl Iterator<Item = usize> + '_ {
        let is_barred =
            move |prefix: &usize| bar.is_some_and(|bar| bar.time <= time && self.state(*prefix, bar.time) == bar.state);
        (0..self.count(time)).filter(move |prefix| !is_barred(prefix))
    }

    /// The greatest score of all whole paths that do not meet the bar.
    fn greatest(&self, bar: Option<Bar>) -> f64 {
        let scores = self.allowed(self.last(), bar).map(|path| self.whole(path));
        scores.fold(MINUS, f64::max)
    }

    /// The greatest score of all prefixes that end at this time in this state and do not meet the bar; whole ones with how
    /// they end.
    fn greatest_to(&self, time: usize, state: usize, bar: Option<Bar>, score: impl Fn(usize) -> f64) -> f64 {
        let ends_there = self
            .allowed(time, bar)
            .filter(|prefix| self.state(*prefix, time) == state);
        ends_there.map(score).fold(MINUS, f64::max)
    }

    /// The same for each state.
    fn row(&self, time: usize, bar: Option<Bar>) -> Vec<f64> {
        let score = |prefix: usize| self.scores[time][prefix];
        let states = 0..self.states();
        states.map(|state| self.greatest_to(time, state, bar, score)).collect()
    }

    /// The best path that does not meet the bar, by the rule on ties: the last state is the highest-numbered of the
    /// greatest whole paths, and before each state comes the highest-numbered of its best predecessors.
    fn best(&self, bar: Option<Bar>) -> Scored {
        let whole = |path: usize| self.whole(path);
        let states = 0..self.states();
        let scores = states.map(|state| (true, self.greatest_to(self.last(), state, bar, whole)));
        let mut state = last_of_the_highest(scores);
        let mut path = vec![state as u8];
        for time in (0..self.last()).rev() {
            state = self.predecessor(&self.row(time, bar), state);
            path.insert(0, state as u8);
        }
        let number = path
            .iter()
            .rev()
            .fold(0, |number, state| number * self.states() + usize::from(*state));
        Scored {
            path,
            score: self.whole(number),
        }
    }

    /// The best predecessor of a state: those at minus infinity rank alike and below every other, the others by their score
    /// and the transition.
    fn predecessor(&self, row: &[f64], state: usize) -> usize {
        let ranks = row.iter().enumerate().map(|(k, score)| match *score {
            MINUS => (false, MINUS),
            score => (true, (self.add)(score, self.case.model().transition(k, state))),
        });
        last_of_the_highest(ranks)
    }

    /// Compares the value and every cell with the greatest scores, as numbers.
    fn are_greatest(&self, verdict: &mut Verdict, ours: &Ours, bar: Bar) {
        let greatest = self.greatest(Some(bar));
        let value = ours.given.answer.value;
        verdict.table("greatest score", &as_numbers(&[value]), &as_numbers(&[greatest]));
        let rows = ours.numbers(2).chunks(self.states()).enumerate();
        for (time, row) in rows {
            let greatest = self.row(time, Some(bar));
            verdict.table(
                &format!("greatest scores at {time}"),
                &as_numbers(row),
                &as_numbers(&greatest),
            );
        }
    }
}

/// The same with +0.0 for both zeros.
fn as_numbers(scores: &[f64]) -> Vec<f64> {
    scores.iter().map(|score| score + 0.0).collect()
}

/// The number of the last of those that rank highest.
fn last_of_the_highest(ranks: impl Iterator<Item = (bool, f64)>) -> usize {
    let ranks = ranks.enumerate();
    let last = ranks.max_by(|(_, a), (_, b)| a.partial_cmp(b).expect("no score is NaN"));
    last.expect("there is a state").0
}
