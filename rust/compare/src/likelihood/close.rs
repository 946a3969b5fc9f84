//! Good models on which the likelihood is close to the best path's value, or equal to it: one sum that is rounded otherwise
//! would put it under.

use super::{HALF, HALF_OF_THE_LAST, LESS_THAN_HALF, MINUS};
use crate::case::{self, Case, Sizes};
use crate::random::Random;

/// A kind of close models: what makes them close, and how one is made.
pub type Kind = (&'static str, fn(&mut Random) -> Case);

/// Every kind. With an end state and without one.
pub const KINDS: [Kind; 8] = [
    ("one state", |random| case::any(sizes(1, 40, random), random)),
    ("one state that may be impossible", |random| {
        drawn(sizes(1, 40, random), random, |random| match random.once_in(8) {
            true => MINUS,
            false => -4.0 * random.unit(),
        })
    }),
    ("one path alone", |random| {
        let case = case::ordinary(sizes(8, 40, random), random);
        with_one_path(case, random)
    }),
    ("one path alone, of entries that are tiny next to -1", |random| {
        let mut case = drawn(sizes(4, 40, random), random, |random| random.pick(&TINY));
        let any = 1.0 + random.unit();
        case.initial.fill(-random.pick(&[1.0, 1.0 + f64::EPSILON, 1.5, any]));
        with_one_path(case, random)
    }),
    ("one path alone, of zeros of both signs", |random| {
        let case = drawn(sizes(4, 8, random), random, |random| random.pick(&[0.0, -0.0, -0.0]));
        with_one_path(case, random)
    }),
    ("sums that overflow", |random| {
        drawn(sizes(4, 4, random), random, |random| random.pick(&HUGE))
    }),
    (
        "entries so great that rounding takes the logarithm of a sum",
        |random| {
            let great = 2.0_f64.powi(50 + random.below(12) as i32);
            let mut case = drawn(sizes(8, 40, random), random, |random| -random.unit());
            case.tables_mut()
                .into_iter()
                .flatten()
                .for_each(|entry| *entry *= great);
            case
        },
    ),
    ("other paths far behind", |random| {
        let case = drawn(sizes(6, 24, random), random, |random| -random.unit() / 64.0);
        with_one_ahead(case, random)
    }),
];

/// Entries whose sum with -1 is half-way between two f64, or next to that.
const TINY: [f64; 8] = [
    -HALF,
    -HALF,
    -HALF * (1.0 + f64::EPSILON),
    -HALF / 2.0,
    -HALF * 1.5,
    -HALF * 3.0,
    -0.0,
    0.0,
];

/// Entries of which two or more overflow to minus infinity, or just do not.
const HUGE: [f64; 6] = [
    -f64::MAX,
    -f64::MAX / 2.0,
    -f64::MAX / 4.0,
    -HALF_OF_THE_LAST,
    -LESS_THAN_HALF,
    -1e300,
];

/// The numberth close model: as many in a row as there are kinds have each kind once.
pub fn close(number: usize, random: &mut Random) -> Case {
    let (_, make) = KINDS[number % KINDS.len()];
    make(random)
}

/// At most so many states and samples, at least one of each.
fn sizes(states: usize, samples: usize, random: &mut Random) -> Sizes {
    Sizes {
        states: 1 + random.below(states),
        symbols: 1 + random.below(3),
        samples: 1 + random.below(samples),
    }
}

/// A case of these sizes with each entry drawn. Without an end state the end table stays +0.0.
fn drawn(sizes: Sizes, random: &mut Random, entry: fn(&mut Random) -> f64) -> Case {
    let mut case = case::ordinary(sizes, random);
    let tables = if case.shape.ends { 4 } else { 3 };
    let entries = case.tables_mut().into_iter().take(tables).flatten();
    entries.for_each(|place| *place = entry(random));
    case
}

/// The initial table and each row of the transitions: where one goes next.
fn ways(case: &mut Case) -> impl Iterator<Item = &mut [f64]> {
    let rows = case.transition.chunks_mut(case.shape.states);
    std::iter::once(&mut case.initial[..]).chain(rows)
}

/// The case with one path alone: one state to start in, and one after each state.
fn with_one_path(mut case: Case, random: &mut Random) -> Case {
    for row in ways(&mut case) {
        let next = random.below(row.len());
        let others = row.iter_mut().enumerate().filter(|(state, _)| *state != next);
        others.for_each(|(_, entry)| *entry = MINUS);
    }
    case
}

/// The case with one state that is next, and every other by 15 to 45 less likely: the exponential of the difference is
/// small, and at 43 it is 0.
fn with_one_ahead(mut case: Case, random: &mut Random) -> Case {
    for row in ways(&mut case) {
        let next = random.below(row.len());
        let others = row.iter_mut().enumerate().filter(|(state, _)| *state != next);
        others.for_each(|(_, entry)| *entry -= 15.0 + 30.0 * random.unit());
    }
    case
}
