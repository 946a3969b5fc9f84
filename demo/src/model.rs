//! The four tables of the gate's model and of the exit lane's, as logarithms of the probabilities in `states`.

use crate::states::{State, ALL, BARRIERS, STATES, SYMBOLS};
use wasnugram::{ln, Model, Shape};

/// The gate's, which has no end state.
pub const SHAPE: Shape = Shape {
    states: STATES,
    symbols: SYMBOLS,
    ends: false,
};

/// The numbers of the tables as they are lent, and their names.
pub const TRANSITION: usize = 0;
pub const EMISSION: usize = 1;
pub const INITIAL: usize = 2;
pub const END: usize = 3;
pub const NAMES: [&str; 4] = ["transition", "emission", "initial", "end"];

#[derive(Clone)]
pub struct Tables {
    /// In the order of their numbers.
    pub entries: [Vec<f64>; 4],
    /// The end flag.
    pub ends: bool,
}

impl Tables {
    /// The logarithms are the library's own: an exact definition, so that the tables have the same bits everywhere.
    pub fn of_the_gate() -> Tables {
        let emission = ALL.iter().flat_map(emissions);
        let initial = ALL.iter().map(|state| per_thousand(state.first));
        Tables {
            entries: [
                transitions(|_| 0),
                emission.collect(),
                initial.collect(),
                vec![0.0; STATES],
            ],
            ends: false,
        }
    }

    /// The gate's states, and an end state. A state that is not the last of its passage goes on as at the gate.
    pub fn of_the_exit_lane() -> Tables {
        let [_, emission, initial, _] = Tables::of_the_gate().entries;
        let end = ALL.iter().map(|state| per_thousand(state.last));
        Tables {
            entries: [transitions(|state| state.last), emission, initial, end.collect()],
            ends: true,
        }
    }

    /// The same transitions, emissions and initial entries without an end state, so that every end entry is +0.0.
    pub fn without_end(mut self) -> Tables {
        self.entries[END].fill(0.0);
        self.ends = false;
        self
    }

    /// Those of a model.
    pub fn of(model: &Model) -> Tables {
        Tables {
            entries: [model.transition, model.emission, model.initial, model.end].map(<[f64]>::to_vec),
            ends: model.shape.ends,
        }
    }

    pub fn lend(&self) -> Model<'_> {
        let [transition, emission, initial, end] = &self.entries;
        Model {
            shape: Shape {
                ends: self.ends,
                ..SHAPE
            },
            transition,
            emission,
            initial,
            end,
        }
    }
}

/// How many columns a table has: one for each state, or for each symbol.
pub fn columns(table: usize) -> usize {
    match table {
        EMISSION => SYMBOLS,
        _ => STATES,
    }
}

fn per_thousand(count: u16) -> f64 {
    logarithm(f64::from(count) / 1000.0)
}

/// A state is the last of its passage in so many of a thousand samples; in the rest of them another sample follows.
fn transitions(last: fn(&State) -> u16) -> Vec<f64> {
    ALL.iter().flat_map(|state| row(state, last(state))).collect()
}

fn row(state: &State, last: u16) -> [f64; STATES] {
    let goes_on = f64::from(1000 - last) / 1000.0;
    state.next.map(|next| logarithm(f64::from(next) / 1000.0 * goes_on))
}

/// Barriers are broken independently of each other in a state, so a symbol's probability is the product over them.
fn emissions(state: &State) -> impl Iterator<Item = f64> + '_ {
    (0..SYMBOLS).map(|symbol| logarithm((0..BARRIERS).map(|i| seen(state, i, symbol >> i & 1 == 1)).product()))
}

fn seen(state: &State, barrier: usize, broken: bool) -> f64 {
    let percent = state.broken[barrier];
    f64::from(if broken { percent } else { 100 - percent }) / 100.0
}

fn logarithm(probability: f64) -> f64 {
    ln(probability).expect("a probability is in the logarithm's domain")
}

#[cfg(test)]
mod tests {
    use super::*;
    use wasnugram::{exp, forward};

    fn probability(row: &[f64]) -> f64 {
        row.iter().map(|x| exp(*x).unwrap()).sum()
    }

    #[test]
    fn rows_sum_to_one() {
        let tables = Tables::of_the_gate();
        for (table, entries) in tables.entries[..3].iter().enumerate() {
            for row in entries.chunks(columns(table)) {
                let sum = probability(row);
                assert!((sum - 1.0).abs() < 1e-6, "{} {sum}", NAMES[table]);
            }
        }
    }

    #[test]
    fn a_state_of_the_exit_lane_goes_on_or_ends() {
        let tables = Tables::of_the_exit_lane();
        let rows = tables.entries[TRANSITION].chunks(STATES);
        for (row, end) in rows.zip(tables.entries[END].chunks(1)) {
            let (goes_on, ends) = (probability(row), probability(end));
            assert!(
                goes_on < 0.9995 && (goes_on + ends - 1.0).abs() < 1e-6,
                "{goes_on} {ends}"
            );
        }
    }

    #[test]
    fn the_library_accepts_the_tables() {
        let exit_lane = Tables::of_the_exit_lane();
        for tables in [Tables::of_the_gate(), exit_lane.clone().without_end(), exit_lane] {
            assert!(forward(&tables.lend(), &[0], &mut [0.0; STATES]).is_ok());
        }
    }
}
