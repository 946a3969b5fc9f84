//! Rivals: against bio with a state barred, against all paths of small models, and the library against the reference.

use super::{Amount, Comparison};
use crate::case::{self, Case, Sizes};
use crate::engine::REFERENCE;
use crate::lent::Call;
use crate::rival::{self, Adds};
use reference::model::{MOST_SAMPLES, MOST_STATES, MOST_SYMBOLS};

/// How many random indices of a long case are looked at beside the first and the last.
const RANDOM: usize = 2;

impl Comparison {
    /// The reference against bio, reference and library by all paths, and the one against the other.
    pub(super) fn rivals(&mut self, amount: &Amount) {
        println!("rival: bio has none; held to bio's Viterbi with a state barred, and to all paths of small models");
        self.rivals_of_any_size(amount);
        self.rivals_of_the_largest(amount);
        self.rivals_of_few_paths(amount);
    }

    /// Every number of states and of symbols, all kinds of entries, and damaged models.
    fn rivals_of_any_size(&mut self, amount: &Amount) {
        for number in 0..amount.rivals {
            let sizes = Sizes::sweep(number, amount.work, &mut self.random);
            let case = case::any(sizes, &mut self.random);
            self.rivals_of(&case);
            self.damaged_call(Call::Rival, number);
        }
    }

    /// The greatest model on as many samples as there is time for, and a small one on the greatest number of samples.
    fn rivals_of_the_largest(&mut self, amount: &Amount) {
        for (states, samples) in [(MOST_STATES, amount.largest), (4, MOST_SAMPLES)] {
            let sizes = Sizes {
                states,
                symbols: MOST_SYMBOLS,
                samples,
            };
            let case = case::ordinary(sizes, &mut self.random);
            self.rivals_of(&case);
        }
    }

    /// All paths of random small models, and of every model on a grid.
    fn rivals_of_few_paths(&mut self, amount: &Amount) {
        for _ in 0..amount.few_paths {
            let case = rival::random_small(&mut self.random);
            self.every_path("of random small models", &case);
            rival::at_every_index(&case).for_each(|case| self.lent_call(Call::Rival, &case));
        }
        rival::on_a_grid().for_each(|case| self.every_path("of every model on a grid", &case));
    }

    /// A case at some of its indices: against bio, and on lent memory.
    fn rivals_of(&mut self, case: &Case) {
        for case in self.at_some_indices(case) {
            if let Some(modes) = self.modes {
                let row = "rival: reference, bio with the chosen state barred";
                self.add(row, &case, &|case| {
                    rival::against_bio(&REFERENCE, &modes.published, case)
                });
            }
            self.lent_call(Call::Rival, &case);
        }
    }

    /// The case at its first index, at its last, at random ones, and at the one after the last, which no sample has.
    fn at_some_indices(&mut self, case: &Case) -> Vec<Case> {
        let length = case.samples.len();
        let mut indices = vec![0, length.saturating_sub(1), length];
        indices.extend((0..RANDOM).map(|_| self.random.below(length + 1)));
        indices.sort_unstable();
        indices.dedup();
        indices.into_iter().map(|index| case.at(index)).collect()
    }

    /// Those who take part by all paths of a case, at each of its indices. bio adds, where its text is at hand.
    fn every_path(&mut self, of: &str, case: &Case) {
        let plain: Adds = |a, b| a + b;
        let add = self.modes.map_or(plain, |modes| modes.published.leaves.add);
        for case in rival::at_every_index(case) {
            for (name, engine) in self.engines() {
                let row = format!("rival: {name}, all paths {of}");
                self.add(&row, &case, &|case| rival::all_paths(&engine, add, case));
            }
        }
    }
}
