//! What is compared with what, on which cases.

mod likelihoods;
mod model_files;
mod rivals;

use crate::case::{self, Case, Sizes};
use crate::damage::damaged;
use crate::engine::{self, Engine, REFERENCE};
use crate::lent::{lend, Call, CALLS};
use crate::likelihood::Summary;
use crate::random::Random;
use crate::tally::Tally;
use crate::verdict::Verdict;
use crate::{entries, leaves, likeness, shrink};
use oracle::Modes;
use reference::model::MOST_SAMPLES;

/// The bound on forward's distance from bio with Rust's exp.
const FORWARD_BOUND: f64 = 1.0 / 16384.0;

/// How much is compared.
pub struct Amount {
    /// Models on all calls, and further ones on Viterbi alone.
    pub models: usize,
    pub paths: usize,
    /// The most that S·S·T may be in the sweep over sizes, and in one model of sixteen there.
    pub work: usize,
    pub heavy: usize,
    /// The most states in the sweep over every number of samples, for Viterbi and for the sums.
    pub viterbi_states: usize,
    pub sum_states: usize,
    /// Every so many numbers of samples in the sums' sweep.
    pub sum_step: usize,
    /// Samples for all calls on the greatest model.
    pub largest: usize,
    pub damaged: usize,
    pub near: usize,
    pub leaves: usize,
    /// Rounds of words as entries, about 9,500 cases each; ten have every size of a table once.
    pub entries: usize,
    /// Rounds of model files, 27 cases each; one round in sixteen is on a model of any size, and 64 of those have every
    /// number of states.
    pub files: usize,
    /// Models of any size whose rivals are compared, and as many damaged ones; and small ones with all of their paths.
    pub rivals: usize,
    pub few_paths: usize,
    /// Models on which the likelihood is close to the best path's value; eight have every kind once.
    pub close: usize,
}

/// What there is to compare, and what was found.
pub struct Comparison {
    modes: Option<Modes>,
    library: Option<Engine>,
    random: Random,
    tally: Tally,
    gaps: Summary,
}

impl Comparison {
    /// Compares everything, printing what is found on the way and a summary; how many differences are not intended.
    pub fn run(seed: u64, amount: &Amount) -> u64 {
        let mut comparison = Comparison {
            modes: oracle::modes(),
            library: engine::library(),
            random: Random::new(seed),
            tally: Tally::default(),
            gaps: Summary::default(),
        };
        comparison.say_what_is_there();
        comparison.sizes(amount);
        comparison.paths(amount);
        comparison.every_number_of_samples(amount);
        comparison.largest(amount);
        comparison.damaged(amount);
        comparison.near(amount);
        comparison.leaves(amount);
        comparison.entries(amount);
        comparison.model_files(amount);
        comparison.rivals(amount);
        comparison.likelihoods(amount);
        println!();
        comparison.tally.print();
        println!();
        comparison.gaps.print();
        comparison.tally.wrong()
    }

    fn say_what_is_there(&self) {
        match self.modes {
            Some(_) => println!("bio 4.2.2: taken from its published sources"),
            None => {
                println!("bio 4.2.2: not found (BIO_SOURCE names its folder); the independent reference stands alone")
            }
        }
        match self.library {
            Some(_) => println!("proved library: linked"),
            None => println!("proved library: left out of this build; not compared"),
        }
    }

    /// Each of those who take part, with a name.
    fn engines(&self) -> impl Iterator<Item = (&'static str, Engine)> {
        let library = self.library.map(|library| ("library", library));
        std::iter::once(("reference", REFERENCE)).chain(library)
    }

    /// Adds a verdict on a case, and prints the first wrong one of its row, with the smallest case that shows it. Gives
    /// the refusal number that was answered.
    fn add(&mut self, row: &str, case: &Case, check: &dyn Fn(&Case) -> Verdict) -> u8 {
        self.add_found(row, case, check(case), check)
    }

    /// The same of a verdict that this check found already.
    fn add_found(&mut self, row: &str, case: &Case, verdict: Verdict, check: &dyn Fn(&Case) -> Verdict) -> u8 {
        if self.tally.add(row, &verdict) {
            let smallest = shrink::smallest(case, &|smaller| check(smaller).wrong.is_some());
            let shown = check(&smallest).wrong.unwrap_or_default();
            println!("{row}: {shown}\n{smallest:?}");
        }
        verdict.refusal
    }

    fn viterbi(&mut self, case: &Case) {
        if let Some(modes) = self.modes {
            let row = "viterbi: reference, bio as published";
            self.add(row, case, &|case| likeness::viterbi(&modes.published, case));
            if case.shape.ends {
                let row = "viterbi: reference, bio with the end state as a state";
                self.add(row, case, &|case| likeness::viterbi_to_the_end(&modes.published, case));
            }
        }
    }

    fn sums(&mut self, case: &Case) {
        if let Some(Modes { kernels: bio, .. }) = self.modes {
            let row = "forward: reference, bio with our kernels";
            self.add(row, case, &|case| likeness::forward(&bio, case));
            let row = "backward: reference, bio with our kernels";
            self.add(row, case, &|case| likeness::backward(&bio, case));
            let row = "baum_welch: reference, bio with our kernels";
            self.add(row, case, &|case| likeness::pass(&bio, case));
        }
        self.likelihood_of("", case);
    }

    /// Every call on lent memory.
    fn lent(&mut self, case: &Case) {
        CALLS.into_iter().for_each(|call| self.lent_call(call, case));
    }

    /// A call on lent memory: the reference by RULES 3.4, and the library against it.
    fn lent_call(&mut self, call: Call, case: &Case) {
        let pattern = self.random.bits();
        let outputs = |case: &Case| lend(call, case, &mut Random::new(pattern));
        let row = format!("{}: reference, its lent memory", call.name());
        let refusal = self.add(&row, case, &|case| likeness::memory(call, case, None, outputs(case)));
        self.tally.answered(call.name(), refusal);
        if let Some(library) = self.library {
            let row = format!("{}: library, reference", call.name());
            self.add(&row, case, &|case| {
                likeness::library(&library, call, case, outputs(case))
            });
        }
    }

    /// Every number of states and of symbols, and all kinds of entries.
    fn sizes(&mut self, amount: &Amount) {
        for number in 0..amount.models {
            let work = if self.random.once_in(16) {
                amount.heavy
            } else {
                amount.work
            };
            let sizes = Sizes::sweep(number, work, &mut self.random);
            let case = case::any(sizes, &mut self.random);
            self.viterbi(&case);
            self.sums(&case);
            self.lent(&case);
        }
    }

    /// Further models on Viterbi, which is the quickest.
    fn paths(&mut self, amount: &Amount) {
        for number in 0..amount.paths {
            let sizes = Sizes::sweep(number, amount.work, &mut self.random);
            let case = case::any(sizes, &mut self.random);
            self.viterbi(&case);
            if let Some(library) = self.library {
                let row = "viterbi: library, reference";
                let outputs = |case: &Case| lend(Call::Viterbi, case, &mut Random::new(0));
                self.add(row, &case, &|case| {
                    likeness::library(&library, Call::Viterbi, case, outputs(case))
                });
            }
        }
    }

    /// Every number of samples, with few states.
    fn every_number_of_samples(&mut self, amount: &Amount) {
        for samples in 0..=MOST_SAMPLES {
            let states = 1 + self.random.below(amount.viterbi_states);
            let case = self.case_of(states, samples);
            self.viterbi(&case);
            if samples % amount.sum_step == 0 {
                let states = 1 + self.random.below(amount.sum_states);
                let case = self.case_of(states, samples);
                self.sums(&case);
                self.lent(&case);
            }
        }
    }

    fn case_of(&mut self, states: usize, samples: usize) -> Case {
        let symbols = 1 + self.random.below(256);
        let sizes = Sizes {
            states,
            symbols,
            samples,
        };
        case::any(sizes, &mut self.random)
    }

    /// The greatest model: Viterbi on the greatest number of samples, and all calls on as many as there is time for.
    fn largest(&mut self, amount: &Amount) {
        for samples in [MOST_SAMPLES, amount.largest] {
            let sizes = Sizes {
                states: 64,
                symbols: 256,
                samples,
            };
            let case = case::ordinary(sizes, &mut self.random);
            self.viterbi(&case);
            if samples == amount.largest {
                self.sums(&case);
                self.lent(&case);
            }
        }
    }

    /// Damaged models, for every refusal from 1 to 8 in every call on a model and its samples.
    fn damaged(&mut self, amount: &Amount) {
        for number in 0..amount.damaged {
            self.damaged_call(CALLS[number % CALLS.len()], number);
        }
    }

    /// A call on a damaged model of the numberth sizes: the reference by what the damage leads to, the library against
    /// it.
    fn damaged_call(&mut self, call: Call, number: usize) {
        let sizes = Sizes {
            samples: self.random.below(33),
            ..Sizes::sweep(number, 0, &mut self.random)
        };
        let mut case = case::any(sizes, &mut self.random);
        if call.takes_index() {
            case.index = self.random.below(sizes.samples.max(1));
        }
        let Some(damaged) = damaged(call, &case, &mut self.random) else {
            return;
        };
        let mut outputs = lend(call, &case, &mut self.random);
        damaged.cut(&mut outputs);
        let verdict = likeness::memory(call, &damaged.case, Some(damaged.named), outputs.clone());
        self.tally.answered(call.name(), verdict.refusal);
        let row = format!("{}: reference, refused for its damage", call.name());
        self.plain(&row, &verdict, || format!("{:?}", damaged.case));
        if let Some(library) = self.library {
            let verdict = likeness::library(&library, call, &damaged.case, outputs);
            let row = format!("{}: library, reference, damaged", call.name());
            self.plain(&row, &verdict, || format!("{:?}", damaged.case));
        }
    }

    /// Adds a verdict, and prints the first wrong one of its row.
    fn plain(&mut self, row: &str, verdict: &Verdict, shown: impl Fn() -> String) {
        if self.tally.add(row, verdict) {
            println!("{row}: {}\n{}", verdict.wrong.as_deref().unwrap_or_default(), shown());
        }
    }

    /// Forward against bio with Rust's exp, at most 16 states and 256 samples, entries from -50 to 0; and its distance
    /// from bio as published, which has no bound.
    fn near(&mut self, amount: &Amount) {
        let Some(modes) = self.modes else {
            return;
        };
        let (mut worst, mut worst_published): (f64, f64) = (0.0, 0.0);
        for _ in 0..amount.near {
            let sizes = Sizes {
                states: 1 + self.random.below(16),
                symbols: 1 + self.random.below(256),
                samples: 1 + self.random.below(256),
            };
            let case = case::ordinary(sizes, &mut self.random);
            let distance = likeness::forward_distance(&modes.library, &case);
            worst = worst.max(distance);
            worst_published = worst_published.max(likeness::forward_distance(&modes.published, &case));
            let row = "forward within 2^-14: reference, bio with library exp";
            self.plain(row, &within(distance, FORWARD_BOUND), || format!("{case:?}"));
        }
        println!(
            "forward against bio with library exp: at most 2^{:.1} apart",
            worst.log2()
        );
        println!(
            "forward against bio as published: at most 2^{:.1} apart",
            worst_published.log2()
        );
    }

    fn leaves(&mut self, amount: &Amount) {
        for _ in 0..amount.leaves {
            if let Some(modes) = self.modes {
                for (name, verdict) in leaves::against_bio(&modes, &mut self.random) {
                    self.plain(&format!("{name}: reference, bio"), &verdict, String::new);
                }
            }
            if let Some(library) = self.library {
                for (name, verdict) in leaves::library(&library.leaves, &mut self.random) {
                    self.plain(&format!("{name}: library, reference"), &verdict, String::new);
                }
            }
        }
    }

    /// Words as entries of good models.
    fn entries(&mut self, amount: &Amount) {
        for number in 0..amount.entries {
            let cases = entries::round(number, &mut self.random);
            cases.for_each(|case| self.entries_of(&case));
        }
    }

    /// The reference and the library, each by the rule on words, and the one against the other.
    fn entries_of(&mut self, case: &Case) {
        let pattern = self.random.bits();
        let outputs = |case: &Case| lend(Call::Viterbi, case, &mut Random::new(pattern));
        let row = "entries by their bits: reference, rule on words";
        let refusal = self.add(row, case, &|case| entries::by_the_rule(&REFERENCE, case, outputs(case)));
        self.tally.answered("entries", refusal);
        if let Some(library) = self.library {
            let row = "entries by their bits: library, rule on words";
            self.add(row, case, &|case| entries::by_the_rule(&library, case, outputs(case)));
            let row = "entries by their bits: library, reference";
            self.add(row, case, &|case| {
                likeness::library(&library, Call::Viterbi, case, outputs(case))
            });
        }
    }
}

/// Whether a distance is within its bound.
fn within(distance: f64, bound: f64) -> Verdict {
    let outside = distance.is_nan() || distance > bound;
    Verdict {
        numbers: 1,
        wrong: outside.then(|| format!("apart by {distance:e}")),
        ..Verdict::default()
    }
}
