//! Calls bio over flat arrays, once for each mode: bio's types differ between the modes, and the text here does not.

macro_rules! mode {
    ($mode:ident, $file:literal) => {
        pub mod $mode {
            #[allow(warnings, clippy::all)]
            mod text {
                include!(concat!(env!("OUT_DIR"), $file));
            }

            use crate::{Bio, Leaves, Trained, Walks};
            use ndarray::prelude::{Array1, Array2};
            use reference::Model;
            use std::cell::RefCell;
            use text::exponential::FastExp;
            use text::hmm::{self, discrete_emission, discrete_emission_opt_end};
            use text::{LogProb, PHREDProb, Prob};

            pub fn bio() -> Bio {
                Bio {
                    model,
                    model_without_end,
                    leaves: LEAVES,
                }
            }

            fn model(model: &Model) -> Option<Box<dyn Walks>> {
                let built = discrete_emission_opt_end::Model::new(
                    RefCell::new(table(model.transition, model.shape.states)),
                    RefCell::new(table(model.emission, model.shape.symbols)),
                    RefCell::new(row(model.initial)),
                    RefCell::new(row(model.end)),
                    model.shape.ends,
                );
                built.ok().map(|built| Box::new(Walked(built)) as Box<dyn Walks>)
            }

            fn model_without_end(model: &Model) -> Option<Box<dyn Walks>> {
                let built = discrete_emission::Model::new(
                    table(model.transition, model.shape.states),
                    table(model.emission, model.shape.symbols),
                    row(model.initial),
                );
                built.ok().map(|built| Box::new(Walked(built)) as Box<dyn Walks>)
            }

            /// Either of bio's two discrete models.
            struct Walked<M>(M);

            fn row(entries: &[f64]) -> Array1<LogProb> {
                entries.iter().map(|x| LogProb(*x)).collect()
            }

            fn table(entries: &[f64], columns: usize) -> Array2<LogProb> {
                Array2::from_rows(entries.len() / columns, columns, logs(entries))
            }

            fn logs(entries: &[f64]) -> Vec<LogProb> {
                entries.iter().map(|x| LogProb(*x)).collect()
            }

            fn numbers(table: Array2<LogProb>) -> Vec<f64> {
                table.into_entries().into_iter().map(|x| *x).collect()
            }

            impl<M: hmm::Model<usize>> Walks for Walked<M> {
                fn viterbi(&self, samples: &[usize]) -> (Vec<u8>, f64) {
                    let (path, value) = hmm::viterbi(&self.0, samples);
                    (path.iter().map(|state| **state as u8).collect(), *value)
                }

                fn viterbi_tables(&self, samples: &[usize]) -> (Vec<f64>, Vec<u8>) {
                    let (values, from) = hmm::viterbi_matrices(&self.0, samples);
                    let from = from.into_entries();
                    (numbers(values), from.iter().map(|state| *state as u8).collect())
                }

                fn forward(&self, samples: &[usize]) -> (Vec<f64>, f64) {
                    let (values, value) = hmm::forward(&self.0, samples);
                    (numbers(values), *value)
                }

                fn backward(&self, samples: &[usize]) -> (Vec<f64>, f64) {
                    let (values, value) = hmm::backward(&self.0, samples);
                    (numbers(values), *value)
                }

                fn baum_welch(&self, samples: &[usize]) -> Trained {
                    let (initial, transition, emission, end) = hmm::baum_welch(&self.0, samples);
                    Trained {
                        transition: numbers(transition),
                        emission: numbers(emission),
                        initial: initial.iter().map(|x| **x).collect(),
                        end: end.iter().map(|x| **x).collect(),
                    }
                }
            }

            const LEAVES: Leaves = Leaves {
                fastexp: |x| x.fastexp(),
                add: |a, b| *(LogProb(a) + LogProb(b)),
                is_valid: |p| LogProb(p).is_valid(),
                checked: |p| Prob::checked(p).ok().map(|p| *p),
                cap_numerical_overshoot: |p, epsilon| *LogProb(p).cap_numerical_overshoot(epsilon),
                ln_one_minus_exp: |p| *LogProb(p).ln_one_minus_exp(),
                ln_sum_exp: |xs| *LogProb::ln_sum_exp(&logs(xs)),
                ln_add_exp: |a, b| *LogProb(a).ln_add_exp(LogProb(b)),
                ln_sub_exp: |a, b| *LogProb(a).ln_sub_exp(LogProb(b)),
                ln_cumsum_exp: |xs| LogProb::ln_cumsum_exp(logs(xs)).map(|p| *p).collect(),
                log_of_prob: |p| *LogProb::from(Prob(p)),
                prob_of_log: |p| *Prob::from(LogProb(p)),
                phred_of_log: |p| *PHREDProb::from(LogProb(p)),
                log_of_phred: |p| *LogProb::from(PHREDProb(p)),
            };
        }
    };
}

mode!(published, "/published.rs");
mode!(library, "/library.rs");
mode!(kernels, "/kernels.rs");
