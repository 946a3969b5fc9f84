//! One training pass, as RULES 7 has it.

use crate::answer::{Answer, ZERO_MASS};
use crate::kernels::exp;
use crate::likelihood::{backward_unchecked, forward_unchecked};
use crate::model::{check, Empty, Model, Output};
use crate::sums::{ln_add_exp, ln_sub_exp, ln_sum_exp};

/// The lent outputs of a pass: the four new tables, then two scratch tables of T·S.
pub struct Estimates<'a> {
    pub new_transition: &'a mut [f64],
    pub new_emission: &'a mut [f64],
    pub new_initial: &'a mut [f64],
    pub new_end: &'a mut [f64],
    pub alpha: &'a mut [f64],
    pub beta: &'a mut [f64],
}

/// What a state's rows are divided by.
#[derive(Clone, Copy)]
struct Mass {
    gamma: f64,
    denominator: f64,
}

/// The forward and backward tables of one pass, both by rows; beta's row i is at sample T-1-i.
struct Pass<'a> {
    model: &'a Model<'a>,
    samples: &'a [u16],
    alpha: &'a [f64],
    beta: &'a [f64],
    probx: f64,
}

/// Writes the new tables; the value is `probx`. After done and after 9 the needed scratch is +0.0.
pub fn baum_welch(model: &Model, samples: &[u16], new: &mut Estimates) -> Answer {
    let states = model.shape.states;
    let outputs = || {
        let needed = [
            states * states,
            states * model.shape.symbols,
            states,
            states,
            model.shape.cells(samples.len()),
            model.shape.cells(samples.len()),
        ];
        let lengths = [
            new.new_transition.len(),
            new.new_emission.len(),
            new.new_initial.len(),
            new.new_end.len(),
            new.alpha.len(),
            new.beta.len(),
        ];
        std::array::from_fn(|i| Output {
            length: lengths[i],
            needed: needed[i],
        })
    };
    if let Some(refusal) = check::<6>(model, samples, Empty::Refused, outputs) {
        return refusal;
    }
    baum_welch_unchecked(model, samples, new)
}

/// The pass alone, for a model that the checks let pass and outputs that are long enough.
pub fn baum_welch_unchecked(model: &Model, samples: &[u16], new: &mut Estimates) -> Answer {
    let cells = model.shape.cells(samples.len());
    forward_unchecked(exp, model, samples, &mut new.alpha[..cells]);
    backward_unchecked(exp, model, samples, &mut new.beta[..cells]);
    let mut pass = Pass {
        model,
        samples,
        alpha: &new.alpha[..cells],
        beta: &new.beta[..cells],
        probx: 0.0,
    };
    pass.probx = pass.likelihood();
    let answer = match pass.masses() {
        Err(place) => Answer::refused(ZERO_MASS, 0, place),
        Ok(masses) => {
            pass.write_transition(&masses, new.new_transition);
            pass.write_emission(&masses, new.new_emission);
            pass.write_initial(new.new_initial);
            pass.write_end(&masses, new.new_end);
            Answer::done(pass.probx)
        }
    };
    new.alpha[..cells].fill(0.0);
    new.beta[..cells].fill(0.0);
    answer
}

/// A result above 0 is stored as 0.0.
fn at_most_zero(x: f64) -> f64 {
    if x > 0.0 {
        0.0
    } else {
        x
    }
}

impl Pass<'_> {
    fn states(&self) -> usize {
        self.model.shape.states
    }

    fn alpha(&self, t: usize, j: usize) -> f64 {
        self.alpha[t * self.states() + j]
    }

    fn beta(&self, t: usize, j: usize) -> f64 {
        self.beta[(self.samples.len() - 1 - t) * self.states() + j]
    }

    /// `ln_sum_exp` of alpha + beta at the last sample.
    fn likelihood(&self) -> f64 {
        let last = self.samples.len() - 1;
        let terms: Vec<f64> = (0..self.states())
            .map(|j| self.alpha(last, j) + self.beta(last, j))
            .collect();
        ln_sum_exp(&terms)
    }

    /// The log-probability of being in state j at sample t, given all samples.
    fn occupancy(&self, t: usize, j: usize) -> f64 {
        (self.alpha(t, j) + self.beta(t, j)) - self.probx
    }

    /// The log-probability of going from state j at sample t-1 to state k at sample t, given all samples.
    fn arc(&self, t: usize, j: usize, k: usize) -> f64 {
        let emission = self.model.emission(k, self.samples[t]);
        (((self.alpha(t - 1, j) + self.model.transition(j, k)) + self.beta(t, k)) + emission) - self.probx
    }

    /// Every state's masses, or the place of the first zero mass: S for the whole, else the state.
    fn masses(&self) -> Result<Vec<Mass>, usize> {
        if self.probx == f64::NEG_INFINITY {
            return Err(self.states());
        }
        (0..self.states()).map(|j| self.mass(j).ok_or(j)).collect()
    }

    fn mass(&self, j: usize) -> Option<Mass> {
        let times = self.samples.len();
        let occupancies: Vec<f64> = (0..times).map(|t| self.occupancy(t, j)).collect();
        let gamma = ln_sum_exp(&occupancies);
        if gamma == f64::NEG_INFINITY {
            return None;
        }
        let denominator = if self.model.shape.ends {
            gamma
        } else {
            ln_sub_exp(gamma, occupancies[times - 1])
        };
        (denominator != f64::NEG_INFINITY).then_some(Mass { gamma, denominator })
    }

    fn write_transition(&self, masses: &[Mass], transition: &mut [f64]) {
        let states = self.states();
        let mut arcs = Vec::with_capacity(self.samples.len());
        for (j, mass) in masses.iter().enumerate() {
            for k in 0..states {
                arcs.clear();
                arcs.extend((1..self.samples.len()).map(|t| self.arc(t, j, k)));
                transition[j * states + k] = at_most_zero(ln_sum_exp(&arcs) - mass.denominator);
            }
        }
    }

    fn write_emission(&self, masses: &[Mass], emission: &mut [f64]) {
        let rows = emission.chunks_exact_mut(self.model.shape.symbols);
        for (j, (mass, row)) in masses.iter().zip(rows).enumerate() {
            row.fill(f64::NEG_INFINITY);
            for (t, sample) in self.samples.iter().enumerate() {
                let cell = &mut row[usize::from(*sample)];
                *cell = ln_add_exp(*cell, self.occupancy(t, j));
            }
            for cell in row {
                *cell = at_most_zero(*cell - mass.gamma);
            }
        }
    }

    fn write_initial(&self, initial: &mut [f64]) {
        for (j, cell) in initial[..self.states()].iter_mut().enumerate() {
            *cell = at_most_zero(self.occupancy(0, j));
        }
    }

    fn write_end(&self, masses: &[Mass], end: &mut [f64]) {
        let last = self.samples.len() - 1;
        for (j, (mass, cell)) in masses.iter().zip(end).enumerate() {
            *cell = if self.model.shape.ends {
                at_most_zero(self.occupancy(last, j) - mass.gamma)
            } else {
                0.0
            };
        }
    }
}
