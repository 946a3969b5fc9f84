//! bio 4.2.2 as the oracle: its hidden Markov models and log-probabilities, called over flat arrays.
//!
//! There are three modes: as published; with Rust's exp in the place of `fastexp`; and with the kernels of RULES 4
//! in the place of exp and ln. bio's text is taken at build time (build.rs); where it is not at hand, there is no mode.

#[cfg(bio)]
#[macro_use]
extern crate approx;
#[cfg(bio)]
#[macro_use]
extern crate custom_derive;
#[cfg(bio)]
#[macro_use]
extern crate serde_derive;

#[cfg(bio)]
mod adapter;
#[cfg(bio)]
mod put_in;

use reference::Model;
use std::cell::Cell;
use std::panic::{catch_unwind, set_hook, take_hook, AssertUnwindSafe};
use std::sync::Once;

/// bio with one choice of exp and ln.
#[derive(Clone, Copy)]
pub struct Bio {
    /// bio's model with an optional end state, none where bio finds the dimensions inconsistent.
    pub model: fn(&Model) -> Option<Box<dyn Walks>>,
    /// bio's model that knows no end state, which leaves the end table out.
    pub model_without_end: fn(&Model) -> Option<Box<dyn Walks>>,
    pub leaves: Leaves,
}

/// bio's walks on one model. Each panics where bio does.
pub trait Walks {
    /// The path and its value.
    fn viterbi(&self, samples: &[usize]) -> (Vec<u8>, f64);
    /// The values and the predecessors, by rows.
    fn viterbi_tables(&self, samples: &[usize]) -> (Vec<f64>, Vec<u8>);
    /// The table by rows and the likelihood.
    fn forward(&self, samples: &[usize]) -> (Vec<f64>, f64);
    /// The table by rows, the last sample's first, and the likelihood.
    fn backward(&self, samples: &[usize]) -> (Vec<f64>, f64);
    fn baum_welch(&self, samples: &[usize]) -> Trained;
}

/// What one pass of bio's Baum-Welch gives. The emission table has a column for each symbol that occurs, in order.
pub struct Trained {
    pub transition: Vec<f64>,
    pub emission: Vec<f64>,
    pub initial: Vec<f64>,
    pub end: Vec<f64>,
}

/// bio's leaves over plain numbers.
#[derive(Clone, Copy)]
pub struct Leaves {
    pub fastexp: fn(f64) -> f64,
    pub add: fn(f64, f64) -> f64,
    pub is_valid: fn(f64) -> bool,
    pub checked: fn(f64) -> Option<f64>,
    pub cap_numerical_overshoot: fn(f64, f64) -> f64,
    pub ln_one_minus_exp: fn(f64) -> f64,
    pub ln_sum_exp: fn(&[f64]) -> f64,
    pub ln_add_exp: fn(f64, f64) -> f64,
    pub ln_sub_exp: fn(f64, f64) -> f64,
    pub ln_cumsum_exp: fn(&[f64]) -> Vec<f64>,
    pub log_of_prob: fn(f64) -> f64,
    pub prob_of_log: fn(f64) -> f64,
    pub phred_of_log: fn(f64) -> f64,
    pub log_of_phred: fn(f64) -> f64,
}

/// The three modes, where bio's text was at hand.
#[derive(Clone, Copy)]
pub struct Modes {
    pub published: Bio,
    pub library: Bio,
    pub kernels: Bio,
}

/// The three modes; none where bio's text was not found when this was built.
#[cfg(bio)]
pub fn modes() -> Option<Modes> {
    Some(Modes {
        published: adapter::published::bio(),
        library: adapter::library::bio(),
        kernels: adapter::kernels::bio(),
    })
}

/// The three modes; none where bio's text was not found when this was built.
#[cfg(not(bio))]
pub fn modes() -> Option<Modes> {
    None
}

thread_local! {
    /// Whether a panic is being waited for.
    static WAITING: Cell<bool> = const { Cell::new(false) };
}

/// What f gives, or none where it panics. Such a panic is not printed.
pub fn caught<T>(f: impl FnOnce() -> T) -> Option<T> {
    static QUIET: Once = Once::new();
    QUIET.call_once(|| {
        let loud = take_hook();
        set_hook(Box::new(move |panic| {
            if !WAITING.get() {
                loud(panic);
            }
        }));
    });
    WAITING.set(true);
    let given = catch_unwind(AssertUnwindSafe(f));
    WAITING.set(false);
    given.ok()
}
