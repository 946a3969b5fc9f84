//! The kernels and the sum, on many arguments in a run.

use crate::contest::{Contestant, Contestants};
use compare::engine::{self, REFERENCE};
use compare::random::Random;
use std::hint::black_box;

const ARGUMENTS: usize = 4096;
const LENGTH: usize = 12;

pub fn contest() {
    let mut random = Random::new(3);
    let below: Vec<f64> = (0..ARGUMENTS).map(|_| -42.0 * random.unit()).collect();
    let above: Vec<f64> = below.iter().map(|d| d.exp()).collect();
    let bio = oracle::modes().map(|modes| modes.published.leaves);
    let (ours, library) = (REFERENCE.leaves, engine::library().map(|library| library.leaves));

    let written = Contestants {
        plain: on_each(&below, reference::kernels::exp_as_written),
        bio: bio.map(|bio| on_each(&below, bio.fastexp)),
        library: library.map(|library| on_each(&below, move |d| (library.exp)(d).value)),
    };
    written.print("exp, plain loop as written", ARGUMENTS);
    let exp = Contestants {
        plain: on_each(&below, move |d| (ours.exp)(d).value),
        bio: bio.map(|bio| on_each(&below, bio.fastexp)),
        library: library.map(|library| on_each(&below, move |d| (library.exp)(d).value)),
    };
    exp.print("exp, plain shaped for speed", ARGUMENTS);
    let ln = Contestants {
        plain: on_each(&above, move |x| (ours.ln)(x).value),
        bio: bio.map(|bio| on_each(&above, bio.log_of_prob)),
        library: library.map(|library| on_each(&above, move |x| (library.ln)(x).value)),
    };
    ln.print("ln (bio: the library's)", ARGUMENTS);
    let sum = Contestants {
        plain: on_rows(&below, move |xs| (ours.ln_sum_exp)(xs).value),
        bio: bio.map(|bio| on_rows(&below, bio.ln_sum_exp)),
        library: library.map(|library| on_rows(&below, move |xs| (library.ln_sum_exp)(xs).value)),
    };
    sum.print("ln_sum_exp of 12", ARGUMENTS / LENGTH);
}

fn on_each<'a>(arguments: &'a [f64], leaf: impl Fn(f64) -> f64 + 'a) -> Contestant<'a> {
    Box::new(move || {
        for argument in arguments {
            black_box(leaf(black_box(*argument)));
        }
    })
}

fn on_rows<'a>(arguments: &'a [f64], leaf: impl Fn(&[f64]) -> f64 + 'a) -> Contestant<'a> {
    Box::new(move || {
        for row in arguments.chunks_exact(LENGTH) {
            black_box(leaf(black_box(row)));
        }
    })
}
