//! `kernel-distances`: how far exp and ln are from Rust's library on dense grids, the worst place of each, and whether
//! the bounds of RULES 8.2 hold: exp relative at most 2^-23 for arguments down to -42, ln absolute at most 2^-27. They are
//! the proved library's, or the reference's where this is built without it.

use compare::engine::{self, Leaves, REFERENCE};
use std::f64::consts::LN_2;
use std::process::ExitCode;

const EXP_BOUND: f64 = 1.0 / (1_u64 << 23) as f64;
const LN_BOUND: f64 = 1.0 / (1_u64 << 27) as f64;

const TWO_TO_30: f64 = (1_u64 << 30) as f64;

/// Steps of the grids.
const EXP_STEPS: u32 = 20_000_000;
const LN_STEPS: u64 = 1 << 20;

/// The worst distance so far and where it is.
#[derive(Clone, Copy)]
struct Worst {
    distance: f64,
    at: f64,
    points: u64,
}

impl Worst {
    const NONE: Worst = Worst {
        distance: 0.0,
        at: 0.0,
        points: 0,
    };

    fn see(&mut self, distance: f64, at: f64) {
        self.points += 1;
        // A NaN must not pass unseen.
        if distance > self.distance || distance.is_nan() {
            (self.distance, self.at) = (distance, at);
        }
    }

    /// Prints the figure; whether it is within the bound.
    fn report(&self, what: &str, bound: f64) -> bool {
        let within = self.distance <= bound;
        println!(
            "{what}: at most 2^{:.2} at {:e}, over {} points; bound 2^{}: {}",
            self.distance.log2(),
            self.at,
            self.points,
            bound.log2(),
            if within { "holds" } else { "BROKEN" }
        );
        within
    }
}

fn main() -> ExitCode {
    let (name, engine) = match engine::library() {
        Some(library) => ("the proved library", library),
        None => ("the reference", REFERENCE),
    };
    println!("kernels of {name}");
    let exp_within = exp_distance(&engine.leaves).report("exp, relative, from -42 to 0", EXP_BOUND);
    let ln_within = ln_distance(&engine.leaves).report("ln, absolute, over all exponents", LN_BOUND);
    match exp_within && ln_within {
        true => ExitCode::SUCCESS,
        false => ExitCode::FAILURE,
    }
}

/// Even steps from 0 to -42, all powers of two below 1, and arguments just above a whole power of two, where exp
/// multiplies by most of its constants.
fn exp_distance(kernels: &Leaves) -> Worst {
    let mut worst = Worst::NONE;
    let even = (0..=EXP_STEPS).map(|step| -42.0 * f64::from(step) / f64::from(EXP_STEPS));
    let powers = (1..=1074).map(|place| -(2.0_f64).powi(-place));
    let many_products = (1..=60).flat_map(|whole| {
        let steps = (0..EXP_STEPS / 200).map(f64::from);
        steps.map(move |step| -LN_2 * (f64::from(whole) - (step + 0.001) / TWO_TO_30))
    });
    for d in even.chain(powers).chain(many_products) {
        let ours = (kernels.exp)(d).value;
        worst.see(((ours - d.exp()) / d.exp()).abs(), d);
    }
    worst
}

/// Even steps over the mantissa for exponents near 0, fewer for each exponent there is, subnormals included. Of the 21
/// places that ln cuts off, every step has none, half of them, and all of them set.
fn ln_distance(kernels: &Leaves) -> Worst {
    let mut worst = Worst::NONE;
    for field in 0..2047_u64 {
        let near = (1015..=1031).contains(&field);
        let steps = if near { LN_STEPS } else { LN_STEPS >> 10 };
        for step in 0..steps {
            let fraction = step * ((1 << 52) / steps);
            for cut_off in [0, 0xf_ffff, 0x1f_ffff] {
                let x = f64::from_bits(field << 52 | fraction | cut_off);
                if x > 0.0 {
                    worst.see(((kernels.ln)(x).value - x.ln()).abs(), x);
                }
            }
        }
    }
    worst
}
