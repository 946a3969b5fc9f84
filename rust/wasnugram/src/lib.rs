//! A safe face of the proved library: slices in, a value or a refusal out. It needs neither std nor a heap; the feature
//! `alloc` adds `OwnedModel` and `model_file`, for a host that has one.
//!
//! Every call answers for all inputs (docs/RULES.md, section 3). A refusal names its cause, the table and the place in
//! it, and leaves all memory alone; only a training pass that meets zero mass clears its scratch. Every length counts
//! entries, never bytes. Outputs may be longer than needed, and their surplus never changes; [`Shape`] works the needed
//! lengths out.
//!
//! **Done is not yet an explanation.** Where no path can explain the samples, a walk is done with minus infinity, and the
//! path it wrote means nothing: ask [`Decoded::is_possible`] before anything follows from a path, and [`is_possible`] of
//! the value of [`forward`] or [`backward`].
//!
//! ```
//! use wasnugram::{viterbi, Model, Shape};
//!
//! const SHAPE: Shape = Shape { states: 2, symbols: 2, ends: false };
//! const LONGEST: usize = 3;
//!
//! let model = Model {
//!     shape: SHAPE,
//!     transition: &[-1.0, -2.0, -2.0, -1.0],
//!     emission: &[-1.0, -3.0, -3.0, -1.0],
//!     initial: &[-1.0, -2.0],
//!     end: &[0.0, 0.0],
//! };
//! let mut path = [0; LONGEST];
//! let mut values = [0.0; SHAPE.cells(LONGEST)];
//! let mut from = [0; SHAPE.cells(LONGEST)];
//! match viterbi(&model, &[0, 1, 1], &mut path, &mut values, &mut from) {
//!     Ok(decoded) if decoded.is_possible() => assert_eq!((decoded.path, decoded.value), (&[0, 1, 1][..], -7.0)),
//!     Ok(_) => panic!("no path explains the samples"),
//!     Err(refused) => panic!("{refused}"),
//! }
//! ```
//!
//! [`rival`] says why the path has the state that it has at a sample: which path with another state there is the best, and
//! how far it is behind.
//!
//! A model is stored as a file in which no single flipped bit passes: [`write_model`] writes it, [`read_model`] reads it
//! into lent tables. Of damage to the tables after that, a call refuses an entry that is NaN or above zero, no other.
//!
//! The wrapper and the archive that it links are of one version. Both are for x86-64 with SSE2 and System V's calls, and
//! for the floating-point environment that a process starts with: rounding to nearest, subnormal numbers kept.

#![no_std]
#![deny(missing_docs)]

#[cfg(feature = "alloc")]
extern crate alloc;

mod interface;
mod leaves;
mod model;
mod model_file;
#[cfg(feature = "alloc")]
mod owned;
pub mod raw;
mod refusal;
mod rival;
mod walks;

pub use leaves::{
    cap_numerical_overshoot, exp, ln, ln_add_exp, ln_cumsum_exp, ln_one_minus_exp, ln_sub_exp, ln_sum_exp,
};
pub use model::{Estimates, Model, Shape, Tables, MOST_SAMPLES, MOST_STATES, MOST_SYMBOLS};
pub use model_file::{read_model, write_model};
#[cfg(feature = "alloc")]
pub use owned::{model_file, OwnedModel};
pub use refusal::{Refusal, Refused, Table};
pub use rival::{margins, rival, Rival};
pub use walks::{backward, baum_welch, forward, is_possible, viterbi, Decoded};
