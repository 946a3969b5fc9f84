//! An independent reading of the rules (docs/RULES.md) in plain Rust over flat arrays.
//!
//! It is written from the rules alone, and neither from bio nor from the proved library, so that a mistake would have
//! to be made twice to go unseen. The kernels use other arithmetic than the library's; the walks are the plain loops
//! that the benchmarks count against.

pub mod answer;
pub mod baum_welch;
pub mod kernels;
pub mod leaves;
pub mod likelihood;
pub mod model;
pub mod model_file;
pub mod rival;
pub mod sums;
pub mod viterbi;

pub use answer::Answer;
pub use baum_welch::{baum_welch, Estimates};
pub use likelihood::{backward, forward};
pub use model::{Model, Shape};
pub use model_file::{file_length, read_model, write_model, Reading, Tables};
pub use rival::{rival, Rivalry};
pub use viterbi::viterbi;
