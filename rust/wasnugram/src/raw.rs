//! The calls over slices with the [`Answer`] as the library gives it: the numbers of the rules, and minus infinity on a
//! refusal. They are for comparisons to the last bit; the calls at the crate's root are for everyone else.
//!
//! ```
//! use wasnugram::{raw, Model, Shape};
//!
//! let model = Model {
//!     shape: Shape { states: 2, symbols: 2, ends: false },
//!     transition: &[-1.0, -2.0, -2.0, -1.0],
//!     emission: &[-1.0, -3.0, -3.0, -1.0],
//!     initial: &[-1.0, -2.0],
//!     end: &[0.0, 0.0],
//! };
//! let (mut path, mut values, mut from) = ([0; 3], [0.0; 6], [0; 6]);
//! let done = raw::viterbi(&model, &[0, 1, 1], &mut path, &mut values, &mut from);
//! assert_eq!((done.refusal, done.table, done.place, done.value), (0, 0, 0, -7.0));
//! let mut rival_path = [0; 3];
//! let rivalry = raw::rival(&model, &[0, 1, 1], 1, &mut path, &mut rival_path, &mut values, &mut from);
//! assert_eq!((rivalry.answer.refusal, rivalry.answer.value, rivalry.chosen, rivalry.best), (0, -9.0, 1, -7.0));
//! let refused = raw::forward(&model, &[], &mut values);
//! assert_eq!((refused.refusal, refused.table, refused.place, refused.value), (4, 4, 0, f64::NEG_INFINITY));
//!
//! let mut file = [0; 136];
//! let written = raw::write_model(&model, &mut file);
//! assert_eq!((written.refusal, written.table, written.place, written.value), (0, 0, 0, 0.0));
//! let mut tables = wasnugram::Tables {
//!     transition: &mut [0.0; 4],
//!     emission: &mut [0.0; 4],
//!     initial: &mut [0.0; 2],
//!     end: &mut [0.0; 2],
//! };
//! let reading = raw::read_model(&file, &mut tables);
//! assert_eq!((reading.answer.refusal, reading.answer.value, reading.shape), (0, 0.0, model.shape));
//! assert_eq!(tables.emission, model.emission);
//! ```

use crate::interface as c;
use crate::{Estimates, Model, Shape, Tables};

pub use c::{Answer, Rivalry};

/// What [`read_model`] gives.
#[derive(Clone, Copy, Debug)]
pub struct Reading {
    /// The answer. Its value is +0.0 where the file was read.
    pub answer: Answer,
    /// The file's shape; on a refusal 0 states, 0 symbols and no end state.
    pub shape: Shape,
}

impl From<Shape> for c::Shape {
    fn from(shape: Shape) -> Self {
        c::Shape {
            states: shape.states,
            symbols: shape.symbols,
            ends: u8::from(shape.ends),
        }
    }
}

impl From<c::Shape> for Shape {
    fn from(shape: c::Shape) -> Self {
        Shape {
            states: shape.states,
            symbols: shape.symbols,
            ends: shape.ends != 0,
        }
    }
}

/// Calls a function of the library with the model, the samples and the index, if it takes them, then each output as a
/// pointer and a length.
/// Safe: every pointer comes from a slice with its length, and Rust's borrows keep the written ones apart from all
/// others for the time of the call.
macro_rules! call {
    ($function:ident, $model:expr $(, $samples:expr $(, $index:expr)?)?; $($output:expr),*) => {{
        let model = $model;
        unsafe {
            c::$function(
                model.shape.into(),
                model.transition.as_ptr(),
                model.transition.len(),
                model.emission.as_ptr(),
                model.emission.len(),
                model.initial.as_ptr(),
                model.initial.len(),
                model.end.as_ptr(),
                model.end.len(),
                $($samples.as_ptr(), $samples.len(), $($index,)?)?
                $($output.as_mut_ptr(), $output.len()),*
            )
        }
    }};
}

/// As [`viterbi`](crate::viterbi) of this crate.
pub fn viterbi(model: &Model, samples: &[u16], path: &mut [u8], values: &mut [f64], from: &mut [u8]) -> Answer {
    call!(wasnugram_viterbi, model, samples; path, values, from)
}

/// As [`rival`](crate::rival) of this crate.
pub fn rival(
    model: &Model,
    samples: &[u16],
    index: usize,
    path: &mut [u8],
    rival_path: &mut [u8],
    values: &mut [f64],
    from: &mut [u8],
) -> Rivalry {
    call!(wasnugram_rival, model, samples, index; path, rival_path, values, from)
}

/// As [`forward`](crate::forward) of this crate.
pub fn forward(model: &Model, samples: &[u16], values: &mut [f64]) -> Answer {
    call!(wasnugram_forward, model, samples; values)
}

/// As [`backward`](crate::backward) of this crate.
pub fn backward(model: &Model, samples: &[u16], values: &mut [f64]) -> Answer {
    call!(wasnugram_backward, model, samples; values)
}

/// As [`baum_welch`](crate::baum_welch) of this crate.
pub fn baum_welch(model: &Model, samples: &[u16], new: &mut Estimates) -> Answer {
    call!(
        wasnugram_baum_welch,
        model,
        samples;
        new.new_transition,
        new.new_emission,
        new.new_initial,
        new.new_end,
        new.alpha,
        new.beta
    )
}

/// As [`read_model`](crate::read_model) of this crate. Safe as the calls on a model are: every pointer comes from a slice
/// with its length, and Rust's borrows keep the written ones apart from all others.
pub fn read_model(file: &[u8], tables: &mut Tables) -> Reading {
    let reading = unsafe {
        c::wasnugram_read_model(
            file.as_ptr(),
            file.len(),
            tables.transition.as_mut_ptr(),
            tables.transition.len(),
            tables.emission.as_mut_ptr(),
            tables.emission.len(),
            tables.initial.as_mut_ptr(),
            tables.initial.len(),
            tables.end.as_mut_ptr(),
            tables.end.len(),
        )
    };
    Reading {
        answer: reading.answer,
        shape: reading.shape.into(),
    }
}

/// As [`write_model`](crate::write_model) of this crate.
pub fn write_model(model: &Model, file: &mut [u8]) -> Answer {
    call!(wasnugram_write_model, model; file)
}

/// As [`Shape::file_length`].
pub(crate) fn file_length(shape: Shape) -> usize {
    unsafe { c::wasnugram_model_file_length(shape.into()) }
}

/// As [`exp`](crate::exp) of this crate.
pub fn exp(d: f64) -> Answer {
    unsafe { c::wasnugram_exp(d) }
}

/// As [`ln`](crate::ln) of this crate.
pub fn ln(x: f64) -> Answer {
    unsafe { c::wasnugram_ln(x) }
}

/// As [`ln_one_minus_exp`](crate::ln_one_minus_exp) of this crate.
pub fn ln_one_minus_exp(p: f64) -> Answer {
    unsafe { c::wasnugram_ln_one_minus_exp(p) }
}

/// As [`ln_sum_exp`](crate::ln_sum_exp) of this crate.
pub fn ln_sum_exp(probs: &[f64]) -> Answer {
    unsafe { c::wasnugram_ln_sum_exp(probs.as_ptr(), probs.len()) }
}

/// As [`ln_add_exp`](crate::ln_add_exp) of this crate.
pub fn ln_add_exp(p0: f64, p1: f64) -> Answer {
    unsafe { c::wasnugram_ln_add_exp(p0, p1) }
}

/// As [`ln_sub_exp`](crate::ln_sub_exp) of this crate.
pub fn ln_sub_exp(p0: f64, p1: f64) -> Answer {
    unsafe { c::wasnugram_ln_sub_exp(p0, p1) }
}

/// As [`ln_cumsum_exp`](crate::ln_cumsum_exp) of this crate.
pub fn ln_cumsum_exp(probs: &[f64], sums: &mut [f64]) -> Answer {
    unsafe { c::wasnugram_ln_cumsum_exp(probs.as_ptr(), probs.len(), sums.as_mut_ptr(), sums.len()) }
}

/// As [`cap_numerical_overshoot`](crate::cap_numerical_overshoot) of this crate.
pub fn cap_numerical_overshoot(value: f64, epsilon: f64) -> Answer {
    unsafe { c::wasnugram_cap_numerical_overshoot(value, epsilon) }
}
