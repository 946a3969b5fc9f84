//! The C interface of the proved archive, as include/wasnugram.h declares it. A slice is a pointer and a length.

#[repr(C)]
#[derive(Clone, Copy)]
pub struct Shape {
    pub states: usize,
    pub symbols: usize,
    pub ends: u8,
}

/// An answer as the library gives it (docs/RULES.md, section 3.1).
#[repr(C)]
#[derive(Clone, Copy, Debug)]
pub struct Answer {
    /// The refusal's number, 0 for done.
    pub refusal: u8,
    /// The number of the table that the refusal speaks of.
    pub table: u8,
    /// The place in it.
    pub place: usize,
    /// The value; minus infinity on a refusal.
    pub value: f64,
}

/// What [`rival`](crate::raw::rival) gives.
#[repr(C)]
#[derive(Clone, Copy, Debug)]
pub struct Rivalry {
    /// The answer. Its value is the rival's score where there is a rival.
    pub answer: Answer,
    /// The state of the best path at the index; 0 on a refusal.
    pub chosen: usize,
    /// The best path's value; minus infinity on a refusal.
    pub best: f64,
}

/// What the reader of a model file gives: the answer, and the file's shape beside it.
#[repr(C)]
#[derive(Clone, Copy)]
pub struct Reading {
    pub answer: Answer,
    pub shape: Shape,
}

#[rustfmt::skip]
extern "C" {
    pub fn wasnugram_viterbi(
        shape: Shape,
        transition: *const f64, transition_length: usize,
        emission: *const f64, emission_length: usize,
        initial: *const f64, initial_length: usize,
        end: *const f64, end_length: usize,
        samples: *const u16, samples_length: usize,
        path: *mut u8, path_length: usize,
        values: *mut f64, values_length: usize,
        from: *mut u8, from_length: usize,
    ) -> Answer;

    pub fn wasnugram_rival(
        shape: Shape,
        transition: *const f64, transition_length: usize,
        emission: *const f64, emission_length: usize,
        initial: *const f64, initial_length: usize,
        end: *const f64, end_length: usize,
        samples: *const u16, samples_length: usize,
        index: usize,
        path: *mut u8, path_length: usize,
        rival_path: *mut u8, rival_path_length: usize,
        values: *mut f64, values_length: usize,
        from: *mut u8, from_length: usize,
    ) -> Rivalry;

    pub fn wasnugram_forward(
        shape: Shape,
        transition: *const f64, transition_length: usize,
        emission: *const f64, emission_length: usize,
        initial: *const f64, initial_length: usize,
        end: *const f64, end_length: usize,
        samples: *const u16, samples_length: usize,
        values: *mut f64, values_length: usize,
    ) -> Answer;

    pub fn wasnugram_backward(
        shape: Shape,
        transition: *const f64, transition_length: usize,
        emission: *const f64, emission_length: usize,
        initial: *const f64, initial_length: usize,
        end: *const f64, end_length: usize,
        samples: *const u16, samples_length: usize,
        values: *mut f64, values_length: usize,
    ) -> Answer;

    pub fn wasnugram_baum_welch(
        shape: Shape,
        transition: *const f64, transition_length: usize,
        emission: *const f64, emission_length: usize,
        initial: *const f64, initial_length: usize,
        end: *const f64, end_length: usize,
        samples: *const u16, samples_length: usize,
        new_transition: *mut f64, new_transition_length: usize,
        new_emission: *mut f64, new_emission_length: usize,
        new_initial: *mut f64, new_initial_length: usize,
        new_end: *mut f64, new_end_length: usize,
        alpha: *mut f64, alpha_length: usize,
        beta: *mut f64, beta_length: usize,
    ) -> Answer;

    pub fn wasnugram_read_model(
        file: *const u8, file_length: usize,
        transition: *mut f64, transition_length: usize,
        emission: *mut f64, emission_length: usize,
        initial: *mut f64, initial_length: usize,
        end: *mut f64, end_length: usize,
    ) -> Reading;

    pub fn wasnugram_write_model(
        shape: Shape,
        transition: *const f64, transition_length: usize,
        emission: *const f64, emission_length: usize,
        initial: *const f64, initial_length: usize,
        end: *const f64, end_length: usize,
        file: *mut u8, file_length: usize,
    ) -> Answer;

    pub fn wasnugram_model_file_length(shape: Shape) -> usize;

    pub fn wasnugram_exp(d: f64) -> Answer;
    pub fn wasnugram_ln(x: f64) -> Answer;
    pub fn wasnugram_ln_one_minus_exp(p: f64) -> Answer;
    pub fn wasnugram_ln_sum_exp(probs: *const f64, probs_length: usize) -> Answer;
    pub fn wasnugram_ln_add_exp(p0: f64, p1: f64) -> Answer;
    pub fn wasnugram_ln_sub_exp(p0: f64, p1: f64) -> Answer;
    pub fn wasnugram_ln_cumsum_exp(
        probs: *const f64, probs_length: usize,
        sums: *mut f64, sums_length: usize,
    ) -> Answer;
    pub fn wasnugram_cap_numerical_overshoot(value: f64, epsilon: f64) -> Answer;
}
