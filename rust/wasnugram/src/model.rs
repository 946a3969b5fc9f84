//! What is lent: a model's shape and tables, and what a training pass and the reader of a model file write.

use crate::raw;

/// The most states that a call takes.
pub const MOST_STATES: usize = 64;
/// The most symbols that a call takes.
pub const MOST_SYMBOLS: usize = 256;
/// The most samples that a call takes.
pub const MOST_SAMPLES: usize = 4096;

/// How many states and symbols there are, and whether there is an end state. Its functions give the lengths that tables
/// and outputs need, in entries.
///
/// ```
/// use wasnugram::Shape;
///
/// const GATE: Shape = Shape { states: 12, symbols: 256, ends: false };
/// assert_eq!((GATE.transition_length(), GATE.emission_length()), (144, 3072));
/// assert_eq!(GATE.cells(240), 2880);
/// ```
#[derive(Clone, Copy, Debug, PartialEq, Eq)]
pub struct Shape {
    /// S, from 1 to 64.
    pub states: usize,
    /// M, from 1 to 256.
    pub symbols: usize,
    /// Whether there is an end state. With one every walk counts the end entry of the state at the last sample, the best
    /// path too; without one the end table is all +0.0.
    pub ends: bool,
}

impl Shape {
    /// The entries of a transition table: S·S.
    pub const fn transition_length(self) -> usize {
        self.states.saturating_mul(self.states)
    }

    /// The entries of an emission table: S·M.
    pub const fn emission_length(self) -> usize {
        self.states.saturating_mul(self.symbols)
    }

    /// The entries of a table with a row for each of T samples, as `values`, `from`, `alpha` and `beta` have: T·S.
    pub const fn cells(self, samples: usize) -> usize {
        samples.saturating_mul(self.states)
    }

    /// The bytes of a model file of this shape; 0 where no model has this shape.
    ///
    /// ```
    /// use wasnugram::Shape;
    ///
    /// let gate = Shape { states: 12, symbols: 256, ends: false };
    /// assert_eq!(gate.file_length(), 25_880);
    /// // An end state has an entry of 16 bytes in the contents, and a body of a word for each state.
    /// assert_eq!(Shape { ends: true, ..gate }.file_length(), 25_880 + 16 + 8 * 12);
    /// assert_eq!(Shape { states: 65, ..gate }.file_length(), 0);
    /// ```
    pub fn file_length(self) -> usize {
        raw::file_length(self)
    }
}

/// A shape and its four tables by rows, natural logarithms of probabilities. Nothing is checked here: each call checks
/// the model before it looks at a sample, so that [`viterbi`](crate::viterbi) on no samples is a check alone.
///
/// ```
/// use wasnugram::{viterbi, Model, Refusal, Shape, Table};
///
/// let good = Model {
///     shape: Shape { states: 2, symbols: 2, ends: false },
///     transition: &[-1.0, -2.0, -2.0, -1.0],
///     emission: &[-1.0, -3.0, -3.0, -1.0],
///     initial: &[-1.0, -2.0],
///     end: &[0.0, 0.0],
/// };
/// let refused = |model: Model| {
///     let refused = viterbi(&model, &[], &mut [], &mut [], &mut []).unwrap_err();
///     (refused.refusal, refused.table.unwrap(), refused.place)
/// };
/// assert!(viterbi(&good, &[], &mut [], &mut [], &mut []).is_ok());
///
/// // An emission table of three entries, where four are needed.
/// assert_eq!(refused(Model { emission: &[-1.0, -3.0, -3.0], ..good }), (Refusal::WrongLength, Table::Emission, 3));
/// // An entry above zero: the third of the transition table.
/// assert_eq!(refused(Model { transition: &[-1.0, -2.0, 2.0, -1.0], ..good }), (Refusal::NotGood, Table::Transition, 2));
/// // NaN, and an end entry where there is no end state.
/// assert_eq!(refused(Model { initial: &[f64::NAN, -2.0], ..good }), (Refusal::NotGood, Table::Initial, 0));
/// assert_eq!(refused(Model { end: &[0.0, -1.0], ..good }), (Refusal::NotGood, Table::End, 1));
/// ```
#[derive(Clone, Copy, Debug)]
pub struct Model<'a> {
    /// The sizes that the tables have.
    pub shape: Shape,
    /// S·S entries: entry k·S + j is from state k to state j.
    pub transition: &'a [f64],
    /// S·M entries: entry j·M + x is symbol x in state j.
    pub emission: &'a [f64],
    /// S entries.
    pub initial: &'a [f64],
    /// S entries: entry j is from state j to the end state. Without an end state each is +0.0.
    pub end: &'a [f64],
}

/// What a training pass writes: the new tables, then two scratch tables that it leaves at +0.0.
#[derive(Debug)]
pub struct Estimates<'a> {
    /// Output 5: S·S entries.
    pub new_transition: &'a mut [f64],
    /// Output 6: S·M entries.
    pub new_emission: &'a mut [f64],
    /// Output 7: S entries.
    pub new_initial: &'a mut [f64],
    /// Output 8: S entries.
    pub new_end: &'a mut [f64],
    /// Output 9, scratch: T·S entries.
    pub alpha: &'a mut [f64],
    /// Output 10, scratch: T·S entries.
    pub beta: &'a mut [f64],
}

/// What the reader of a model file writes: the four tables. Each may be longer than the file's model needs.
#[derive(Debug)]
pub struct Tables<'a> {
    /// Output 6: S·S entries.
    pub transition: &'a mut [f64],
    /// Output 7: S·M entries.
    pub emission: &'a mut [f64],
    /// Output 8: S entries.
    pub initial: &'a mut [f64],
    /// Output 9: S entries. Without an end state the reader makes each +0.0.
    pub end: &'a mut [f64],
}
