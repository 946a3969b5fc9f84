//! The calls on a model, each with a value or a refusal.

use crate::raw::{self, Answer};
use crate::{Estimates, Model, Refused};

pub(crate) fn result(answer: Answer) -> Result<f64, Refused> {
    match answer.refusal {
        0 => Ok(answer.value),
        _ => Err(Refused::of_model(answer)),
    }
}

/// Whether a walk's value explains its samples: minus infinity says that no path through the model gives them, and that
/// nothing may follow from what was written.
///
/// ```
/// assert!(wasnugram::is_possible(-700.0));
/// assert!(!wasnugram::is_possible(f64::NEG_INFINITY));
/// ```
pub fn is_possible(value: f64) -> bool {
    value > f64::NEG_INFINITY
}

/// The best path and its value.
#[derive(Clone, Copy, Debug, PartialEq)]
pub struct Decoded<'a> {
    /// One state for each sample: the part of the lent path that was written. It means something only where
    /// [`is_possible`](Decoded::is_possible) says so.
    pub path: &'a [u8],
    /// The path's score, with an end state the last state's end entry included; minus infinity where no path explains the
    /// samples, and for no samples.
    pub value: f64,
}

impl Decoded<'_> {
    /// Whether some path explains the samples. Where none does, `path` is the tie rule's choice among paths that cannot
    /// be, and no fare may follow from it.
    pub fn is_possible(&self) -> bool {
        is_possible(self.value)
    }
}

/// The best path (RULES, section 6.1). Writes the path (T states), the value of each cell and the state before each cell
/// (T·S each, by rows). With an end state the last state's end entry is added last, and the path ends in the
/// highest-numbered state of the greatest sums; without one nothing is added. [`forward`] never answers less on the same
/// model and samples.
///
/// ```
/// use wasnugram::{viterbi, Model, Refusal, Shape, Table};
///
/// let model = Model {
///     shape: Shape { states: 2, symbols: 2, ends: false },
///     transition: &[-1.0, -2.0, -2.0, -1.0],
///     emission: &[-1.0, -3.0, -3.0, -1.0],
///     initial: &[-1.0, -2.0],
///     end: &[0.0, 0.0],
/// };
/// let samples = [0, 1, 1];
/// let (mut path, mut values, mut from) = ([0; 3], [0.0; 6], [0; 6]);
/// let decoded = viterbi(&model, &samples, &mut path, &mut values, &mut from)?;
/// assert!(decoded.is_possible());
/// assert_eq!((decoded.path, decoded.value), (&[0, 1, 1][..], -7.0));
/// assert_eq!(values, [-2.0, -5.0, -6.0, -5.0, -10.0, -7.0]);
/// assert_eq!(from, [0, 1, 0, 0, 1, 1]);
///
/// // Neither state ever emits symbol 1: done, and no path explains the samples.
/// let mute = Model { emission: &[0.0, f64::NEG_INFINITY, 0.0, f64::NEG_INFINITY], ..model };
/// let decoded = viterbi(&mute, &samples, &mut path, &mut values, &mut from)?;
/// assert!(!decoded.is_possible());
/// assert_eq!(decoded.value, f64::NEG_INFINITY);
///
/// // An exit lane: without an end state the path ends where the last value is greatest, and with one the way out counts.
/// let endless = Model {
///     shape: Shape { states: 2, symbols: 1, ends: false },
///     transition: &[0.0; 4],
///     emission: &[0.0; 2],
///     initial: &[-1.0, -2.0],
///     end: &[0.0; 2],
/// };
/// let decoded = viterbi(&endless, &[0], &mut path, &mut values, &mut from)?;
/// assert_eq!((decoded.path, decoded.value), (&[0][..], -1.0));
/// let exit = Model { shape: Shape { ends: true, ..endless.shape }, end: &[-3.0, -1.0], ..endless };
/// let decoded = viterbi(&exit, &[0], &mut path, &mut values, &mut from)?;
/// assert_eq!((decoded.path, decoded.value), (&[1][..], -3.0));
///
/// // A path of two bytes is too short for three samples: output 5, of length 2.
/// let short = viterbi(&model, &samples, &mut path[..2], &mut values, &mut from).unwrap_err();
/// assert_eq!((short.refusal, short.table, short.place), (Refusal::OutputTooShort, Some(Table::Output(5)), 2));
///
/// // The last sample is no symbol of the model.
/// let outside = viterbi(&model, &[0, 1, 2], &mut path, &mut values, &mut from).unwrap_err();
/// assert_eq!((outside.refusal, outside.table, outside.place), (Refusal::UnknownSymbol, Some(Table::Samples), 2));
/// # Ok::<(), wasnugram::Refused>(())
/// ```
pub fn viterbi<'a>(
    model: &Model,
    samples: &[u16],
    path: &'a mut [u8],
    values: &mut [f64],
    from: &mut [u8],
) -> Result<Decoded<'a>, Refused> {
    let value = result(raw::viterbi(model, samples, path, values, from))?;
    Ok(Decoded {
        path: &path[..samples.len()],
        value,
    })
}

/// How likely the samples are (RULES, section 6.2). Writes alpha (T·S, by rows); the value is the likelihood's logarithm.
///
/// On the same model and samples it is **never under the value of [`viterbi`]**, nor is a cell of alpha under the cell of the
/// same sample and state, with an end state or without one: it counts every path, the best one among them, and no rounding
/// spoils that. The same is not promised of [`backward`], which adds from the other end.
///
/// ```
/// # use wasnugram::{Model, Shape};
/// # let half = [-0.6931471805599453; 4];
/// # let shape = Shape { states: 2, symbols: 2, ends: false };
/// # let model = Model { shape, transition: &half, emission: &half, initial: &half[..2], end: &[0.0; 2] };
/// use wasnugram::{forward, is_possible, viterbi, Refusal, Table};
///
/// // Two states and two symbols, and every probability is a half: so is that of one sample.
/// let mut values = [0.0; 2];
/// let value = forward(&model, &[1], &mut values)?;
/// assert!(is_possible(value));
/// assert_eq!(value, -0.6931471805599453);
/// assert_eq!(values, [-1.3862943611198906; 2]);
///
/// // The likelihood beside the best path, and its cells beside that path's.
/// let samples = [1, 0, 1];
/// let (mut path, mut best_values, mut from, mut alpha) = ([0; 3], [0.0; 6], [0; 6], [0.0; 6]);
/// let best = viterbi(&model, &samples, &mut path, &mut best_values, &mut from)?.value;
/// let likelihood = forward(&model, &samples, &mut alpha)?;
/// assert!(likelihood >= best);
/// assert!(alpha.iter().zip(&best_values).all(|(alpha, value)| alpha >= value));
/// // The share of the best path in the likelihood is at most 1: here eight paths are alike, so that it is an eighth. Where no
/// // path explains the samples, there is none.
/// let share = (best - likelihood).exp();
/// assert!(share <= 1.0);
/// assert!((share - 0.125).abs() < 1e-6);
///
/// // Without a sample there is no last row to sum.
/// let none = forward(&model, &[], &mut values).unwrap_err();
/// assert_eq!((none.refusal, none.table, none.place), (Refusal::NoSamples, Some(Table::Samples), 0));
/// # Ok::<(), wasnugram::Refused>(())
/// ```
pub fn forward(model: &Model, samples: &[u16], values: &mut [f64]) -> Result<f64, Refused> {
    result(raw::forward(model, samples, values))
}

/// The same from the last sample on (RULES, section 6.3). Writes beta (T·S, row i for sample T-1-i); the value is the
/// likelihood's logarithm, minus infinity for no samples. It adds from the other end, so that it may differ from that of
/// [`forward`] by rounding, and be below the value of [`viterbi`].
///
/// ```
/// # use wasnugram::{Model, Shape};
/// # let half = [-0.6931471805599453; 4];
/// # let shape = Shape { states: 2, symbols: 2, ends: false };
/// # let model = Model { shape, transition: &half, emission: &half, initial: &half[..2], end: &[0.0; 2] };
/// use wasnugram::{backward, is_possible, Refusal, Table};
///
/// let mut values = [0.0; 2];
/// let value = backward(&model, &[1], &mut values)?;
/// assert!(is_possible(value));
/// assert_eq!(value, -0.6931471805599453);
///
/// // A table of one entry is too short for one sample and two states: output 5, of length 1.
/// let short = backward(&model, &[1], &mut values[..1]).unwrap_err();
/// assert_eq!((short.refusal, short.table, short.place), (Refusal::OutputTooShort, Some(Table::Output(5)), 1));
/// # Ok::<(), wasnugram::Refused>(())
/// ```
pub fn backward(model: &Model, samples: &[u16], values: &mut [f64]) -> Result<f64, Refused> {
    result(raw::backward(model, samples, values))
}

/// One training pass on one row of samples (RULES, section 7). Writes the new tables; the value is the likelihood's
/// logarithm, and never minus infinity: samples that no path explains are refused with
/// [`ZeroMass`](crate::Refusal::ZeroMass).
///
/// ```
/// # use wasnugram::{Model, Shape};
/// # let half = [-0.6931471805599453; 4];
/// # let shape = Shape { states: 2, symbols: 2, ends: false };
/// # let model = Model { shape, transition: &half, emission: &half, initial: &half[..2], end: &[0.0; 2] };
/// use wasnugram::{baum_welch, exp, Estimates, Refusal};
///
/// let mut new = Estimates {
///     new_transition: &mut [0.0; 4],
///     new_emission: &mut [0.0; 4],
///     new_initial: &mut [0.0; 2],
///     new_end: &mut [0.0; 2],
///     alpha: &mut [0.0; 8],
///     beta: &mut [0.0; 8],
/// };
/// let value = baum_welch(&model, &[1, 1, 1, 0], &mut new)?;
/// assert!((exp(value)? - 1.0 / 16.0).abs() < 1e-6);
/// // Three samples of four were symbol 1, and nothing tells the states apart.
/// for row in new.new_emission.chunks(2) {
///     assert!((exp(row[0])? - 0.25).abs() < 1e-6);
///     assert!((exp(row[1])? - 0.75).abs() < 1e-6);
/// }
///
/// // After a single sample nothing is known of the transitions: no mass at state 0.
/// let empty = baum_welch(&model, &[1], &mut new).unwrap_err();
/// assert_eq!((empty.refusal, empty.table, empty.place), (Refusal::ZeroMass, None, 0));
/// // No path explains the samples: no mass in the whole, whose place is the number of states.
/// let mute = Model { initial: &[f64::NEG_INFINITY; 2], ..model };
/// let whole = baum_welch(&mute, &[1, 1, 1, 0], &mut new).unwrap_err();
/// assert_eq!((whole.refusal, whole.table, whole.place), (Refusal::ZeroMass, None, 2));
/// # Ok::<(), wasnugram::Refused>(())
/// ```
pub fn baum_welch(model: &Model, samples: &[u16], new: &mut Estimates) -> Result<f64, Refused> {
    result(raw::baum_welch(model, samples, new))
}
