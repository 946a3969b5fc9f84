//! Why the best path has the state that it has at a sample: the strongest rival there, and how far behind it is.

use crate::raw::{self, Rivalry};
use crate::walks::result;
use crate::{Model, Refusal, Refused, Table};

/// The number of the margins among the outputs of [`margins`]: they come after the four of [`rival`].
const MARGINS: Table = Table::Output(9);

/// The best path and its rival at one sample, the best of the paths that have another state there.
#[derive(Clone, Copy, Debug, PartialEq)]
pub struct Rival<'a> {
    /// The best path, as [`viterbi`](crate::viterbi) gives it: the part of the lent path that was written.
    pub path: &'a [u8],
    /// The best path's value.
    pub best: f64,
    /// The state that the best path has at the sample.
    pub chosen: usize,
    /// The rival, one state for each sample: the part of the lent rival path that was written.
    pub rival_path: &'a [u8],
    /// The rival's own score, with an end state the last state's end entry included. It is above minus infinity: where it
    /// would not be, there is no rival.
    pub value: f64,
}

impl Rival<'_> {
    /// How far the rival is behind: the best path's value less the rival's, one subtraction. It is never below 0, and 0
    /// where the tie rule alone chose between the two.
    ///
    /// Values are natural logarithms, so that the best path is exp(margin) times as likely as the rival, **under this
    /// model**: a great margin does not say that the model is right. The platform's `exp` gives that number, since
    /// [`exp`](crate::exp) of this crate takes none above 0.
    ///
    /// ```
    /// use wasnugram::Rival;
    ///
    /// // A margin of 0.42: the best path is 1.52 times as likely as the rival.
    /// let near = Rival { path: &[1], best: -1.0, chosen: 1, rival_path: &[0], value: -1.42 };
    /// assert!((near.margin() - 0.42).abs() < 1e-9);
    /// assert!((near.margin().exp() - 1.52).abs() < 0.005);
    /// ```
    pub fn margin(&self) -> f64 {
        self.best - self.value
    }
}

/// Why not another state at this sample: the state that the best path has there, and the strongest rival, the best of all
/// paths with another state there (RULES, section 6.4). Of equal paths the rule of [`viterbi`](crate::viterbi) chooses.
///
/// Writes the best path and the rival (T states each); then the value of each cell and the state before each cell (T·S
/// each, by rows) of the rival's walk, in which the chosen state cannot be at the sample.
///
/// An index of T or more is refused with [`BadIndex`](Refusal::BadIndex), so that no samples always are. Where every path
/// with another state there is impossible, the call is refused with [`NoRival`](Refusal::NoRival), and nothing is written:
/// the chosen state is the only possible one, or no path at all explains the samples, and `viterbi` says which.
///
/// ```
/// use wasnugram::{rival, Model, Refusal, Shape};
///
/// let model = Model {
///     shape: Shape { states: 2, symbols: 2, ends: false },
///     transition: &[-1.0, -2.0, -2.0, -1.0],
///     emission: &[-1.0, -3.0, -3.0, -1.0],
///     initial: &[-1.0, -2.0],
///     end: &[0.0, 0.0],
/// };
/// let samples = [0, 1, 1];
/// let (mut path, mut rival_path, mut values, mut from) = ([0; 3], [0; 3], [0.0; 6], [0; 6]);
///
/// // The best path is in state 1 at sample 1. Why not in state 0?
/// let found = rival(&model, &samples, 1, &mut path, &mut rival_path, &mut values, &mut from)?;
/// assert_eq!((found.path, found.best, found.chosen), (&[0, 1, 1][..], -7.0, 1));
/// assert_eq!((found.rival_path, found.value), (&[0, 0, 1][..], -9.0));
/// // Because the best path is exp(2) = 7.39 times as likely.
/// assert_eq!(found.margin(), 2.0);
/// assert_eq!(values, [-2.0, -5.0, -6.0, f64::NEG_INFINITY, -10.0, -9.0]);
/// assert_eq!(from, [0, 1, 0, 0, 0, 0]);
///
/// // At the last sample two paths with state 0 score -10, and the higher-numbered predecessor wins.
/// let found = rival(&model, &samples, 2, &mut path, &mut rival_path, &mut values, &mut from)?;
/// assert_eq!((found.rival_path, found.value, found.margin()), (&[0, 1, 0][..], -10.0, 3.0));
///
/// // There is no sample 3.
/// let outside = rival(&model, &samples, 3, &mut path, &mut rival_path, &mut values, &mut from).unwrap_err();
/// assert_eq!((outside.refusal, outside.table, outside.place), (Refusal::BadIndex, None, 0));
///
/// // One state alone has no rival.
/// let alone = Model {
///     shape: Shape { states: 1, symbols: 2, ends: false },
///     transition: &[0.0],
///     emission: &[-1.0, -1.0],
///     initial: &[0.0],
///     end: &[0.0],
/// };
/// let none = rival(&alone, &samples, 1, &mut path, &mut rival_path, &mut values, &mut from).unwrap_err();
/// assert_eq!((none.refusal, none.table, none.place), (Refusal::NoRival, None, 0));
/// assert_eq!(rival_path, [0, 1, 0], "nothing was written");
/// # Ok::<(), wasnugram::Refused>(())
/// ```
pub fn rival<'a>(
    model: &Model,
    samples: &[u16],
    index: usize,
    path: &'a mut [u8],
    rival_path: &'a mut [u8],
    values: &mut [f64],
    from: &mut [u8],
) -> Result<Rival<'a>, Refused> {
    let Rivalry { answer, chosen, best } = raw::rival(model, samples, index, path, rival_path, values, from);
    let value = result(answer)?;
    Ok(Rival {
        path: &path[..samples.len()],
        best,
        chosen,
        rival_path: &rival_path[..samples.len()],
        value,
    })
}

/// The [`margin`](Rival::margin) at every sample, +inf where there is no rival. Where no path explains the samples, each
/// is +inf: ask [`viterbi`](crate::viterbi) first.
///
/// The margins are output 9 (T entries), after the four of [`rival`], which are scratch here. Every check is made before
/// the first margin, so that a refusal leaves all memory alone. For no samples there is no margin, and no refusal.
///
/// It makes a call of `rival` for each sample, each of about four walks of `viterbi`, so that its time grows with the square
/// of their number. Two walks, one from each end, would give every margin at once. But they would add in another order, and
/// a sum of f64 depends on its order: those would not be the margins of `rival` to the last bit.
///
/// ```
/// use wasnugram::{margins, Model, Refusal, Shape, Table};
///
/// let model = Model {
///     shape: Shape { states: 2, symbols: 2, ends: false },
///     transition: &[-1.0, -2.0, -2.0, -1.0],
///     emission: &[-1.0, -3.0, -3.0, -1.0],
///     initial: &[-1.0, -2.0],
///     end: &[0.0, 0.0],
/// };
/// let samples = [0, 1, 1];
/// let (mut path, mut rival_path, mut values, mut from) = ([0; 3], [0; 3], [0.0; 6], [0; 6]);
/// let mut found = [0.0; 3];
/// margins(&model, &samples, &mut path, &mut rival_path, &mut values, &mut from, &mut found)?;
/// assert_eq!(found, [2.0, 2.0, 3.0]);
///
/// // A passage always starts in state 0: nothing else could be at sample 0.
/// let starts = Model { initial: &[-1.0, f64::NEG_INFINITY], ..model };
/// margins(&starts, &samples, &mut path, &mut rival_path, &mut values, &mut from, &mut found)?;
/// assert_eq!(found, [f64::INFINITY, 2.0, 3.0]);
///
/// // Two margins for three samples.
/// let short = margins(&model, &samples, &mut path, &mut rival_path, &mut values, &mut from, &mut found[..2]);
/// let short = short.unwrap_err();
/// assert_eq!((short.refusal, short.table, short.place), (Refusal::OutputTooShort, Some(Table::Output(9)), 2));
/// # Ok::<(), wasnugram::Refused>(())
/// ```
pub fn margins(
    model: &Model,
    samples: &[u16],
    path: &mut [u8],
    rival_path: &mut [u8],
    values: &mut [f64],
    from: &mut [u8],
    margins: &mut [f64],
) -> Result<(), Refused> {
    // There is no sample at this index, so that the call makes every other check and writes nothing.
    let checked = raw::rival(model, samples, samples.len(), path, rival_path, values, from).answer;
    let_through(Refused::of_model(checked), samples.len(), margins.len())?;
    for (index, margin) in (0..samples.len()).zip(margins) {
        *margin = match rival(model, samples, index, path, rival_path, values, from) {
            Ok(rival) => rival.margin(),
            Err(refused) if refused.refusal == Refusal::NoRival => f64::INFINITY,
            Err(refused) => return Err(refused),
        };
    }
    Ok(())
}

/// Puts the length of the margins in its place among the checks: after those of all other lengths, and before those of
/// entries and samples. The refusal is the one of an index that no sample has.
fn let_through(refused: Refused, needed: usize, length: usize) -> Result<(), Refused> {
    match refused.refusal {
        Refusal::NotGood | Refusal::UnknownSymbol | Refusal::BadIndex if length < needed => Err(Refused {
            refusal: Refusal::OutputTooShort,
            table: Some(MARGINS),
            place: length,
        }),
        Refusal::BadIndex => Ok(()),
        _ => Err(refused),
    }
}
