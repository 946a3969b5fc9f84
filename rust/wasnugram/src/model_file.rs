//! A model as the bytes of a file, in which no single flipped bit passes (docs/MODEL-FILE.md).

use crate::raw::{self, Answer, Reading};
use crate::{Model, Refused, Tables};

/// Reads a model file into lent tables. The model that it gives has the file's shape, and of each lent table exactly
/// the entries that were read; the surplus never changes. Where the file has no end state, the end entries are +0.0.
///
/// All checks are made on the file before the first entry is written, so that a refusal leaves the tables alone. A file
/// with any single bit flipped is refused, and so is one that is cut off or has bytes left over.
///
/// ```
/// use wasnugram::{read_model, viterbi, write_model, Model, Refusal, Shape, Table, Tables};
///
/// // A box has room for models of up to 4 states and 8 symbols.
/// let (mut transition, mut emission, mut initial, mut end) = ([0.0; 16], [0.0; 32], [0.0; 4], [0.0; 4]);
/// # let stored = Model {
/// #     shape: Shape { states: 2, symbols: 2, ends: false },
/// #     transition: &[-1.0, -2.0, -2.0, -1.0],
/// #     emission: &[-1.0, -3.0, -3.0, -1.0],
/// #     initial: &[-1.0, -2.0],
/// #     end: &[0.0, 0.0],
/// # };
/// # let mut file = [0; 136];
/// # write_model(&stored, &mut file)?;
/// let tables =
///     Tables { transition: &mut transition, emission: &mut emission, initial: &mut initial, end: &mut end };
/// let model = read_model(&file, tables)?;
/// assert_eq!(model.shape, Shape { states: 2, symbols: 2, ends: false });
/// assert_eq!(model.emission, [-1.0, -3.0, -3.0, -1.0]);
/// let (mut path, mut values, mut from) = ([0; 3], [0.0; 6], [0; 6]);
/// assert_eq!(viterbi(&model, &[0, 1, 1], &mut path, &mut values, &mut from)?.path, [0, 1, 1]);
///
/// // One bit of the third emission flips: the sum tells.
/// file[8 + 3 * 16 + (4 + 2) * 8] ^= 1;
/// let tables =
///     Tables { transition: &mut transition, emission: &mut emission, initial: &mut initial, end: &mut end };
/// let flipped = read_model(&file, tables).unwrap_err();
/// assert_eq!((flipped.refusal, flipped.table, flipped.place), (Refusal::BadSum, Some(Table::Emission), 0));
/// assert_eq!(emission[2], -3.0);
/// # Ok::<(), wasnugram::Refused>(())
/// ```
pub fn read_model<'a>(file: &[u8], mut tables: Tables<'a>) -> Result<Model<'a>, Refused> {
    let Reading { answer, shape } = raw::read_model(file, &mut tables);
    done(answer)?;
    Ok(Model {
        shape,
        transition: &tables.transition[..shape.transition_length()],
        emission: &tables.emission[..shape.emission_length()],
        initial: &tables.initial[..shape.states],
        end: &tables.end[..shape.states],
    })
}

/// Writes the file of a model at the front of lent bytes, and gives the number of bytes that it has: the shape's
/// [`file_length`](crate::Shape::file_length). The surplus never changes.
///
/// ```
/// use wasnugram::{write_model, Model, Refusal, Shape, Table};
///
/// let model = Model {
///     shape: Shape { states: 2, symbols: 2, ends: false },
///     transition: &[-1.0, -2.0, -2.0, -1.0],
///     emission: &[-1.0, -3.0, -3.0, -1.0],
///     initial: &[-1.0, -2.0],
///     end: &[0.0, 0.0],
/// };
/// let mut file = [0; 200];
/// assert_eq!(write_model(&model, &mut file)?, 136);
/// // Two states, two symbols, no end state, three tables; then table 0, from byte 56 on.
/// assert_eq!(file[..16], [2, 0, 2, 0, 0, 0, 3, 0, 0, 0, 0, 0, 56, 0, 0, 0]);
///
/// // No model that a call would refuse is written, and no file that has no room.
/// let nan = write_model(&Model { initial: &[-1.0, f64::NAN], ..model }, &mut file).unwrap_err();
/// assert_eq!((nan.refusal, nan.table, nan.place), (Refusal::NotGood, Some(Table::Initial), 1));
/// let short = write_model(&model, &mut file[..135]).unwrap_err();
/// assert_eq!((short.refusal, short.table, short.place), (Refusal::OutputTooShort, Some(Table::Output(5)), 135));
/// # Ok::<(), wasnugram::Refused>(())
/// ```
pub fn write_model(model: &Model, file: &mut [u8]) -> Result<usize, Refused> {
    done(raw::write_model(model, file))?;
    Ok(model.shape.file_length())
}

fn done(answer: Answer) -> Result<(), Refused> {
    match answer.refusal {
        0 => Ok(()),
        _ => Err(Refused::of_model(answer)),
    }
}
