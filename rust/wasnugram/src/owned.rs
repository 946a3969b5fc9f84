//! Model files on a host that has a heap.

use crate::{read_model, write_model, Model, Refused, Shape, Tables, MOST_STATES, MOST_SYMBOLS};
use alloc::vec;
use alloc::vec::Vec;

/// A model that owns its tables. With the feature `alloc`.
#[derive(Clone, Debug)]
pub struct OwnedModel {
    shape: Shape,
    transition: Vec<f64>,
    emission: Vec<f64>,
    initial: Vec<f64>,
    end: Vec<f64>,
}

impl OwnedModel {
    /// Reads a model file, as [`read_model`] does.
    ///
    /// ```
    /// use wasnugram::{OwnedModel, Refusal};
    ///
    /// # let lent = wasnugram::Model {
    /// #     shape: wasnugram::Shape { states: 2, symbols: 2, ends: false },
    /// #     transition: &[-1.0, -2.0, -2.0, -1.0],
    /// #     emission: &[-1.0, -3.0, -3.0, -1.0],
    /// #     initial: &[-1.0, -2.0],
    /// #     end: &[0.0, 0.0],
    /// # };
    /// # let file = wasnugram::model_file(&lent)?;
    /// let owned = OwnedModel::read(&file)?;
    /// assert_eq!(owned.model().initial, [-1.0, -2.0]);
    ///
    /// // The last byte is missing.
    /// let cut = OwnedModel::read(&file[..135]).unwrap_err();
    /// assert_eq!((cut.refusal, cut.table, cut.place), (Refusal::BadLayout, None, 135));
    /// # Ok::<(), wasnugram::Refused>(())
    /// ```
    pub fn read(file: &[u8]) -> Result<OwnedModel, Refused> {
        let mut transition = vec![0.0; MOST_STATES * MOST_STATES];
        let mut emission = vec![0.0; MOST_STATES * MOST_SYMBOLS];
        let mut initial = vec![0.0; MOST_STATES];
        let mut end = vec![0.0; MOST_STATES];
        let tables = Tables {
            transition: &mut transition,
            emission: &mut emission,
            initial: &mut initial,
            end: &mut end,
        };
        let shape = read_model(file, tables)?.shape;
        Ok(OwnedModel {
            shape,
            transition: cut(transition, shape.transition_length()),
            emission: cut(emission, shape.emission_length()),
            initial: cut(initial, shape.states),
            end: cut(end, shape.states),
        })
    }

    /// The model, to lend to a call.
    ///
    /// ```
    /// use wasnugram::{forward, is_possible, model_file, OwnedModel};
    ///
    /// # let lent = wasnugram::Model {
    /// #     shape: wasnugram::Shape { states: 2, symbols: 2, ends: false },
    /// #     transition: &[-1.0, -2.0, -2.0, -1.0],
    /// #     emission: &[-1.0, -3.0, -3.0, -1.0],
    /// #     initial: &[-1.0, -2.0],
    /// #     end: &[0.0, 0.0],
    /// # };
    /// # let file = model_file(&lent)?;
    /// let owned = OwnedModel::read(&file)?;
    /// let mut values = vec![0.0; owned.model().shape.cells(3)];
    /// assert!(is_possible(forward(&owned.model(), &[0, 1, 1], &mut values)?));
    /// // A model has one file.
    /// assert_eq!(model_file(&owned.model())?, file);
    /// # Ok::<(), wasnugram::Refused>(())
    /// ```
    pub fn model(&self) -> Model<'_> {
        Model {
            shape: self.shape,
            transition: &self.transition,
            emission: &self.emission,
            initial: &self.initial,
            end: &self.end,
        }
    }
}

/// The front of a table that had room for the greatest model.
fn cut(mut table: Vec<f64>, length: usize) -> Vec<f64> {
    table.truncate(length);
    table.shrink_to_fit();
    table
}

/// The file of a model, as [`write_model`] writes it. With the feature `alloc`.
///
/// ```
/// use wasnugram::{model_file, Model, Refusal, Shape, Table};
///
/// let model = Model {
///     shape: Shape { states: 1, symbols: 1, ends: false },
///     transition: &[0.0],
///     emission: &[0.0],
///     initial: &[-0.0],
///     end: &[0.0],
/// };
/// let file = model_file(&model)?;
/// assert_eq!(file.len(), model.shape.file_length());
/// // The last word is the initial entry: -0.0 has the sign bit alone.
/// assert_eq!(file[72..], [0, 0, 0, 0, 0, 0, 0, 0x80]);
///
/// let long = model_file(&Model { end: &[0.0, 0.0], ..model }).unwrap_err();
/// assert_eq!((long.refusal, long.table, long.place), (Refusal::WrongLength, Some(Table::End), 2));
/// # Ok::<(), wasnugram::Refused>(())
/// ```
pub fn model_file(model: &Model) -> Result<Vec<u8>, Refused> {
    let mut file = vec![0; model.shape.file_length()];
    write_model(model, &mut file)?;
    Ok(file)
}
