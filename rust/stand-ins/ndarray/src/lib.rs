//! Stands in for ndarray: arrays by rows, and the views of them that bio takes. An index is checked in each dimension,
//! as ndarray checks it.

pub mod prelude {
    pub use crate::{s, Array1, Array2, Axis};
}

use num_traits::Zero;
use std::ops::{Add, Index, IndexMut, Range};

/// A dimension, 0 for rows. bio walks along rows alone.
#[derive(Clone, Copy)]
pub struct Axis(pub usize);

/// Some columns of all rows, or of one row.
#[macro_export]
macro_rules! s {
    (.., $columns:expr) => {
        $columns
    };
    ($row:expr, $columns:expr) => {
        ($row, $columns)
    };
}

/// One row of numbers that it owns.
#[derive(Clone, Debug, Default, PartialEq)]
pub struct Array1<T> {
    entries: Vec<T>,
}

/// A table by rows that it owns.
#[derive(Clone, Debug, Default, PartialEq)]
pub struct Array2<T> {
    entries: Vec<T>,
    rows: usize,
    columns: usize,
}

/// A row, to be read.
#[derive(Clone, Copy)]
pub struct Row<'a, T> {
    entries: &'a [T],
}

/// A column, to be read: every `stride`th entry.
#[derive(Clone, Copy)]
pub struct Column<'a, T> {
    entries: &'a [T],
    stride: usize,
}

/// A row, or a part of one, to be written.
pub struct RowMut<'a, T> {
    entries: &'a mut [T],
}

/// Some neighbouring columns of a table.
pub struct Columns<'a, T> {
    table: &'a Array2<T>,
    range: Range<usize>,
}

impl<T: Copy> Array1<T> {
    pub fn dim(&self) -> usize {
        self.entries.len()
    }

    pub fn iter(&self) -> std::slice::Iter<'_, T> {
        self.entries.iter()
    }

    pub fn map<U>(&self, f: impl FnMut(&T) -> U) -> Array1<U> {
        self.entries.iter().map(f).collect()
    }

    pub fn to_vec(&self) -> Vec<T> {
        self.entries.clone()
    }
}

impl<T> From<Vec<T>> for Array1<T> {
    fn from(entries: Vec<T>) -> Self {
        Array1 { entries }
    }
}

impl<T> FromIterator<T> for Array1<T> {
    fn from_iter<I: IntoIterator<Item = T>>(entries: I) -> Self {
        Array1 {
            entries: entries.into_iter().collect(),
        }
    }
}

impl<T> Index<[usize; 1]> for Array1<T> {
    type Output = T;
    fn index(&self, [i]: [usize; 1]) -> &T {
        &self.entries[i]
    }
}

impl<T: Copy> Array2<T> {
    /// A table from its entries by rows. ndarray has it as `from_shape_vec`, with an error for a wrong length.
    pub fn from_rows(rows: usize, columns: usize, entries: Vec<T>) -> Self {
        assert_eq!(rows * columns, entries.len());
        Array2 { entries, rows, columns }
    }

    pub fn zeros((rows, columns): (usize, usize)) -> Self
    where
        T: Zero,
    {
        Self::from_rows(rows, columns, vec![T::zero(); rows * columns])
    }

    pub fn dim(&self) -> (usize, usize) {
        (self.rows, self.columns)
    }

    pub fn len_of(&self, _: Axis) -> usize {
        self.rows
    }

    pub fn map<U: Copy>(&self, f: impl FnMut(&T) -> U) -> Array2<U> {
        Array2::from_rows(self.rows, self.columns, self.entries.iter().map(f).collect())
    }

    /// The entries by rows. ndarray has it as `into_raw_vec`.
    pub fn into_entries(self) -> Vec<T> {
        self.entries
    }

    pub fn row(&self, i: usize) -> Row<'_, T> {
        assert!(i < self.rows);
        Row {
            entries: &self.entries[i * self.columns..(i + 1) * self.columns],
        }
    }

    pub fn index_axis(&self, _: Axis, i: usize) -> Row<'_, T> {
        self.row(i)
    }

    pub fn axis_iter(&self, _: Axis) -> impl DoubleEndedIterator<Item = Row<'_, T>> + ExactSizeIterator {
        (0..self.rows).map(|i| self.row(i))
    }

    pub fn column(&self, j: usize) -> Column<'_, T> {
        assert!(j < self.columns);
        Column {
            entries: self.entries.get(j..).unwrap_or(&[]),
            stride: self.columns,
        }
    }

    pub fn slice(&self, range: Range<usize>) -> Columns<'_, T> {
        assert!(range.end <= self.columns);
        Columns { table: self, range }
    }

    pub fn row_mut(&mut self, i: usize) -> RowMut<'_, T> {
        let columns = self.columns;
        self.slice_mut((i, 0..columns))
    }

    pub fn slice_mut(&mut self, (i, range): (usize, Range<usize>)) -> RowMut<'_, T> {
        assert!(i < self.rows && range.end <= self.columns);
        RowMut {
            entries: &mut self.entries[i * self.columns..(i + 1) * self.columns][range],
        }
    }
}

impl<T> Index<[usize; 2]> for Array2<T> {
    type Output = T;
    fn index(&self, [i, j]: [usize; 2]) -> &T {
        assert!(i < self.rows && j < self.columns, "ndarray: index out of bounds");
        &self.entries[i * self.columns + j]
    }
}

impl<T> IndexMut<[usize; 2]> for Array2<T> {
    fn index_mut(&mut self, [i, j]: [usize; 2]) -> &mut T {
        assert!(i < self.rows && j < self.columns, "ndarray: index out of bounds");
        &mut self.entries[i * self.columns + j]
    }
}

impl<T: Copy + Add<Output = T>> Add for &Array2<T> {
    type Output = Array2<T>;
    fn add(self, other: &Array2<T>) -> Array2<T> {
        assert_eq!(self.dim(), other.dim());
        let sums = self.entries.iter().zip(&other.entries).map(|(a, b)| *a + *b);
        Array2::from_rows(self.rows, self.columns, sums.collect())
    }
}

impl<'a, T: Copy> Row<'a, T> {
    pub fn iter(&self) -> std::slice::Iter<'a, T> {
        self.entries.iter()
    }

    pub fn to_vec(&self) -> Vec<T> {
        self.entries.to_vec()
    }

    pub fn to_slice(&self) -> Option<&'a [T]> {
        Some(self.entries)
    }
}

impl<T: Copy> Column<'_, T> {
    pub fn map<U>(&self, f: impl FnMut(&T) -> U) -> Array1<U> {
        self.entries.iter().step_by(self.stride).map(f).collect()
    }

    pub fn to_vec(&self) -> Vec<T> {
        self.entries.iter().step_by(self.stride).copied().collect()
    }
}

/// What a row can be filled from.
pub trait Entries<T> {
    fn entries(&self) -> &[T];
}

impl<T> Entries<T> for Array1<T> {
    fn entries(&self) -> &[T] {
        &self.entries
    }
}

impl<T> Entries<T> for Row<'_, T> {
    fn entries(&self) -> &[T] {
        self.entries
    }
}

impl<T: Copy> RowMut<'_, T> {
    pub fn assign(&mut self, from: &impl Entries<T>) {
        self.entries.copy_from_slice(from.entries());
    }
}

impl<'a, T: Copy> Columns<'a, T> {
    pub fn column(&self, j: usize) -> Column<'a, T> {
        assert!(j < self.range.len());
        self.table.column(self.range.start + j)
    }
}
