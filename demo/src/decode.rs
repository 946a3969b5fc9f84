//! One passage decoded: the lent memory, the row of states, and the fares that follow from it.

use crate::model::{Tables, SHAPE};
use crate::recording::LONGEST;
use crate::states::{Fare, ALL};
use wasnugram::{viterbi, Refused};

/// What a gate lends to the decoder, made once for its longest passage.
#[derive(Clone, PartialEq)]
pub struct Lent {
    pub path: Vec<u8>,
    pub rival_path: Vec<u8>,
    pub values: Vec<f64>,
    pub from: Vec<u8>,
}

impl Lent {
    /// Every place holds this byte, or its number.
    pub fn filled(with: u8) -> Lent {
        Lent {
            path: vec![with; LONGEST],
            rival_path: vec![with; LONGEST],
            values: vec![f64::from(with); SHAPE.cells(LONGEST)],
            from: vec![with; SHAPE.cells(LONGEST)],
        }
    }
}

/// The row of states that explains the samples best, and its value. Where none explains them, the row is empty, so that
/// no fare follows from it.
pub struct Decoded {
    pub row: Vec<u8>,
    pub value: f64,
}

pub fn decode(tables: &Tables, samples: &[u16], lent: &mut Lent) -> Result<Decoded, Refused> {
    let decoded = viterbi(
        &tables.lend(),
        samples,
        &mut lent.path,
        &mut lent.values,
        &mut lent.from,
    )?;
    let row = if decoded.is_possible() { decoded.path } else { &[] };
    Ok(Decoded {
        row: row.to_vec(),
        value: decoded.value,
    })
}

/// A stretch of one state in a row of states.
#[derive(Debug, PartialEq, Eq)]
pub struct Run {
    pub state: usize,
    pub length: usize,
}

pub fn runs(row: &[u8]) -> Vec<Run> {
    row.chunk_by(|a, b| a == b)
        .map(|run| Run {
            state: usize::from(run[0]),
            length: run.len(),
        })
        .collect()
}

/// Every unbroken run of a body pays that body's fare, once.
pub fn fares(row: &[u8]) -> Vec<Fare> {
    runs(row).iter().filter_map(|run| ALL[run.state].fare).collect()
}

#[cfg(test)]
mod tests {
    use super::*;
    use crate::model::INITIAL;

    #[test]
    fn nothing_follows_from_samples_that_no_row_explains() {
        let mut tables = Tables::of_the_gate();
        tables.entries[INITIAL].fill(f64::NEG_INFINITY);
        let decoded = decode(&tables, &[0, 127, 0], &mut Lent::filled(4)).unwrap();
        assert_eq!((decoded.row.len(), decoded.value), (0, f64::NEG_INFINITY));
        assert_eq!(fares(&decoded.row), []);
    }

    #[test]
    fn each_body_pays_once() {
        let row = [0, 3, 4, 4, 4, 3, 4, 4, 0, 11, 11, 0];
        assert_eq!(fares(&row), [Fare::Adult, Fare::Adult]);
        assert_eq!(fares(&[0, 0, 11]), []);
        assert_eq!(runs(&[]), []);
    }
}
