//! The words that the printed report and the picture share.

use crate::decode::runs;
use crate::flip::{Flip, Outcome};
use crate::model::{columns, EMISSION, NAMES, TRANSITION};
use crate::rivals::Rival;
use crate::states::{Fare, ALL, BARRIERS, HEIGHTS};
use wasnugram::Refusal;

/// A row of states in run lengths; an empty one stands for samples that no row explains.
pub fn row(row: &[u8]) -> String {
    if row.is_empty() {
        return "none explains the samples".to_string();
    }
    let runs = runs(row);
    let words = runs.iter().map(|run| format!("{}×{}", ALL[run.state].name, run.length));
    words.collect::<Vec<String>>().join(" ")
}

/// The last state of a row.
pub fn last(row: &[u8]) -> &'static str {
    row.last().map_or("none", |state| ALL[usize::from(*state)].name)
}

pub fn fares(fares: &[Fare]) -> String {
    if fares.is_empty() {
        return "none".to_string();
    }
    let names: Vec<&str> = fares.iter().map(|fare| fare.name()).collect();
    names.join(" + ")
}

/// What a margin says: it is a difference of natural logarithms of probabilities.
pub const MARGIN: &str = "at margin 0.42 the best row is e^0.42 = 1.52 times as likely as the rival, under this model";

/// Where no rival pays another fare.
pub const NOTHING_ELSE: &str = "nothing else: no rival pays another fare";

/// How far a rival is behind, and at which sample. Samples are counted from 0.
pub fn margin(rival: &Rival) -> String {
    format!("margin {:.2} at sample {}", rival.margin, rival.sample)
}

/// A rival's state at its sample, and that of the best row.
pub fn in_place(rival: &Rival) -> String {
    format!("{}, not {}", ALL[rival.state()].name, ALL[rival.chosen].name)
}

/// A barrier by its number and its height above the ground.
pub fn barrier(barrier: usize) -> String {
    let height = HEIGHTS[barrier];
    format!("{barrier}: {}.{:02} m", height / 1000, height / 10 % 100)
}

/// At most so many letters, the last of them three dots where more were cut off.
pub fn cut(words: &str, most: usize) -> String {
    if words.chars().count() <= most {
        return words.to_string();
    }
    words.chars().take(most - 1).chain(['…']).collect()
}

/// A whole number with a comma before every three digits.
pub fn grouped(number: usize) -> String {
    if number < 1000 {
        return number.to_string();
    }
    format!("{},{:03}", grouped(number / 1000), number % 1000)
}

/// The row and the column of a place in a table of the model.
pub fn place(table: usize, place: usize) -> String {
    let (row, column) = (place / columns(table), place % columns(table));
    match table {
        EMISSION => format!("row {row} ({}), column {column} ({column:0BARRIERS$b})", ALL[row].name),
        TRANSITION => format!("row {row} ({}), column {column} ({})", ALL[row].name, ALL[column].name),
        _ => format!("column {column} ({})", ALL[column].name),
    }
}

pub fn flip(flip: Flip) -> String {
    format!(
        "bit {} of {}, {}",
        flip.bit,
        NAMES[flip.table],
        place(flip.table, flip.place)
    )
}

pub fn answer(outcome: &Outcome) -> String {
    let Some(refused) = outcome.refused else {
        return "decoded".to_string();
    };
    let Some(table) = refused.table.map(|table| usize::from(table.number())) else {
        return refused.to_string();
    };
    let (number, name) = (refused.refusal.number(), NAMES[table]);
    match refused.refusal {
        Refusal::BadSum => format!("refusal {number}, table {table} ({name}): its sum is not that of its entries"),
        _ => format!(
            "refusal {number}, table {table} ({name}), place {}: {}",
            refused.place,
            place(table, refused.place)
        ),
    }
}

/// What the reader finds wrong with a file that it refuses with this number.
pub fn refusal(number: u8) -> &'static str {
    match Refusal::from_number(number) {
        Some(Refusal::BadStates) => "a model has 1 to 64 states",
        Some(Refusal::BadSymbols) => "a model has 1 to 256 symbols",
        Some(Refusal::BadLayout) => "the layout is not that of the shape",
        Some(Refusal::BadSum) => "a sum is not that of its table",
        Some(Refusal::NotGood) => "an entry is not good",
        _ => "answered otherwise",
    }
}

/// What became of the lent memory where nothing should have been done.
pub fn memory(outcome: &Outcome, done: &str) -> String {
    if outcome.untouched {
        format!("nothing was {done}: no byte that was lent has changed")
    } else {
        "lent bytes have changed".to_string()
    }
}

#[cfg(test)]
mod tests {
    use super::*;

    #[test]
    fn numbers_are_grouped_by_three() {
        assert_eq!(grouped(999), "999");
        assert_eq!(grouped(207360), "207,360");
        assert_eq!(grouped(1_002_003), "1,002,003");
    }

    #[test]
    fn barriers_have_a_number_and_a_height() {
        assert_eq!(barrier(0), "0: 0.08 m");
        assert_eq!(barrier(7), "7: 1.85 m");
    }

    #[test]
    fn long_words_are_cut() {
        assert_eq!(cut("schön", 5), "schön");
        assert_eq!(cut("schöner", 5), "schö…");
    }

    #[test]
    fn places_have_a_row_and_a_column() {
        assert_eq!(place(0, 13), "row 1 (child-step), column 1 (child-step)");
        assert_eq!(place(1, 1151), "row 4 (adult), column 127 (01111111)");
        assert_eq!(place(2, 11), "column 11 (dog)");
    }

    #[test]
    fn an_empty_row_says_what_it_is() {
        assert_eq!(row(&[0, 0, 4]), "empty×2 adult×1");
        assert_eq!(row(&[]), "none explains the samples");
        assert_eq!((last(&[0, 0, 4]), last(&[])), ("adult", "none"));
    }

    #[test]
    fn a_rival_has_its_margin_its_sample_and_two_states() {
        let rival = Rival {
            sample: 2,
            chosen: 3,
            row: vec![0, 3, 4, 3],
            margin: 0.4249,
        };
        assert_eq!(margin(&rival), "margin 0.42 at sample 2");
        assert_eq!(in_place(&rival), "adult, not adult-step");
    }

    #[test]
    fn a_margin_is_the_logarithm_of_a_ratio() {
        let ratio = format!("at margin 0.42 the best row is e^0.42 = {:.2} times", 0.42_f64.exp());
        assert!(MARGIN.starts_with(&ratio), "{ratio}");
    }

    #[test]
    fn fares_are_joined() {
        assert_eq!(fares(&[Fare::Adult, Fare::Child]), "adult + child");
        assert_eq!(fares(&[]), "none");
    }
}
