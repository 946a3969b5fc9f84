//! Why a call was refused, and where.

use crate::interface::Answer;
use core::fmt;

/// The cause of a refusal, with its number in docs/RULES.md, section 3.2. No call gives 12.
#[non_exhaustive]
#[repr(u8)]
#[derive(Clone, Copy, Debug, PartialEq, Eq, Hash)]
pub enum Refusal {
    /// The number of states is 0 or above 64.
    BadStates = 1,
    /// The number of symbols is 0 or above 256.
    BadSymbols = 2,
    /// There are more than 4,096 samples.
    TooManySamples = 3,
    /// There is no sample, and the call needs one.
    NoSamples = 4,
    /// A model table has a wrong length.
    WrongLength = 5,
    /// An output or scratch is too short.
    OutputTooShort = 6,
    /// An entry is NaN or above 0, an end entry is not +0.0 where there is no end state, or an argument is outside its
    /// domain.
    NotGood = 7,
    /// A sample is no symbol of the model.
    UnknownSymbol = 8,
    /// A training pass meets zero mass.
    ZeroMass = 9,
    /// A difference of probabilities would be below zero.
    NegativeDifference = 10,
    /// A value is further above 0 than the epsilon, or one of them is NaN.
    Overshoot = 11,
    /// A model file has another layout than its shape demands.
    BadLayout = 13,
    /// A sum in a model file is not that of its table.
    BadSum = 14,
    /// Every path with another state at the index is impossible.
    NoRival = 15,
    /// There is no sample at the index.
    BadIndex = 16,
}

impl Refusal {
    /// The number of the rules.
    ///
    /// ```
    /// assert_eq!(wasnugram::Refusal::NotGood.number(), 7);
    /// ```
    pub const fn number(self) -> u8 {
        self as u8
    }

    /// The refusal with this number; none for 0, which is done, and for numbers that no rule has.
    ///
    /// ```
    /// use wasnugram::Refusal;
    ///
    /// assert_eq!(Refusal::from_number(8), Some(Refusal::UnknownSymbol));
    /// assert_eq!(Refusal::from_number(0), None);
    /// ```
    pub const fn from_number(number: u8) -> Option<Refusal> {
        Some(match number {
            1 => Refusal::BadStates,
            2 => Refusal::BadSymbols,
            3 => Refusal::TooManySamples,
            4 => Refusal::NoSamples,
            5 => Refusal::WrongLength,
            6 => Refusal::OutputTooShort,
            7 => Refusal::NotGood,
            8 => Refusal::UnknownSymbol,
            9 => Refusal::ZeroMass,
            10 => Refusal::NegativeDifference,
            11 => Refusal::Overshoot,
            13 => Refusal::BadLayout,
            14 => Refusal::BadSum,
            15 => Refusal::NoRival,
            16 => Refusal::BadIndex,
            _ => return None,
        })
    }
}

/// What was lent, by its number: tables 0 to 3, the samples 4, the outputs from 5 in the order of the arguments. The
/// reader of a model file is lent the file as number 5, and its outputs follow.
#[derive(Clone, Copy, Debug, PartialEq, Eq, Hash)]
pub enum Table {
    /// Table 0.
    Transition,
    /// Table 1.
    Emission,
    /// Table 2.
    Initial,
    /// Table 3.
    End,
    /// Number 4.
    Samples,
    /// An output, with its number.
    Output(u8),
}

impl Table {
    /// The number of the rules.
    ///
    /// ```
    /// assert_eq!(wasnugram::Table::Emission.number(), 1);
    /// ```
    pub const fn number(self) -> u8 {
        match self {
            Table::Transition => 0,
            Table::Emission => 1,
            Table::Initial => 2,
            Table::End => 3,
            Table::Samples => 4,
            Table::Output(number) => number,
        }
    }

    /// What was lent with this number.
    ///
    /// ```
    /// use wasnugram::Table;
    ///
    /// assert_eq!([Table::from_number(3), Table::from_number(5)], [Table::End, Table::Output(5)]);
    /// ```
    pub const fn from_number(number: u8) -> Table {
        match number {
            0 => Table::Transition,
            1 => Table::Emission,
            2 => Table::Initial,
            3 => Table::End,
            4 => Table::Samples,
            output => Table::Output(output),
        }
    }
}

impl fmt::Display for Table {
    fn fmt(&self, f: &mut fmt::Formatter<'_>) -> fmt::Result {
        match self {
            Table::Transition => f.write_str("the transition table"),
            Table::Emission => f.write_str("the emission table"),
            Table::Initial => f.write_str("the initial table"),
            Table::End => f.write_str("the end table"),
            Table::Samples => f.write_str("the samples"),
            Table::Output(number) => write!(f, "output {number}"),
        }
    }
}

/// A refusal, the table it speaks of, if any, and the place.
///
/// The place is the first index that is at fault, or the length where lengths are (5 and 6), or the number of states,
/// symbols or samples (1, 2 and 3), or the state without mass, S for the whole (9), or the first wrong byte of a model
/// file, the shorter length where bytes are missing or left over (13), or 0 (14, 15 and 16); in a sum or a kernel it is
/// the argument's number from 0, or the index in the slice.
///
/// ```
/// use wasnugram::{Refusal, Refused, Table};
///
/// let flipped = Refused { refusal: Refusal::NotGood, table: Some(Table::Emission), place: 1151 };
/// assert_eq!(flipped.to_string(), "refusal 7 (NotGood): entry 1151 of the emission table is not good");
/// let short = Refused { refusal: Refusal::OutputTooShort, table: Some(Table::Output(5)), place: 2 };
/// assert_eq!(short.to_string(), "refusal 6 (OutputTooShort): output 5 has length 2, which is too short");
/// ```
#[derive(Clone, Copy, Debug, PartialEq, Eq, Hash)]
pub struct Refused {
    /// The cause.
    pub refusal: Refusal,
    /// What was lent and is at fault, or which table of a model file is; none for a number, a state, an argument, the
    /// file's layout, or where a rival was asked for in vain.
    pub table: Option<Table>,
    /// Where.
    pub place: usize,
}

impl Refused {
    /// A call on a model or a file names a table in every refusal but those of sizes, of mass, of the file's layout and of
    /// a rival.
    pub(crate) fn of_model(answer: Answer) -> Refused {
        let refused = Refused::of_leaf(answer);
        match refused.refusal {
            Refusal::BadStates | Refusal::BadSymbols | Refusal::ZeroMass | Refusal::BadLayout => refused,
            Refusal::NoRival | Refusal::BadIndex => refused,
            _ => Refused {
                table: Some(Table::from_number(answer.table)),
                ..refused
            },
        }
    }

    /// A leaf has one table, its output.
    pub(crate) fn of_leaf(answer: Answer) -> Refused {
        let refusal = Refusal::from_number(answer.refusal).expect("wrapper and archive are of one version");
        Refused {
            refusal,
            table: (refusal == Refusal::OutputTooShort).then(|| Table::from_number(answer.table)),
            place: answer.place,
        }
    }

    /// What is at fault, in words. A place without a table is one of the arguments.
    fn fault(&self, f: &mut fmt::Formatter<'_>) -> fmt::Result {
        let place = self.place;
        match (self.refusal, self.table) {
            (Refusal::BadStates, _) => write!(f, "{place} states, and a model has 1 to 64"),
            (Refusal::BadSymbols, _) => write!(f, "{place} symbols, and a model has 1 to 256"),
            (Refusal::TooManySamples, _) => write!(f, "{place} samples, and a call takes at most 4096"),
            (Refusal::NoSamples, _) => write!(f, "no samples, and the call needs one"),
            (Refusal::WrongLength, Some(table)) => write!(f, "{table} has length {place}, which is wrong"),
            (Refusal::OutputTooShort, Some(table)) => write!(f, "{table} has length {place}, which is too short"),
            (Refusal::NotGood, Some(table)) => write!(f, "entry {place} of {table} is not good"),
            (Refusal::UnknownSymbol, _) => write!(f, "sample {place} is no symbol of the model"),
            (Refusal::ZeroMass, _) => write!(f, "no mass at place {place}: a state, or their number for the whole"),
            (Refusal::NegativeDifference, _) => write!(f, "the difference is below zero"),
            (Refusal::Overshoot, _) => write!(f, "a value too far above zero, or NaN"),
            (Refusal::BadLayout, _) => write!(f, "the model file is wrong from byte {place} on, or ends there"),
            (Refusal::BadSum, Some(table)) => write!(f, "the sum of {table} in the model file is wrong"),
            (Refusal::NoRival, _) => write!(f, "every path with another state at the index is impossible"),
            (Refusal::BadIndex, _) => write!(f, "there is no sample at the index"),
            (_, None) => write!(f, "place {place} of the arguments is NaN or outside its domain"),
        }
    }
}

impl fmt::Display for Refused {
    fn fmt(&self, f: &mut fmt::Formatter<'_>) -> fmt::Result {
        write!(f, "refusal {} ({:?}): ", self.refusal.number(), self.refusal)?;
        self.fault(f)
    }
}

impl core::error::Error for Refused {}
