//! What every call hands back (RULES 3.1): which refusal, which table, the place in it, and a value.

/// The refusal numbers of RULES 3.2; 0 is done, and no call gives 12.
pub const DONE: u8 = 0;
pub const BAD_STATES: u8 = 1;
pub const BAD_SYMBOLS: u8 = 2;
pub const TOO_MANY_SAMPLES: u8 = 3;
pub const NO_SAMPLES: u8 = 4;
pub const WRONG_LENGTH: u8 = 5;
pub const OUTPUT_TOO_SHORT: u8 = 6;
pub const NOT_GOOD: u8 = 7;
pub const UNKNOWN_SYMBOL: u8 = 8;
pub const ZERO_MASS: u8 = 9;
pub const NEGATIVE_DIFFERENCE: u8 = 10;
pub const OVERSHOOT: u8 = 11;
pub const BAD_LAYOUT: u8 = 13;
pub const BAD_SUM: u8 = 14;
pub const NO_RIVAL: u8 = 15;
pub const BAD_INDEX: u8 = 16;

/// The numbers of what is lent; what else a call is lent is numbered from 5 in the order of the arguments.
pub const TRANSITION: u8 = 0;
pub const EMISSION: u8 = 1;
pub const INITIAL: u8 = 2;
pub const END: u8 = 3;
pub const SAMPLES: u8 = 4;
pub const FIRST_OUTPUT: u8 = 5;

/// An answer by value. On a refusal the value is minus infinity.
#[derive(Clone, Copy, Debug)]
pub struct Answer {
    pub refusal: u8,
    pub table: u8,
    pub place: usize,
    pub value: f64,
}

impl Answer {
    /// Done, with this value.
    pub fn done(value: f64) -> Answer {
        Answer {
            refusal: DONE,
            table: 0,
            place: 0,
            value,
        }
    }

    /// Refused, naming a table and a place in it.
    pub fn refused(refusal: u8, table: u8, place: usize) -> Answer {
        Answer {
            refusal,
            table,
            place,
            value: f64::NEG_INFINITY,
        }
    }

    /// Equal to the last bit, the sign of a zero included.
    pub fn same_bits(&self, other: &Answer) -> bool {
        self.refusal == other.refusal
            && self.table == other.table
            && self.place == other.place
            && self.value.to_bits() == other.value.to_bits()
    }
}
