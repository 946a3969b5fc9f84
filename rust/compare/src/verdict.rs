//! What one comparison found.

use crate::engine::Given;
use crate::lent::Output;
use reference::{Answer, Shape};

/// The differences from bio that are meant to be, as docs/DIFFERENCES.md lists them.
#[derive(Clone, Copy, Debug, PartialEq, Eq, PartialOrd, Ord)]
pub enum Intended {
    EndEntry,
    WayOut,
    NoSamples,
    AbsentSymbols,
    Cap,
    ZeroMassPanics,
    ZeroMassNotFinite,
    NotANumber,
    OutsideDomain,
    NotANumberEpsilon,
    NegativeDifferencePanics,
    OvershootPanics,
}

impl Intended {
    pub fn text(self) -> &'static str {
        match self {
            Intended::EndEntry => "viterbi with an end state: the end entry is in the value, which bio leaves out",
            Intended::WayOut => "viterbi with an end state: another last state than bio's, which leaves it out",
            Intended::NoSamples => "no samples in forward or a pass: 4, where bio panics",
            Intended::AbsentSymbols => "absent symbols: a column at minus infinity, which bio drops",
            Intended::Cap => "a result of a pass above 0: stored as 0.0, which bio leaves",
            Intended::ZeroMassPanics => "zero mass in a pass: 9, where bio panics",
            Intended::ZeroMassNotFinite => "zero mass in a pass: 9, where bio gives NaN or +inf",
            Intended::NotANumber => "NaN in a leaf: 7, where bio computes on",
            Intended::OutsideDomain => "an argument outside a kernel's domain: 7, where bio computes on or panics",
            Intended::NotANumberEpsilon => "a NaN epsilon: 11, where bio gives the value back",
            Intended::NegativeDifferencePanics => "a difference below zero: 10, where bio panics",
            Intended::OvershootPanics => "an overshoot beyond epsilon: 11, where bio panics",
        }
    }
}

/// How many numbers were compared, the intended differences met, the first one that is not intended, and the refusal
/// number that a call answered.
#[derive(Debug, Default)]
pub struct Verdict {
    pub numbers: u64,
    pub intended: Vec<Intended>,
    pub wrong: Option<String>,
    pub refusal: u8,
}

impl Verdict {
    /// An intended difference and nothing else to compare.
    pub fn only(difference: Intended) -> Verdict {
        Verdict {
            intended: vec![difference],
            ..Verdict::default()
        }
    }

    /// A difference that is not intended.
    pub fn wrong(text: String) -> Verdict {
        Verdict {
            wrong: Some(text),
            ..Verdict::default()
        }
    }

    /// Notes an intended difference, once.
    pub fn note(&mut self, difference: Intended) {
        if !self.intended.contains(&difference) {
            self.intended.push(difference);
        }
    }

    /// Compares two numbers to the last bit.
    pub fn number(&mut self, what: &str, ours: f64, theirs: f64) {
        self.whole(what, ours.to_bits(), theirs.to_bits());
    }

    /// Compares two whole numbers.
    pub fn whole(&mut self, what: &str, ours: u64, theirs: u64) {
        self.numbers += 1;
        if ours != theirs && self.wrong.is_none() {
            self.wrong = Some(format!("{what}: {ours:#018x} against {theirs:#018x}"));
        }
    }

    /// Compares two tables to the last bit.
    pub fn table(&mut self, what: &str, ours: &[f64], theirs: &[f64]) {
        self.whole(what, ours.len() as u64, theirs.len() as u64);
        for (place, (ours, theirs)) in ours.iter().zip(theirs).enumerate() {
            if ours.to_bits() == theirs.to_bits() {
                self.numbers += 1;
            } else {
                self.number(&format!("{what} at {place}"), *ours, *theirs);
            }
        }
    }

    /// Compares two numbers of which ours must be at least theirs. Zeros of either sign are equal; NaN is at least nothing,
    /// and nothing is at least NaN.
    pub fn at_least(&mut self, what: &str, ours: f64, theirs: f64) {
        self.numbers += 1;
        let is_at_least = ours >= theirs;
        if !is_at_least && self.wrong.is_none() {
            let [our_bits, their_bits] = [ours, theirs].map(f64::to_bits);
            self.wrong = Some(format!(
                "{what}: {ours:e} ({our_bits:#018x}) is not at least {theirs:e} ({their_bits:#018x})"
            ));
        }
    }

    /// The same of two tables, place by place.
    pub fn each_at_least(&mut self, what: &str, ours: &[f64], theirs: &[f64]) {
        self.whole(what, ours.len() as u64, theirs.len() as u64);
        for (place, (ours, theirs)) in ours.iter().zip(theirs).enumerate() {
            if ours >= theirs {
                self.numbers += 1;
            } else {
                self.at_least(&format!("{what} at {place}"), *ours, *theirs);
            }
        }
    }

    /// Compares two answers.
    pub fn answer(&mut self, ours: &Answer, theirs: &Answer) {
        self.whole("refusal", u64::from(ours.refusal), u64::from(theirs.refusal));
        self.whole("table", u64::from(ours.table), u64::from(theirs.table));
        self.whole("place", ours.place as u64, theirs.place as u64);
        self.number("value", ours.value, theirs.value);
    }

    /// Compares what two calls give: the answers, and what is beside them.
    pub fn given(&mut self, ours: &Given, theirs: &Given) {
        self.answer(&ours.answer, &theirs.answer);
        match (ours.beside, theirs.beside) {
            (None, None) => {}
            (Some(ours), Some(theirs)) => {
                self.whole("chosen", ours.chosen as u64, theirs.chosen as u64);
                self.number("best", ours.best, theirs.best);
            }
            _ => unreachable!("both made the same call"),
        }
    }

    /// Compares two shapes.
    pub fn shape(&mut self, ours: Shape, theirs: Shape) {
        self.whole("states", ours.states as u64, theirs.states as u64);
        self.whole("symbols", ours.symbols as u64, theirs.symbols as u64);
        self.whole("end state", u64::from(ours.ends), u64::from(theirs.ends));
    }

    /// Compares the whole of two lent outputs, surplus included.
    pub fn output(&mut self, number: u8, ours: &Output, theirs: &Output) {
        let name = format!("output {number}");
        match (ours, theirs) {
            (Output::Bytes(ours), Output::Bytes(theirs)) => self.bytes(&name, ours, theirs),
            (Output::Numbers(ours), Output::Numbers(theirs)) => self.table(&name, ours, theirs),
            _ => unreachable!("both were lent the same outputs"),
        }
    }

    /// Compares two tables of bytes.
    pub fn bytes(&mut self, what: &str, ours: &[u8], theirs: &[u8]) {
        self.numbers += ours.len() as u64;
        if ours != theirs && self.wrong.is_none() {
            self.wrong = Some(format!("{what}: {ours:?} against {theirs:?}"));
        }
    }
}
