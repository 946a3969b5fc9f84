//! Counts what was compared and prints the summary.

use crate::verdict::{Intended, Verdict};
use std::collections::BTreeMap;

/// The refusal numbers that a call on a model or on its file may answer, 0 for done.
const ANSWERS: [usize; 14] = [0, 1, 2, 3, 4, 5, 6, 7, 8, 9, 13, 14, 15, 16];

#[derive(Default)]
struct Row {
    cases: u64,
    numbers: u64,
    wrong: u64,
}

/// The rows of the summary, in the order in which they were first met, and counts of what was met.
#[derive(Default)]
pub struct Tally {
    names: Vec<String>,
    rows: BTreeMap<String, Row>,
    intended: BTreeMap<Intended, u64>,
    refusals: BTreeMap<&'static str, [u64; 17]>,
}

impl Tally {
    /// Adds a verdict to a row; true where it is the row's first difference that is not intended.
    pub fn add(&mut self, name: &str, verdict: &Verdict) -> bool {
        if !self.rows.contains_key(name) {
            self.names.push(name.to_string());
        }
        let row = self.rows.entry(name.to_string()).or_default();
        row.cases += 1;
        row.numbers += verdict.numbers;
        row.wrong += u64::from(verdict.wrong.is_some());
        for difference in &verdict.intended {
            *self.intended.entry(*difference).or_default() += 1;
        }
        verdict.wrong.is_some() && row.wrong == 1
    }

    /// Counts an answer of a call by its refusal number.
    pub fn answered(&mut self, call: &'static str, refusal: u8) {
        self.refusals.entry(call).or_default()[usize::from(refusal)] += 1;
    }

    /// How many cases differ in a way that is not intended.
    pub fn wrong(&self) -> u64 {
        self.rows.values().map(|row| row.wrong).sum()
    }

    pub fn print(&self) {
        println!(
            "{:<58} {:>10} {:>14} {:>12}",
            "compared", "cases", "numbers", "differences"
        );
        for name in &self.names {
            let row = &self.rows[name];
            println!("{:<58} {:>10} {:>14} {:>12}", name, row.cases, row.numbers, row.wrong);
        }
        println!();
        println!("{:<84} {:>12}", "intended differences met", "cases");
        for (difference, cases) in &self.intended {
            println!("{:<84} {:>12}", difference.text(), cases);
        }
        println!();
        self.print_refusals();
    }

    fn print_refusals(&self) {
        print!("{:<12}", "answers");
        ANSWERS
            .iter()
            .for_each(|refusal| print!(" {:>8}", format!("no. {refusal}")));
        println!();
        for (call, counts) in &self.refusals {
            print!("{call:<12}");
            ANSWERS.iter().for_each(|refusal| print!(" {:>8}", counts[*refusal]));
            println!();
        }
    }
}
