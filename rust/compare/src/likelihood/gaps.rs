//! How far likelihoods are above best paths, over many models.

use super::{Walks, MINUS};

/// The gaps of many pairs of a likelihood and a best path's value.
#[derive(Clone, Copy, Debug, PartialEq)]
pub struct Gaps {
    pub pairs: u64,
    /// Pairs of equal numbers, and how many of them are minus infinity.
    pub equal: u64,
    pub impossible: u64,
    /// The least gap, the least one above 0 and the greatest; infinite as long as there is none.
    pub least: f64,
    pub least_above: f64,
    pub greatest: f64,
}

/// How often backward's answer is below the best path's value, and how often it is minus infinity then. Where it is not: by
/// how much at most, and by which part of that value.
#[derive(Clone, Copy, Debug, Default, PartialEq)]
pub struct Below {
    pub times: u64,
    pub impossible: u64,
    pub most: f64,
    pub most_of_the_value: f64,
}

/// The gaps of the answers and of the cells, and backward for contrast.
#[derive(Clone, Copy, Debug, Default, PartialEq)]
pub struct Totals {
    pub answers: Gaps,
    pub cells: Gaps,
    pub backward: Below,
}

/// How far a likelihood is above: one subtraction, and 0 where both are minus infinity.
fn gap(likelihood: f64, best: f64) -> f64 {
    match likelihood == MINUS && best == MINUS {
        true => 0.0,
        false => likelihood - best,
    }
}

impl Default for Gaps {
    fn default() -> Gaps {
        Gaps {
            pairs: 0,
            equal: 0,
            impossible: 0,
            least: f64::INFINITY,
            least_above: f64::INFINITY,
            greatest: MINUS,
        }
    }
}

impl Gaps {
    fn add(&mut self, likelihood: f64, best: f64) {
        let gap = gap(likelihood, best);
        self.pairs += 1;
        self.equal += u64::from(likelihood == best);
        self.impossible += u64::from(likelihood == MINUS && best == MINUS);
        self.least = self.least.min(gap);
        self.greatest = self.greatest.max(gap);
        if gap > 0.0 {
            self.least_above = self.least_above.min(gap);
        }
    }

    /// Its lines of the summary.
    fn lines(&self, of: &'static str) -> [(&'static str, String); 6] {
        [
            (of, self.pairs.to_string()),
            ("  equal", self.equal.to_string()),
            ("  both minus infinity", self.impossible.to_string()),
            ("  least gap", shown(self.least)),
            ("  least gap above 0", shown(self.least_above)),
            ("  greatest gap", shown(self.greatest)),
        ]
    }
}

impl Below {
    fn add(&mut self, backward: f64, best: f64) {
        self.times += u64::from(backward < best);
        if backward < best && backward > MINUS {
            self.most = self.most.max(best - backward);
            self.most_of_the_value = self.most_of_the_value.max((best - backward) / -best);
        } else if backward < best {
            self.impossible += 1;
        }
    }

    /// Its lines of the summary.
    fn lines(&self) -> [(&'static str, String); 4] {
        [
            ("backward below the best path", self.times.to_string()),
            ("  minus infinity beside a path", self.impossible.to_string()),
            ("  else by at most", shown(self.most)),
            ("  and by this part of the value", shown(self.most_of_the_value)),
        ]
    }
}

impl Totals {
    /// Adds what one model's walks gave, if there is a likelihood.
    pub fn add(&mut self, walks: &Walks) {
        if !walks.is_told() {
            return;
        }
        let [likelihood, best, backward] = walks.answers();
        self.answers.add(likelihood, best);
        self.backward.add(backward, best);
        walks.cells().for_each(|(cell, best)| self.cells.add(cell, best));
    }

    /// All lines of the summary.
    fn lines(&self) -> Vec<(&'static str, String)> {
        let [answers, cells] = [self.answers.lines("answers"), self.cells.lines("cells")];
        answers.into_iter().chain(cells).chain(self.backward.lines()).collect()
    }
}

/// The totals of each of those who took part, by name.
#[derive(Default)]
pub struct Summary {
    totals: Vec<(&'static str, Totals)>,
}

impl Summary {
    /// Adds what somebody's walks on one model gave.
    pub fn add(&mut self, name: &'static str, walks: &Walks) {
        let known = self.totals.iter().position(|(known, _)| *known == name);
        let place = known.unwrap_or_else(|| {
            self.totals.push((name, Totals::default()));
            self.totals.len() - 1
        });
        self.totals[place].1.add(walks);
    }

    /// Somebody's totals.
    pub fn of(&self, name: &str) -> Option<Totals> {
        let found = self.totals.iter().find(|(known, _)| *known == name);
        found.map(|(_, totals)| *totals)
    }

    /// Prints a column for each of those who took part.
    pub fn print(&self) {
        let names: String = self.totals.iter().map(|(name, _)| column(name)).collect();
        println!("{:<40}{names}", "likelihood beside the best path");
        let lines: Vec<Vec<(&str, String)>> = self.totals.iter().map(|(_, totals)| totals.lines()).collect();
        for (row, (text, _)) in lines.first().into_iter().flatten().enumerate() {
            let cells: String = lines.iter().map(|lines| column(&lines[row].1)).collect();
            println!("{text:<40}{cells}");
        }
    }
}

/// A gap with all of its digits.
fn shown(gap: f64) -> String {
    match gap == 0.0 {
        true => "0".to_string(),
        false => format!("{gap:e}"),
    }
}

fn column(text: &str) -> String {
    format!(" {text:>24}")
}
