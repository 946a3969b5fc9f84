//! Random models and samples of every size and kind of entry.

use crate::random::Random;
use reference::model::{MOST_SAMPLES, MOST_STATES, MOST_SYMBOLS};
use reference::{Model, Shape};

/// A model and its samples, owned, and the index that `rival` is lent with them.
#[derive(Clone, Debug)]
pub struct Case {
    pub shape: Shape,
    pub transition: Vec<f64>,
    pub emission: Vec<f64>,
    pub initial: Vec<f64>,
    pub end: Vec<f64>,
    pub samples: Vec<u16>,
    pub index: usize,
}

impl Case {
    pub fn model(&self) -> Model<'_> {
        Model {
            shape: self.shape,
            transition: &self.transition,
            emission: &self.emission,
            initial: &self.initial,
            end: &self.end,
        }
    }

    /// The tables to change, by number.
    pub fn tables_mut(&mut self) -> [&mut Vec<f64>; 4] {
        [
            &mut self.transition,
            &mut self.emission,
            &mut self.initial,
            &mut self.end,
        ]
    }

    /// The same without an end state.
    pub fn without_end_state(&self) -> Case {
        let mut without = self.clone();
        without.shape.ends = false;
        without.end.fill(0.0);
        without
    }

    /// The same with another index.
    pub fn at(&self, index: usize) -> Case {
        Case { index, ..self.clone() }
    }

    /// The samples as bio takes them.
    pub fn wide_samples(&self) -> Vec<usize> {
        self.samples.iter().map(|sample| usize::from(*sample)).collect()
    }
}

/// What the entries of a table are drawn from.
#[derive(Clone, Copy, Debug, PartialEq)]
pub enum Kind {
    /// From -50 to 0.
    Ordinary,
    /// Rows that are probability distributions.
    Normalised,
    /// A few whole numbers, so that sums tie.
    Ties,
    /// Half of them minus infinity.
    Sparse,
    /// Zeros of both signs.
    Zeros,
    /// Subnormal numbers and zeros.
    Subnormal,
    /// Near -1e308, so that sums overflow to minus infinity.
    Huge,
    /// Each entry of another kind.
    Mixed,
}

/// Every kind.
pub const KINDS: [Kind; 8] = [
    Kind::Ordinary,
    Kind::Normalised,
    Kind::Ties,
    Kind::Sparse,
    Kind::Zeros,
    Kind::Subnormal,
    Kind::Huge,
    Kind::Mixed,
];

/// Sizes of a case.
#[derive(Clone, Copy, Debug)]
pub struct Sizes {
    pub states: usize,
    pub symbols: usize,
    pub samples: usize,
}

impl Sizes {
    /// The numberth sizes of a sweep: 64 in a row have every number of states and 256 every number of symbols; the
    /// number of samples is spread over all magnitudes that keep S·S·T within the work.
    pub fn sweep(number: usize, work: usize, random: &mut Random) -> Sizes {
        let states = 1 + number % MOST_STATES;
        let most = (work / (states * states)).min(MOST_SAMPLES);
        let samples = if random.once_in(8) {
            random.below(4)
        } else {
            ((most as f64 + 1.0).powf(random.unit())) as usize
        };
        Sizes {
            states,
            symbols: 1 + number * 37 % MOST_SYMBOLS,
            samples: samples.min(most),
        }
    }
}

/// A case of these sizes whose tables are of random kinds.
pub fn any(sizes: Sizes, random: &mut Random) -> Case {
    // One in four models mixes the kinds of its tables.
    let one = random.pick(&KINDS);
    let mix = random.once_in(4);
    let kinds = [0; 4].map(|_| if mix { random.pick(&KINDS) } else { one });
    of_kinds(sizes, kinds, random)
}

/// A case of these sizes with entries from -50 to 0 alone.
pub fn ordinary(sizes: Sizes, random: &mut Random) -> Case {
    of_kinds(sizes, [Kind::Ordinary; 4], random)
}

/// A case of these sizes with tables of these kinds, at index 0.
pub fn of_kinds(sizes: Sizes, kinds: [Kind; 4], random: &mut Random) -> Case {
    let Sizes { states, symbols, .. } = sizes;
    let ends = random.once_in(2);
    Case {
        shape: Shape { states, symbols, ends },
        transition: table(states, states, kinds[0], random),
        emission: table(states, symbols, kinds[1], random),
        initial: table(1, states, kinds[2], random),
        end: if ends {
            table(1, states, kinds[3], random)
        } else {
            vec![0.0; states]
        },
        samples: samples(sizes, random),
        index: 0,
    }
}

/// Samples of all symbols, or of a few, so that symbols are absent and rows repeat.
fn samples(sizes: Sizes, random: &mut Random) -> Vec<u16> {
    let few = [1, 2, 3, 7, sizes.symbols];
    let used = random.pick(&few).min(sizes.symbols);
    let first = random.below(sizes.symbols - used + 1);
    (0..sizes.samples)
        .map(|_| (first + random.below(used)) as u16)
        .collect()
}

fn table(rows: usize, columns: usize, kind: Kind, random: &mut Random) -> Vec<f64> {
    if kind == Kind::Normalised {
        return (0..rows).flat_map(|_| distribution(columns, random)).collect();
    }
    (0..rows * columns).map(|_| entry(kind, random)).collect()
}

/// The logarithms of random weights that add up to 1.
fn distribution(length: usize, random: &mut Random) -> Vec<f64> {
    let weights: Vec<f64> = (0..length).map(|_| random.unit() + 1e-9).collect();
    let sum: f64 = weights.iter().sum();
    weights.iter().map(|weight| (weight / sum).ln().min(0.0)).collect()
}

fn entry(kind: Kind, random: &mut Random) -> f64 {
    match kind {
        Kind::Ordinary | Kind::Normalised => -50.0 * random.unit(),
        Kind::Ties => -(random.below(3) as f64),
        Kind::Sparse => {
            if random.once_in(2) {
                f64::NEG_INFINITY
            } else {
                -4.0 * random.unit()
            }
        }
        Kind::Zeros => random.pick(&[0.0, -0.0]),
        Kind::Subnormal => {
            let digits = random.below(53);
            let subnormal = f64::from_bits(random.bits() >> (63 - digits) >> 1);
            random.pick(&[0.0, -0.0, -subnormal])
        }
        Kind::Huge => random.pick(&[-1e308, -0.9e308, -1.2e308, -f64::MAX, -1e300]) * (0.5 + 0.5 * random.unit()),
        Kind::Mixed => {
            let kind = random.pick(&KINDS[..7]);
            entry(kind, random)
        }
    }
}
