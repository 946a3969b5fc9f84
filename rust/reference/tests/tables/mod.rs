//! Models for the tests by hand, each in memory of its own.

use reference::{Model, Shape};

pub struct Tables {
    pub ends: bool,
    pub transition: Vec<f64>,
    pub emission: Vec<f64>,
    pub initial: Vec<f64>,
    pub end: Vec<f64>,
}

impl Tables {
    pub fn model(&self) -> Model<'_> {
        Model {
            shape: Shape {
                states: self.initial.len(),
                symbols: self.emission.len() / self.initial.len(),
                ends: self.ends,
            },
            transition: &self.transition,
            emission: &self.emission,
            initial: &self.initial,
            end: &self.end,
        }
    }
}

/// Model P of RULES 9.
pub fn model_p() -> Tables {
    Tables {
        transition: vec![-1.0, -2.0, -2.0, -1.0],
        emission: vec![-1.0, -3.0, -3.0, -1.0],
        initial: vec![-1.0, -2.0],
        ..all_zero(2, 2)
    }
}

/// So many states and symbols, and every entry +0.0: all paths tie.
pub fn all_zero(states: usize, symbols: usize) -> Tables {
    Tables {
        ends: false,
        transition: vec![0.0; states * states],
        emission: vec![0.0; states * symbols],
        initial: vec![0.0; states],
        end: vec![0.0; states],
    }
}
