//! Models that are written down in the source, for the frozen list.

use crate::case::Case;
use reference::Shape;

/// A model with as many states as initial entries and as many symbols as the emissions have columns, on samples. Without an
/// end table there is no end state.
pub struct Sketch {
    pub initial: &'static [f64],
    pub transition: &'static [f64],
    pub emission: &'static [f64],
    pub end: Option<&'static [f64]>,
    pub samples: &'static [u16],
}

impl Sketch {
    pub fn case(&self) -> Case {
        let states = self.initial.len();
        Case {
            shape: Shape {
                states,
                symbols: self.emission.len() / states,
                ends: self.end.is_some(),
            },
            transition: self.transition.to_vec(),
            emission: self.emission.to_vec(),
            initial: self.initial.to_vec(),
            end: self.end.map_or(vec![0.0; states], <[f64]>::to_vec),
            samples: self.samples.to_vec(),
            index: 0,
        }
    }
}
