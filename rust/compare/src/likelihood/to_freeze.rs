//! The models of the frozen list.

use super::{HALF, LESS_THAN_HALF, MINUS, MODEL_A};
use crate::case::Case;
use crate::sketch::Sketch;

/// -2^53, where f64 are 1 apart above and 2 below; and -2^60, where they are more than 100 apart.
const STEP_OF_ONE: f64 = -9007199254740992.0;
const STEP_OF_MANY: f64 = -1152921504606846976.0;

/// Model A, and others whose likelihood equals the best path's value or is close to it.
const SKETCHES: [Sketch; 13] = [
    MODEL_A,
    // The same with an end state; and on more samples, where backward rounds further away.
    Sketch {
        end: Some(&[-HALF]),
        ..MODEL_A
    },
    Sketch {
        samples: &[0; 6],
        ..MODEL_A
    },
    // The same beside the greatest f64: backward overflows to minus infinity, and there is a path.
    Sketch {
        initial: &[-f64::MAX],
        transition: &[-LESS_THAN_HALF],
        emission: &[-LESS_THAN_HALF],
        end: None,
        samples: &[0, 0],
    },
    // Zeros of other signs are equal: Viterbi's value is -0.0, and forward's answer +0.0.
    Sketch {
        initial: &[-0.0],
        transition: &[-0.0],
        emission: &[-0.0],
        end: None,
        samples: &[0, 0],
    },
    // Both are minus infinity: nothing leads on; a sum overflows; there is no way out.
    Sketch {
        initial: &[-1.0],
        transition: &[MINUS],
        emission: &[-1.0],
        end: None,
        samples: &[0, 0],
    },
    Sketch {
        initial: &[-1e308],
        transition: &[-1e308],
        emission: &[-1.0],
        end: None,
        samples: &[0, 0],
    },
    Sketch {
        initial: &[-1.0, -2.0],
        transition: &[-1.0, -2.0, -2.0, -1.0],
        emission: &[-1.0, -1.0],
        end: Some(&[MINUS, MINUS]),
        samples: &[0, 0],
    },
    // One path alone, through three states to the end.
    Sketch {
        initial: &[-1.0, MINUS, MINUS],
        transition: &[MINUS, -HALF, MINUS, MINUS, MINUS, -HALF, -HALF, MINUS, MINUS],
        emission: &[-HALF, -HALF, -HALF],
        end: Some(&[MINUS, MINUS, -HALF]),
        samples: &[0, 0, 0],
    },
    // Two paths: the other is by 21 behind, and is lost in ln; by 20, and is not.
    Sketch {
        initial: &[-1.0, -22.0],
        transition: &[-0.0, MINUS, MINUS, -0.0],
        emission: &[-HALF, -HALF],
        end: None,
        samples: &[0, 0],
    },
    Sketch {
        initial: &[-1.0, -21.0],
        transition: &[-0.0, MINUS, MINUS, -0.0],
        emission: &[-HALF, -HALF],
        end: None,
        samples: &[0, 0],
    },
    // All paths are alike: their number is lost in rounding, or rounded up to whole steps.
    Sketch {
        initial: &[STEP_OF_MANY; 2],
        transition: &[0.0; 4],
        emission: &[-0.0; 2],
        end: None,
        samples: &[0, 0],
    },
    Sketch {
        initial: &[STEP_OF_ONE; 2],
        transition: &[0.0; 4],
        emission: &[-0.0; 2],
        end: Some(&[0.0; 2]),
        samples: &[0, 0],
    },
];

/// Good models on samples: A first.
pub fn to_freeze() -> impl Iterator<Item = Case> {
    SKETCHES.into_iter().map(|sketch| sketch.case())
}
