//! The cases of the frozen list.

use super::MINUS;
use crate::case::Case;
use crate::damage::Named;
use crate::lent::Call;
use crate::sketch::Sketch;
use reference::answer::{
    BAD_INDEX, BAD_STATES, BAD_SYMBOLS, EMISSION, END, FIRST_OUTPUT, INITIAL, NOT_GOOD, NO_RIVAL, OUTPUT_TOO_SHORT,
    SAMPLES, TOO_MANY_SAMPLES, TRANSITION, UNKNOWN_SYMBOL, WRONG_LENGTH,
};

/// Models whose rivals differ from index to index, tie, or are not there. Each is frozen at every index.
const SKETCHES: [Sketch; 22] = [
    // One state alone, without an end state and with one.
    Sketch {
        initial: &[-1.0],
        transition: &[-1.0],
        emission: &[-1.0],
        end: None,
        samples: &[0, 0],
    },
    Sketch {
        initial: &[-1.0],
        transition: &[-1.0],
        emission: &[-1.0],
        end: Some(&[-1.0]),
        samples: &[0],
    },
    // All paths tie.
    Sketch {
        initial: &[0.0; 3],
        transition: &[0.0; 9],
        emission: &[0.0; 3],
        end: None,
        samples: &[0, 0, 0],
    },
    // Zeros of both signs: each value has the sign of its own path.
    Sketch {
        initial: &[0.0, -0.0, -0.0],
        transition: &[0.0; 9],
        emission: &[-0.0; 3],
        end: None,
        samples: &[0],
    },
    Sketch {
        initial: &[-0.0, 0.0, -0.0],
        transition: &[0.0; 9],
        emission: &[-0.0; 3],
        end: None,
        samples: &[0],
    },
    Sketch {
        initial: &[-0.0, -0.0],
        transition: &[0.0; 4],
        emission: &[-0.0; 2],
        end: Some(&[0.0, -0.0]),
        samples: &[0],
    },
    Sketch {
        initial: &[-0.0, 0.0],
        transition: &[-0.0, 0.0, -0.0, -0.0],
        emission: &[-0.0; 2],
        end: None,
        samples: &[0, 0],
    },
    // A rival at the first index and none at the last: nothing leads to the other state.
    Sketch {
        initial: &[-1.0, -2.0],
        transition: &[-1.0, MINUS, -1.0, MINUS],
        emission: &[-1.0, -1.0],
        end: None,
        samples: &[0, 0],
    },
    // Nothing leads anywhere: a rival for one sample, none for two.
    Sketch {
        initial: &[-1.0, -2.0],
        transition: &[MINUS; 4],
        emission: &[-1.0, -1.0],
        end: None,
        samples: &[0],
    },
    Sketch {
        initial: &[-1.0, -2.0],
        transition: &[MINUS; 4],
        emission: &[-1.0, -1.0],
        end: None,
        samples: &[0, 0],
    },
    // No state emits the second sample.
    Sketch {
        initial: &[-1.0, -2.0],
        transition: &[-1.0; 4],
        emission: &[-1.0, MINUS, -1.0, MINUS],
        end: None,
        samples: &[0, 1],
    },
    // One state alone emits the second sample.
    Sketch {
        initial: &[-1.0, -2.0, -3.0],
        transition: &[-1.0; 9],
        emission: &[-1.0, -1.0, -1.0, MINUS, -1.0, MINUS],
        end: None,
        samples: &[0, 1, 0],
    },
    // The barred state is at minus infinity and ranks below a predecessor whose sum is, by a transition and by overflow.
    Sketch {
        initial: &[-2.0, -1.0],
        transition: &[-1.0, MINUS, -1.0, -1.0],
        emission: &[-1.0, -1.0],
        end: None,
        samples: &[0, 0],
    },
    Sketch {
        initial: &[-1e308, -1.0],
        transition: &[-1.0, -1e308, -1.0, -1.0],
        emission: &[-1.0, -1.0],
        end: None,
        samples: &[0, 0],
    },
    // The other state's sums overflow to minus infinity.
    Sketch {
        initial: &[-1.0, -1e308],
        transition: &[-1.0, MINUS, -1e308, -1e308],
        emission: &[-1.0, -1.0],
        end: None,
        samples: &[0, 0],
    },
    // There is no way out of the other state.
    Sketch {
        initial: &[-1.0, -2.0],
        transition: &[-1.0; 4],
        emission: &[-1.0, -1.0],
        end: Some(&[-1.0, MINUS]),
        samples: &[0, 0],
    },
    // There is no way out at all.
    Sketch {
        initial: &[-1.0, -2.0],
        transition: &[-1.0; 4],
        emission: &[-1.0, -1.0],
        end: Some(&[MINUS, MINUS]),
        samples: &[0, 0],
    },
    // The end entries choose the last state of the best path, and others that of the rival.
    Sketch {
        initial: &[-1.0, -2.0, -3.0],
        transition: &[-1.0, -2.0, -3.0, -2.0, -1.0, -2.0, -3.0, -2.0, -1.0],
        emission: &[-1.0, -2.0, -3.0],
        end: Some(&[-6.0, -1.0, -0.5]),
        samples: &[0, 0, 0],
    },
    // Ties by rounding, with the best path and among the others.
    Sketch {
        initial: &[-9007199254740992.0; 2],
        transition: &[0.0; 4],
        emission: &[-0.0, -1.0],
        end: None,
        samples: &[0],
    },
    Sketch {
        initial: &[-9007199254740992.0; 3],
        transition: &[0.0; 9],
        emission: &[-0.5, -1.0, -0.0],
        end: None,
        samples: &[0],
    },
    // The rival leaves the chosen state for one sample and comes back.
    Sketch {
        initial: &[-1.0, -5.0],
        transition: &[-1.0, -2.0, -2.0, -1.0],
        emission: &[-1.0, -4.0],
        end: None,
        samples: &[0; 6],
    },
    // Four states whose best paths tie in twos.
    Sketch {
        initial: &[-1.0; 4],
        transition: &[-1.0; 16],
        emission: &[-1.0, -2.0, -1.0, -2.0, -2.0, -1.0, -2.0, -1.0],
        end: None,
        samples: &[0, 1, 1, 0],
    },
];

/// The case at each of its indices.
pub fn at_every_index(case: &Case) -> impl Iterator<Item = Case> + '_ {
    (0..case.samples.len()).map(|index| case.at(index))
}

/// Good models at an index, and how much surplus they are lent: P first.
pub fn to_freeze(p: &Case) -> Vec<(Case, usize)> {
    let p = on(p, &[0, 1, 1]);
    let mut cases: Vec<(Case, usize)> = at_every_index(&p).map(|case| (case, 1)).collect();
    cases.extend([(p.at(1), 0), (p.at(2), 3), (on(&p, &[1]), 1)]);
    let sketches = SKETCHES.iter().map(Sketch::case);
    cases.extend(sketches.flat_map(|case| at_every_index(&case).map(|case| (case, 1)).collect::<Vec<_>>()));
    cases
}

/// A refused case, the lengths of its outputs, and what must be named.
pub type Refused = (Case, Vec<usize>, Named);

/// Something done to a case, and what it leads to.
type Fault = (fn(&mut Case), Named);

/// Faults of a model on three samples that are found before its index is looked at.
const FAULTS: [Fault; 8] = [
    (|case| case.shape.states = 65, (BAD_STATES, 0, 65)),
    (|case| case.shape.symbols = 0, (BAD_SYMBOLS, 0, 0)),
    (|case| case.samples.resize(4097, 0), (TOO_MANY_SAMPLES, SAMPLES, 4097)),
    (|case| case.transition.clear(), (WRONG_LENGTH, TRANSITION, 0)),
    (|case| case.end.clear(), (WRONG_LENGTH, END, 0)),
    (|case| case.emission[0] = f64::NAN, (NOT_GOOD, EMISSION, 0)),
    (|case| case.end[0] = -0.0, (NOT_GOOD, END, 0)),
    (|case| case.samples[2] = u16::MAX, (UNKNOWN_SYMBOL, SAMPLES, 2)),
];

/// Numbers of samples, and indices that none of them has.
const BEYOND: [(usize, usize); 8] = [
    (0, 0),
    (0, 1),
    (0, usize::MAX),
    (1, 1),
    (3, 3),
    (3, 4),
    (3, 1 << 32),
    (3, usize::MAX),
];

/// Cases in which no sample has the index, or one state alone has no rival: the first is found before the second, and both
/// after all that is wrong with the model and its memory.
pub fn refused_to_freeze(p: &Case) -> Vec<Refused> {
    let p = on(p, &[0, 1, 1]);
    let alone = on(&SKETCHES[0].case(), &[0, 0, 0]);
    let beyond = BEYOND.map(|(length, index)| on(&p, &p.samples[..length]).at(index));
    let mut refused: Vec<Refused> = beyond.map(|case| with_room(case, (BAD_INDEX, 0, 0))).to_vec();
    refused.push(with_room(alone.at(3), (BAD_INDEX, 0, 0)));
    refused.push(with_room(alone.at(2), (NO_RIVAL, 0, 0)));
    for case in [p.at(3), alone.at(1)] {
        refused.extend(faults(&case));
        refused.extend(short_outputs(&case));
    }
    let mut no_samples = on(&p, &[]);
    no_samples.initial[1] = f64::NAN;
    refused.push((no_samples, vec![1; 4], (NOT_GOOD, INITIAL, 1)));
    refused
}

fn on(case: &Case, samples: &[u16]) -> Case {
    Case {
        samples: samples.to_vec(),
        index: 0,
        ..case.clone()
    }
}

/// The case with outputs of just their length.
fn with_room(case: Case, named: Named) -> Refused {
    let lengths = Call::Rival.needed(&case);
    (case, lengths, named)
}

/// The case with each fault.
fn faults(case: &Case) -> impl Iterator<Item = Refused> + '_ {
    let lengths = Call::Rival.needed(case);
    FAULTS.into_iter().map(move |(damage, named)| {
        let mut damaged = case.clone();
        damage(&mut damaged);
        (damaged, lengths.clone(), named)
    })
}

/// The case with each output too short, by one place, and then with all of them empty.
fn short_outputs(case: &Case) -> impl Iterator<Item = Refused> + '_ {
    let needed = Call::Rival.needed(case);
    let one_short = (0..needed.len()).map(move |place| {
        let mut lengths = needed.clone();
        lengths[place] -= 1;
        let named = (OUTPUT_TOO_SHORT, FIRST_OUTPUT + place as u8, lengths[place]);
        (case.clone(), lengths, named)
    });
    let all_empty = (case.clone(), vec![0; 4], (OUTPUT_TOO_SHORT, FIRST_OUTPUT, 0));
    one_short.chain([all_empty])
}
