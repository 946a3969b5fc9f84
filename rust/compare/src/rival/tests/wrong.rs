//! Rivals that are wrong, each in its own way, and who sees it.

use crate::case::Case;
use crate::engine::{Given, REFERENCE};
use crate::lent::{Call, Output};
use crate::rival::{done, with_barred, with_own_symbols, MINUS};
use reference::answer::{BAD_INDEX, DONE, NOT_GOOD, NO_RIVAL, UNKNOWN_SYMBOL};
use reference::{viterbi, Answer};

/// Answers a call.
pub type Answers = fn(Call, &Case, &mut [Output]) -> Given;

/// Who sees that a rival is wrong: bio with a state barred, all paths, the reference beside it, and the rules on memory
/// with what damage leads to.
pub type Seen = [bool; 4];

const BY_ALL: Seen = [true; 4];
const BY_WHAT_IS_GIVEN: Seen = [true, true, true, false];
const BY_THE_TABLES: Seen = [true, false, true, false];
const ON_LENT_MEMORY: Seen = [false, false, true, true];

/// Rivals by what is wrong with them.
pub const RIVALS: [(&str, Seen, Answers); 29] = [
    (
        "the chosen state is allowed at the last sample",
        BY_WHAT_IS_GIVEN,
        |_, case, outputs| {
            let model = |case: &Case, own: &Case, chosen: usize| match case.index + 1 == case.samples.len() {
                true => own.clone(),
                false => with_barred(own, chosen),
            };
            walked(case, outputs, walk, model, walk)
        },
    ),
    ("the rival at another index", BY_WHAT_IS_GIVEN, |call, case, outputs| {
        let length = case.samples.len();
        match case.index < length {
            true => (REFERENCE.call)(call, &case.at((case.index + 1) % length), outputs),
            false => (REFERENCE.call)(call, case, outputs),
        }
    }),
    (
        "15 where the rival ties with the best path",
        BY_WHAT_IS_GIVEN,
        |_, case, outputs| {
            refused(case, outputs, NO_RIVAL, |_, given| {
                given.beside.is_some_and(|beside| beside.best == given.answer.value) && given.answer.refusal == DONE
            })
        },
    ),
    (
        "the value is the best path's with the state barred",
        BY_WHAT_IS_GIVEN,
        |_, case, outputs| changed(case, outputs, |_, given, _| given.answer.value = MINUS),
    ),
    (
        "the rival is the lowest-numbered of equal ones",
        BY_WHAT_IS_GIVEN,
        |_, case, outputs| walked(case, outputs, walk, barred, walk_to_the_lowest),
    ),
    (
        "the best path is the lowest-numbered of equal ones",
        BY_WHAT_IS_GIVEN,
        |_, case, outputs| walked(case, outputs, walk_to_the_lowest, barred, walk),
    ),
    (
        "the index is looked at before the samples",
        ON_LENT_MEMORY,
        |_, case, outputs| {
            refused(case, outputs, BAD_INDEX, |case, given| {
                given.answer.refusal == UNKNOWN_SYMBOL && case.index >= case.samples.len()
            })
        },
    ),
    (
        "the index is looked at before the entries",
        ON_LENT_MEMORY,
        |_, case, outputs| {
            refused(case, outputs, BAD_INDEX, |case, given| {
                given.answer.refusal == NOT_GOOD && case.index >= case.samples.len()
            })
        },
    ),
    ("15 is found before 16", BY_ALL, |_, case, outputs| {
        refused(case, outputs, NO_RIVAL, |case, given| {
            given.answer.refusal == BAD_INDEX && case.shape.states == 1
        })
    }),
    (
        "the index after the last is the last one",
        BY_ALL,
        |call, case, outputs| {
            let length = case.samples.len();
            match case.index == length && length > 0 {
                true => (REFERENCE.call)(call, &case.at(length - 1), outputs),
                false => (REFERENCE.call)(call, case, outputs),
            }
        },
    ),
    ("the last index is refused", BY_WHAT_IS_GIVEN, |_, case, outputs| {
        refused(case, outputs, BAD_INDEX, |case, given| {
            given.answer.refusal == DONE && case.index + 1 == case.samples.len()
        })
    }),
    (
        "done at minus infinity in the place of 15",
        BY_WHAT_IS_GIVEN,
        |_, case, outputs| without_rival(case, outputs, |chosen, best, _| done(MINUS, chosen, best)),
    ),
    ("chosen and best are beside 15", BY_WHAT_IS_GIVEN, |_, case, outputs| {
        without_rival(case, outputs, |chosen, best, _| Given {
            answer: Answer::refused(NO_RIVAL, 0, 0),
            ..done(MINUS, chosen, best)
        })
    }),
    ("the path is written before 15", ON_LENT_MEMORY, |_, case, outputs| {
        without_rival(case, outputs, |chosen, _, outputs| {
            bytes(&mut outputs[0])[0] = chosen as u8;
            Given::refused(Call::Rival, Answer::refused(NO_RIVAL, 0, 0))
        })
    }),
    (
        "the state is barred at every sample",
        BY_WHAT_IS_GIVEN,
        |_, case, outputs| {
            walked(
                case,
                outputs,
                walk,
                |_, own, chosen| barred_where(own, chosen, |_| true),
                walk,
            )
        },
    ),
    (
        "the state is barred at every sample of the same symbol",
        BY_WHAT_IS_GIVEN,
        |_, case, outputs| {
            let model = |case: &Case, own: &Case, chosen: usize| {
                barred_where(own, chosen, |time| case.samples[time] == case.samples[case.index])
            };
            walked(case, outputs, walk, model, walk)
        },
    ),
    (
        "the state is barred one sample later",
        BY_WHAT_IS_GIVEN,
        |_, case, outputs| {
            let model =
                |case: &Case, own: &Case, chosen: usize| barred_where(own, chosen, |time| time == case.index + 1);
            walked(case, outputs, walk, model, walk)
        },
    ),
    (
        "the barred emission is the least finite one",
        BY_WHAT_IS_GIVEN,
        |_, case, outputs| {
            let model = |case: &Case, own: &Case, chosen: usize| {
                let mut barred = barred(case, own, chosen);
                let place = chosen * own.shape.symbols + own.index;
                barred.emission[place] = barred.emission[place].max(-f64::MAX);
                barred
            };
            walked(case, outputs, walk, model, walk)
        },
    ),
    ("the end table is left out", BY_ALL, |call, case, outputs| {
        (REFERENCE.call)(call, &case.without_end_state(), outputs)
    }),
    (
        "the end table is left out in the choice of the state",
        BY_WHAT_IS_GIVEN,
        |_, case, outputs| {
            let without_end = |case: &Case| Walk {
                path: walk(&case.without_end_state()).path,
                ..walk(case)
            };
            walked(case, outputs, without_end, barred, walk)
        },
    ),
    (
        "the rows are those of the best path",
        BY_WHAT_IS_GIVEN,
        |_, case, outputs| {
            changed(case, outputs, |case, _, outputs| {
                let best = walk(case);
                bytes(&mut outputs[3])[..best.from.len()].copy_from_slice(&best.from);
                numbers(&mut outputs[2])[..best.values.len()].copy_from_slice(&best.values);
            })
        },
    ),
    (
        "the predecessors are those of the best path",
        BY_THE_TABLES,
        |_, case, outputs| {
            changed(case, outputs, |case, _, outputs| {
                let best = walk(case);
                bytes(&mut outputs[3])[..best.from.len()].copy_from_slice(&best.from);
            })
        },
    ),
    (
        "cells at minus infinity come from the last state",
        BY_THE_TABLES,
        |_, case, outputs| {
            changed(case, outputs, |case, _, outputs| {
                let cells = case.shape.cells(case.samples.len());
                let values = numbers(&mut outputs[2])[..cells].to_vec();
                let later = bytes(&mut outputs[3]).iter_mut().zip(values).skip(case.shape.states);
                let unreached = later.filter(|(_, value)| *value == MINUS);
                unreached.for_each(|(from, _)| *from = case.shape.states as u8 - 1);
            })
        },
    ),
    ("the path is the rival's", BY_WHAT_IS_GIVEN, |_, case, outputs| {
        changed(case, outputs, |case, _, outputs| {
            let length = case.samples.len();
            let rival = bytes(&mut outputs[1])[..length].to_vec();
            bytes(&mut outputs[0])[..length].copy_from_slice(&rival);
        })
    }),
    ("the two paths are exchanged", BY_WHAT_IS_GIVEN, |_, case, outputs| {
        changed(case, outputs, |case, _, outputs| {
            let length = case.samples.len();
            let rival = bytes(&mut outputs[1])[..length].to_vec();
            let best = std::mem::replace(bytes(&mut outputs[0]), rival.clone());
            bytes(&mut outputs[0]).extend(&best[length..]);
            bytes(&mut outputs[1])[..length].copy_from_slice(&best[..length]);
        })
    }),
    ("value and best are exchanged", BY_WHAT_IS_GIVEN, |_, case, outputs| {
        changed(case, outputs, |_, given, _| {
            if let Some(beside) = &mut given.beside {
                std::mem::swap(&mut beside.best, &mut given.answer.value);
            }
        })
    }),
    (
        "the value's zero loses its sign",
        BY_WHAT_IS_GIVEN,
        |_, case, outputs| changed(case, outputs, |_, given, _| given.answer.value += 0.0),
    ),
    ("the chosen state is one more", BY_WHAT_IS_GIVEN, |_, case, outputs| {
        changed(case, outputs, |_, given, _| {
            if let Some(beside) = &mut given.beside {
                beside.chosen += 1;
            }
        })
    }),
    ("the surplus is written", ON_LENT_MEMORY, |_, case, outputs| {
        changed(case, outputs, |case, _, outputs| {
            let surplus = bytes(&mut outputs[1]).iter_mut().skip(case.samples.len());
            surplus.for_each(|byte| *byte ^= 1);
        })
    }),
];

fn bytes(output: &mut Output) -> &mut Vec<u8> {
    match output {
        Output::Bytes(bytes) => bytes,
        Output::Numbers(_) => unreachable!("this output has bytes"),
    }
}

fn numbers(output: &mut Output) -> &mut Vec<f64> {
    match output {
        Output::Numbers(numbers) => numbers,
        Output::Bytes(_) => unreachable!("this output has numbers"),
    }
}

/// The call, and then a change where it is done.
fn changed(case: &Case, outputs: &mut [Output], change: fn(&Case, &mut Given, &mut [Output])) -> Given {
    let mut given = (REFERENCE.call)(Call::Rival, case, outputs);
    if given.answer.refusal == DONE {
        change(case, &mut given, outputs);
    }
    given
}

/// The call, but for a refusal in the place of what it gives, where this holds of that.
fn refused(case: &Case, outputs: &mut [Output], refusal: u8, holds: fn(&Case, &Given) -> bool) -> Given {
    let given = (REFERENCE.call)(Call::Rival, case, &mut outputs.to_vec());
    match holds(case, &given) {
        true => Given::refused(Call::Rival, Answer::refused(refusal, 0, 0)),
        false => (REFERENCE.call)(Call::Rival, case, outputs),
    }
}

/// The call, but for what this gives in the place of 15 from the chosen state and the best value.
fn without_rival(case: &Case, outputs: &mut [Output], gives: fn(usize, f64, &mut [Output]) -> Given) -> Given {
    let given = (REFERENCE.call)(Call::Rival, case, outputs);
    if given.answer.refusal != NO_RIVAL {
        return given;
    }
    let best = walk(case);
    gives(usize::from(best.path[case.index]), best.value, outputs)
}

/// A walk of Viterbi.
struct Walk {
    path: Vec<u8>,
    values: Vec<f64>,
    from: Vec<u8>,
    value: f64,
}

fn walk(case: &Case) -> Walk {
    let cells = case.shape.cells(case.samples.len());
    let (mut path, mut values, mut from) = (vec![0; case.samples.len()], vec![0.0; cells], vec![0; cells]);
    let value = viterbi(&case.model(), &case.samples, &mut path, &mut values, &mut from).value;
    Walk {
        path,
        values,
        from,
        value,
    }
}

/// The walk that takes the lowest-numbered of equal ones: that of the model whose states are numbered downward.
fn walk_to_the_lowest(case: &Case) -> Walk {
    let Walk {
        path,
        values,
        from,
        value,
    } = walk(&downward(case));
    let states = case.shape.states;
    let turned = |state: &u8| states as u8 - 1 - state;
    let rows = |row: &[f64]| row.iter().rev().copied().collect::<Vec<f64>>();
    Walk {
        path: path.iter().map(turned).collect(),
        values: values.chunks(states).flat_map(rows).collect(),
        from: from
            .chunks(states)
            .flat_map(|row| row.iter().rev().map(turned))
            .collect(),
        value,
    }
}

/// The case with its states numbered downward.
fn downward(case: &Case) -> Case {
    let mut turned = case.clone();
    turned.transition.reverse();
    turned.initial.reverse();
    turned.end.reverse();
    let rows = case.emission.chunks(case.shape.symbols).rev();
    turned.emission = rows.flatten().copied().collect();
    turned
}

/// The model of the right rival.
fn barred(_: &Case, own: &Case, chosen: usize) -> Case {
    with_barred(own, chosen)
}

/// The case, whose samples have symbols of their own, with this state barred at these times.
fn barred_where(own: &Case, state: usize, is_barred: impl Fn(usize) -> bool) -> Case {
    let mut barred = own.clone();
    let times = (0..own.samples.len()).filter(|time| is_barred(*time));
    times.for_each(|time| barred.emission[state * own.shape.symbols + time] = MINUS);
    barred
}

/// A rival by two walks: the best path by the first, and by the second that of the model which is made of the case, the case
/// with symbols of its own, and the chosen state. Where it is at minus infinity, 15.
fn walked(
    case: &Case,
    outputs: &mut [Output],
    best_by: fn(&Case) -> Walk,
    model: fn(&Case, &Case, usize) -> Case,
    rival_by: fn(&Case) -> Walk,
) -> Given {
    let given = (REFERENCE.call)(Call::Rival, case, &mut outputs.to_vec());
    if ![DONE, NO_RIVAL].contains(&given.answer.refusal) {
        return given;
    }
    let own = with_own_symbols(case);
    let best = best_by(&own);
    let chosen = usize::from(best.path[case.index]);
    let rival = rival_by(&model(case, &own, chosen));
    if rival.value == MINUS {
        return Given::refused(Call::Rival, Answer::refused(NO_RIVAL, 0, 0));
    }
    for (place, written) in [(0, &best.path), (1, &rival.path), (3, &rival.from)] {
        bytes(&mut outputs[place])[..written.len()].copy_from_slice(written);
    }
    numbers(&mut outputs[2])[..rival.values.len()].copy_from_slice(&rival.values);
    done(rival.value, chosen, best.value)
}
