//! Likelihoods that are wrong, each in its own way, and who sees it.

use crate::case::Case;
use crate::engine::{Given, REFERENCE};
use crate::lent::{Call, Output};
use crate::likelihood::MINUS;
use crate::likeness::ours_by;
use reference::answer::{DONE, NO_SAMPLES, ZERO_MASS};
use reference::sums::ln_sum_exp;
use reference::Answer;

/// Answers a call.
pub type Answers = fn(Call, &Case, &mut [Output]) -> Given;

/// Who sees that a likelihood is wrong: that it must never be under the best path's value, and the reference beside it.
pub type Seen = [bool; 2];

const BY_BOTH: Seen = [true, true];
/// A likelihood that is wrong and still not under is seen by the reference alone.
const BESIDE_ALONE: Seen = [false, true];

/// Likelihoods by what is wrong with them.
pub const LIKELIHOODS: [(&str, Seen, Answers); 22] = [
    ("the answer is backward's", BY_BOTH, |call, case, outputs| {
        changed(call, case, outputs, |case, answer, _| {
            *answer = ours_by(&REFERENCE, Call::Backward, case).answer().value;
        })
    }),
    (
        "the answer is one step under Viterbi's value",
        BY_BOTH,
        |call, case, outputs| {
            changed(call, case, outputs, |case, answer, _| {
                *answer = step_under(best_of(case).0);
            })
        },
    ),
    (
        "the first cell is one step under Viterbi's",
        BY_BOTH,
        |call, case, outputs| {
            changed(call, case, outputs, |case, _, cells| {
                cells[0] = step_under(best_of(case).1[0]);
            })
        },
    ),
    (
        "the last cell is one step under Viterbi's",
        BY_BOTH,
        |call, case, outputs| {
            changed(call, case, outputs, |case, _, cells| {
                let last = cells.len() - 1;
                cells[last] = step_under(best_of(case).1[last]);
            })
        },
    ),
    ("the answer is NaN", BY_BOTH, |call, case, outputs| {
        changed(call, case, outputs, |_, answer, _| *answer = f64::NAN)
    }),
    ("a cell is NaN", BY_BOTH, |call, case, outputs| {
        changed(call, case, outputs, |_, _, cells| cells[cells.len() / 2] = f64::NAN)
    }),
    ("each cell is a step lower", BY_BOTH, |call, case, outputs| {
        changed(call, case, outputs, |_, _, cells| {
            cells.iter_mut().for_each(|cell| *cell = step_under(*cell));
        })
    }),
    (
        "Viterbi leaves the end entry out",
        BY_BOTH,
        |call, case, outputs| match call {
            Call::Viterbi => (REFERENCE.call)(call, &case.without_end_state(), outputs),
            _ => (REFERENCE.call)(call, case, outputs),
        },
    ),
    ("the end entry is added twice", BY_BOTH, |call, case, outputs| {
        changed(call, case, outputs, |case, answer, cells| {
            let last = cells[cells.len() - case.shape.states..].iter().zip(&case.end);
            *answer = ln_sum_exp(&last.map(|(cell, end)| (cell + end) + end).collect::<Vec<f64>>());
        })
    }),
    (
        "transition and emission are added to each other first",
        BY_BOTH,
        |call, case, outputs| {
            changed(call, case, outputs, |case, answer, cells| {
                *answer = summed(
                    case,
                    cells,
                    |before, step, emission| before + (step + emission),
                    ln_sum_exp,
                );
            })
        },
    ),
    ("the greatest term is left out", BY_BOTH, |call, case, outputs| {
        changed(call, case, outputs, |case, answer, cells| {
            *answer = summed(case, cells, left_to_right, without_the_greatest);
        })
    }),
    ("the last term is left out", BY_BOTH, |call, case, outputs| {
        changed(call, case, outputs, |case, answer, cells| {
            *answer = summed(case, cells, left_to_right, |terms| {
                ln_sum_exp(&terms[..terms.len() - 1])
            });
        })
    }),
    ("a sum is a mean", BY_BOTH, |call, case, outputs| {
        changed(call, case, outputs, |case, answer, cells| {
            *answer = summed(case, cells, left_to_right, |terms| {
                ln_sum_exp(terms) - (terms.len() as f64).ln()
            });
        })
    }),
    ("a sum is rounded down", BY_BOTH, |call, case, outputs| {
        changed(call, case, outputs, |case, answer, cells| {
            *answer = summed(case, cells, left_to_right, |terms| step_under(ln_sum_exp(terms)));
        })
    }),
    (
        "the rows are backward's in their order",
        BY_BOTH,
        |call, case, outputs| {
            changed(call, case, outputs, |case, _, cells| {
                let rows: Vec<Vec<f64>> = cells.chunks(case.shape.states).map(<[f64]>::to_vec).collect();
                let turned = rows.into_iter().rev().flatten();
                cells.iter_mut().zip(turned).for_each(|(cell, turned)| *cell = turned);
            })
        },
    ),
    ("the table is by columns", BY_BOTH, |call, case, outputs| {
        changed(call, case, outputs, |case, _, cells| {
            let (by_rows, length) = (cells.to_vec(), case.samples.len());
            let place = |cell: usize| cell % length * case.shape.states + cell / length;
            let by_columns = (0..by_rows.len()).map(|cell| by_rows[place(cell)]);
            cells.iter_mut().zip(by_columns).for_each(|(cell, other)| *cell = other);
        })
    }),
    ("what is impossible is refused", BY_BOTH, |call, case, outputs| {
        let given = (REFERENCE.call)(call, case, outputs);
        match call == Call::Forward && given.answer.refusal == DONE && given.answer.value == MINUS {
            true => Answer::refused(ZERO_MASS, 0, case.shape.states).into(),
            false => given,
        }
    }),
    ("no samples are impossible", BY_BOTH, |call, case, outputs| {
        let given = (REFERENCE.call)(call, case, outputs);
        match given.answer.refusal {
            NO_SAMPLES => Answer::done(MINUS).into(),
            _ => given,
        }
    }),
    ("the answer is Viterbi's value", BESIDE_ALONE, |call, case, outputs| {
        changed(call, case, outputs, |case, answer, _| *answer = best_of(case).0)
    }),
    ("the cells are Viterbi's", BESIDE_ALONE, |call, case, outputs| {
        changed(call, case, outputs, |case, _, cells| {
            cells.copy_from_slice(&best_of(case).1);
        })
    }),
    (
        "forward leaves the end entry out",
        BESIDE_ALONE,
        |call, case, outputs| {
            changed(call, case, outputs, |case, answer, cells| {
                *answer = ln_sum_exp(&cells[cells.len() - case.shape.states..]);
            })
        },
    ),
    ("everything is certain", BESIDE_ALONE, |call, case, outputs| {
        changed(call, case, outputs, |_, answer, cells| {
            *answer = 0.0;
            cells.fill(0.0);
        })
    }),
];

/// The reference's calls, with forward's answer and cells changed where it is done.
fn changed(call: Call, case: &Case, outputs: &mut [Output], change: fn(&Case, &mut f64, &mut [f64])) -> Given {
    let mut given = (REFERENCE.call)(call, case, outputs);
    if let (Call::Forward, DONE, Output::Numbers(values)) = (call, given.answer.refusal, &mut outputs[0]) {
        let cells = case.shape.cells(case.samples.len());
        change(case, &mut given.answer.value, &mut values[..cells]);
    }
    given
}

/// Viterbi's value and cells.
fn best_of(case: &Case) -> (f64, Vec<f64>) {
    let best = ours_by(&REFERENCE, Call::Viterbi, case);
    (best.answer().value, best.numbers(1).to_vec())
}

/// The next number below; minus infinity has none.
pub fn step_under(number: f64) -> f64 {
    match number {
        MINUS => MINUS,
        0.0 => -f64::from_bits(1),
        above if above > 0.0 => f64::from_bits(above.to_bits() - 1),
        below => f64::from_bits(below.to_bits() + 1),
    }
}

/// The right order of additions.
fn left_to_right(before: f64, step: f64, emission: f64) -> f64 {
    (before + step) + emission
}

/// The sum of all but the first greatest.
fn without_the_greatest(terms: &[f64]) -> f64 {
    let greatest = terms.iter().copied().fold(MINUS, f64::max);
    let place = terms.iter().position(|term| *term == greatest);
    let others = terms.iter().enumerate().filter(|(other, _)| Some(*other) != place);
    ln_sum_exp(&others.map(|(_, term)| *term).collect::<Vec<f64>>())
}

/// Writes forward's rows after the first by these terms and sums, and gives the answer.
fn summed(case: &Case, cells: &mut [f64], term: fn(f64, f64, f64) -> f64, sum: fn(&[f64]) -> f64) -> f64 {
    let (model, states) = (case.model(), case.shape.states);
    for place in states..cells.len() {
        let (t, j) = (place / states, place % states);
        let before = &cells[(t - 1) * states..t * states];
        let emission = model.emission(j, case.samples[t]);
        let terms = before
            .iter()
            .enumerate()
            .map(|(k, cell)| term(*cell, model.transition(k, j), emission));
        cells[place] = sum(&terms.collect::<Vec<f64>>());
    }
    let last = cells[cells.len() - states..].iter().zip(model.end);
    sum(&last.map(|(cell, end)| cell + end).collect::<Vec<f64>>())
}
