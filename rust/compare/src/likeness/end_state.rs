//! The best path with an end state, out of bio, whose Viterbi leaves the end table out: from its tables, and as a model in
//! which the end state is a state like the others, for its own walk.

use crate::case::Case;
use reference::Shape;

const MINUS: f64 = f64::NEG_INFINITY;

/// The path and its value, from bio's tables: the last state is the highest-numbered of the greatest sums of the last row
/// and the end table, and the predecessors lead to it. For no samples, no path and minus infinity.
pub fn from_tables(case: &Case, values: &[f64], from: &[u8]) -> (Vec<u8>, f64) {
    let states = case.shape.states;
    let Some(last_row) = values.chunks(states).last() else {
        return (Vec::new(), MINUS);
    };
    let sums = last_row.iter().zip(&case.end).map(|(value, end)| value + end);
    let (last, sum) = sums
        .enumerate()
        .max_by(|(_, a), (_, b)| a.partial_cmp(b).expect("no sum is NaN"))
        .expect("there is a state");
    let mut path = vec![last as u8];
    for row in from.chunks(states).skip(1).rev() {
        path.push(row[usize::from(path[path.len() - 1])]);
    }
    path.reverse();
    (path, sum)
}

/// The case with its end state as one more state: each state leads to it by its end entry, it alone emits one more symbol,
/// and that symbol is one more sample, the last. Its emission is -0.0, which adds nothing even to a zero.
pub fn as_a_state(case: &Case) -> Case {
    let Shape { states, symbols, .. } = case.shape;
    let nowhere = vec![MINUS; states + 1];
    let nothing_else = [vec![MINUS; symbols], vec![-0.0]].concat();
    Case {
        shape: Shape {
            states: states + 1,
            symbols: symbols + 1,
            ends: false,
        },
        transition: [widened(&case.transition, states, &case.end), nowhere].concat(),
        emission: [widened(&case.emission, symbols, &vec![MINUS; states]), nothing_else].concat(),
        initial: [&case.initial[..], &[MINUS]].concat(),
        end: vec![0.0; states + 1],
        samples: [&case.samples[..], &[symbols as u16]].concat(),
        index: case.index,
    }
}

/// A table with one more column.
fn widened(table: &[f64], columns: usize, column: &[f64]) -> Vec<f64> {
    let rows = table.chunks(columns).zip(column);
    rows.flat_map(|(row, last)| [row, &[*last]].concat()).collect()
}

#[cfg(test)]
mod tests {
    use crate::case::{any, Case, Sizes};
    use crate::engine::{Engine, REFERENCE};
    use crate::lent::Output;
    use crate::likeness::{viterbi, viterbi_by, viterbi_to_the_end, viterbi_to_the_end_by};
    use crate::random::Random;
    use crate::verdict::Intended;
    use reference::{Answer, Shape};

    /// Leaves the end table out, as bio does.
    const LEAVES_OUT: Engine = Engine {
        call: |call, case, outputs| (REFERENCE.call)(call, &case.without_end_state(), outputs),
        ..REFERENCE
    };

    /// Ends in state 0, with the right value.
    const ENDS_IN_0: Engine = Engine {
        call: |call, case, outputs| {
            let given = (REFERENCE.call)(call, case, outputs);
            if let Output::Bytes(path) = &mut outputs[0] {
                path.iter_mut().for_each(|state| *state = 0);
            }
            given
        },
        ..REFERENCE
    };

    /// Adds an end entry of +0.0 where there is no end state.
    const ADDS_ZERO: Engine = Engine {
        call: |call, case, outputs| Answer::done((REFERENCE.call)(call, case, outputs).answer.value + 0.0).into(),
        ..REFERENCE
    };

    /// Two states and one symbol, on one sample.
    fn two_states(initial: [f64; 2], end: [f64; 2]) -> Case {
        Case {
            shape: Shape {
                states: 2,
                symbols: 1,
                ends: true,
            },
            transition: vec![0.0; 4],
            emission: vec![-0.0; 2],
            initial: initial.to_vec(),
            end: end.to_vec(),
            samples: vec![0],
            index: 0,
        }
    }

    #[test]
    fn the_way_out_is_noted_with_an_end_state_alone() {
        let Some(modes) = oracle::modes() else { return };
        let case = two_states([-1.0, -2.0], [-3.0, -1.0]);
        let verdict = viterbi(&modes.published, &case);
        assert_eq!(verdict.wrong, None);
        assert_eq!(verdict.intended, [Intended::EndEntry, Intended::WayOut]);
        assert_eq!(viterbi_to_the_end(&modes.published, &case).wrong, None);
        let verdict = viterbi(&modes.published, &case.without_end_state());
        assert_eq!(verdict.wrong, None);
        assert_eq!(verdict.intended, []);
    }

    #[test]
    fn a_wrong_end_is_seen() {
        let Some(modes) = oracle::modes() else { return };
        let bio = &modes.published;
        let exit = two_states([-1.0, -2.0], [-3.0, -1.0]);
        let tie = two_states([-1.0, -2.0], [-2.0, -1.0]);
        for (engine, case) in [(LEAVES_OUT, &exit), (ENDS_IN_0, &exit), (ENDS_IN_0, &tie)] {
            assert!(viterbi_by(&engine, bio, case).wrong.is_some());
            assert!(viterbi_to_the_end_by(&engine, bio, case).wrong.is_some());
        }
        let zeros = two_states([-0.0; 2], [0.0; 2]).without_end_state();
        assert_eq!(viterbi(bio, &zeros).wrong, None);
        assert!(viterbi_by(&ADDS_ZERO, bio, &zeros).wrong.is_some());
    }

    #[test]
    fn random_end_tables_often_change_the_last_state() {
        let Some(modes) = oracle::modes() else { return };
        let random = &mut Random::new(1);
        let cases = (0..1024).map(|number| any(Sizes::sweep(number, 2_000, random), random));
        let with_end_state: Vec<Case> = cases.filter(|case| case.shape.ends).collect();
        let changed = with_end_state.iter().filter(|case| {
            let verdict = viterbi(&modes.published, case);
            assert_eq!(verdict.wrong, None);
            verdict.intended.contains(&Intended::WayOut)
        });
        assert!(changed.count() > with_end_state.len() / 4);
    }
}
