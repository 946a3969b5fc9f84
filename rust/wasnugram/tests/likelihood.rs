//! The likelihood beside the best path through the wrapper: the value of `forward` is never under that of `viterbi`, nor a
//! cell under a cell. Of `backward` that is not promised, and model A of RULES 9 shows why.

use wasnugram::*;

const MINUS: f64 = f64::NEG_INFINITY;
/// 2^-53, half of the step from 1 to the next f64.
const HALF: f64 = f64::EPSILON / 2.0;
/// Model A of RULES 9.
const A: Model = Model {
    shape: Shape {
        states: 1,
        symbols: 1,
        ends: false,
    },
    transition: &[-HALF],
    emission: &[-HALF],
    initial: &[-1.0],
    end: &[0.0],
};
const MODELS: usize = 600;
/// What the entries of a model are drawn from: ordinary ones, ones that are tiny next to -1, zeros of both signs with what
/// cannot be, ones that overflow, and ones so great that the logarithm of a sum is lost.
const GRIDS: [&[f64]; 5] = [
    &[-0.3, -1.1, -2.7, -0.9, -5.2],
    &[-1.0, -HALF, -HALF, -1.5 * HALF, -60.0],
    &[0.0, -0.0, -0.0, MINUS, MINUS],
    &[-f64::MAX, -f64::MAX / 2.0, -1e300, -1.0],
    &[-9007199254740992.0, -1152921504606846976.0, -1.0, -0.5],
];

/// Numbers from a seed, so that a model that fails can be had again.
struct Random(u64);

impl Random {
    fn below(&mut self, bound: usize) -> usize {
        self.0 = self
            .0
            .wrapping_mul(6364136223846793005)
            .wrapping_add(1442695040888963407);
        ((self.0 >> 33) % bound as u64) as usize
    }

    fn table(&mut self, length: usize, grid: &[f64]) -> Vec<f64> {
        (0..length).map(|_| grid[self.below(grid.len())]).collect()
    }
}

/// A small model of its own and its samples.
#[derive(Debug)]
struct Case {
    shape: Shape,
    tables: [Vec<f64>; 4],
    samples: Vec<u16>,
}

impl Case {
    fn random(random: &mut Random) -> Case {
        let [states, symbols, length] = [4, 3, 8].map(|most| 1 + random.below(most));
        let ends = random.below(2) == 0;
        let grid = GRIDS[random.below(GRIDS.len())];
        let lengths = [states * states, states * symbols, states];
        let [transition, emission, initial] = lengths.map(|length| random.table(length, grid));
        let end = random.table(states, if ends { grid } else { &[0.0] });
        Case {
            shape: Shape { states, symbols, ends },
            tables: [transition, emission, initial, end],
            samples: (0..length).map(|_| random.below(symbols) as u16).collect(),
        }
    }

    fn model(&self) -> Model<'_> {
        let [transition, emission, initial, end] = &self.tables;
        Model {
            shape: self.shape,
            transition,
            emission,
            initial,
            end,
        }
    }
}

/// A likelihood and a best path's value, each with its cells.
struct Beside {
    likelihood: f64,
    cells: Vec<f64>,
    best: f64,
    best_cells: Vec<f64>,
}

impl Beside {
    fn of(model: &Model, samples: &[u16]) -> Beside {
        let length = model.shape.cells(samples.len());
        let (mut cells, mut best_cells) = (vec![0.0; length], vec![0.0; length]);
        let (mut path, mut from) = (vec![0; samples.len()], vec![0; length]);
        let best = viterbi(model, samples, &mut path, &mut best_cells, &mut from)
            .unwrap()
            .value;
        let likelihood = forward(model, samples, &mut cells).unwrap();
        Beside {
            likelihood,
            cells,
            best,
            best_cells,
        }
    }

    fn is_never_under(&self) -> bool {
        let mut cells = self.cells.iter().zip(&self.best_cells);
        self.likelihood >= self.best && cells.all(|(cell, best)| cell >= best)
    }
}

#[test]
fn forward_is_never_under_viterbi() {
    let random = &mut Random(9);
    let [mut equal, mut above, mut impossible, mut ends] = [0; 4];
    for _ in 0..MODELS {
        let case = Case::random(random);
        let beside = Beside::of(&case.model(), &case.samples);
        assert!(beside.is_never_under(), "{case:?}");
        ends += usize::from(case.shape.ends);
        impossible += usize::from(!is_possible(beside.likelihood));
        above += usize::from(beside.likelihood > beside.best);
        equal += usize::from(beside.likelihood == beside.best && is_possible(beside.best));
    }
    let counts = [equal, above, impossible, ends];
    assert!(counts.iter().all(|count| *count > MODELS / 10), "{counts:?}");
}

#[test]
fn the_share_of_the_best_path_is_at_most_one() {
    let random = &mut Random(10);
    let cases = (0..MODELS).map(|_| Case::random(random));
    let beside = cases.map(|case| Beside::of(&case.model(), &case.samples));
    let possible: Vec<Beside> = beside.filter(|beside| is_possible(beside.best)).collect();
    let shares = possible.iter().map(|beside| (beside.best - beside.likelihood).exp());
    assert!(possible.len() > MODELS / 2 && shares.clone().all(|share| (0.0..=1.0).contains(&share)));
    assert!(shares.clone().any(|share| share == 1.0) && shares.clone().any(|share| share < 0.5));
}

#[test]
fn on_model_a_forward_is_equal_and_backward_below() {
    let beside = Beside::of(&A, &[0, 0]);
    assert_eq!((beside.likelihood, beside.best), (-1.0, -1.0));
    let from_the_other_end = backward(&A, &[0, 0], &mut [0.0; 2]).unwrap();
    assert_eq!(from_the_other_end.to_bits(), 0xbff0_0000_0000_0002);
    assert!(from_the_other_end < beside.best);
}

#[test]
fn what_is_under_is_seen() {
    let changes: [(&str, fn(&mut Beside)); 5] = [
        ("the value is that of backward", |beside| {
            beside.likelihood = backward(&A, &[0, 0], &mut [0.0; 2]).unwrap()
        }),
        ("the value is one step lower", |beside| {
            beside.likelihood -= f64::EPSILON
        }),
        ("the last cell is one step lower", |beside| {
            beside.cells[1] -= f64::EPSILON
        }),
        ("the value is no number", |beside| beside.likelihood = f64::NAN),
        ("a cell is no number", |beside| beside.cells[0] = f64::NAN),
    ];
    for (name, change) in changes {
        let mut beside = Beside::of(&A, &[0, 0]);
        assert!(beside.is_never_under());
        change(&mut beside);
        assert!(!beside.is_never_under(), "not seen: {name}");
    }
}
