//! `freeze FILE`: writes the frozen list (FROZEN.md), after holding each of its answers that bio can give against bio's,
//! those on model files against the rule on bytes, rivals against all paths too, and likelihoods beside best paths.

use compare::case::{self, Case, Sizes, KINDS};
use compare::damage;
use compare::engine::REFERENCE;
use compare::entries;
use compare::frozen::{write, Frozen, FILL, FILLED, NAMES};
use compare::grids;
use compare::leaves::{argument, near, slice};
use compare::lent::{Call, Output, CALLS};
use compare::likelihood::{self, Walks, WALKS};
use compare::likeness;
use compare::model_file::{self, Lent};
use compare::random::Random;
use compare::rival;
use compare::verdict::Verdict;
use oracle::Modes;
use reference::answer::{DONE, NOT_GOOD};
use reference::{leaves, Answer, Shape};
use std::process::ExitCode;

const SEED: u64 = 422;

const MINUS: f64 = f64::NEG_INFINITY;

/// Initial tables, each with end tables on which the whole path depends, in models whose states are never left.
const WAYS_OUT: [(&[f64], &[&[f64]]); 7] = [
    // The best of the last row is not the best of the sums; there is no way out of it; there is none at all.
    (&[-1.0, -2.0], &[&[-3.0, -1.0], &[MINUS, -1.0], &[MINUS, MINUS]]),
    // There is no way out of the only state that is reached.
    (&[-1.0, MINUS], &[&[MINUS, -1.0]]),
    // All sums tie; the first two do.
    (&[-1.0, -2.0, -3.0], &[&[-3.0, -2.0, -1.0], &[-2.0, -1.0, -1.0]]),
    // Two sums tie, and the value of the third is above both.
    (&[-3.0, -2.0, -1.0], &[&[-1.0, -2.0, -3.5]]),
    // A tie by rounding.
    (&[-9007199254740992.0, -9007199254740992.0], &[&[-0.0, -1.0]]),
    // Zeros of both signs tie, and the value has the sign of the highest-numbered.
    (&[-0.0, -0.0], &[&[0.0, -0.0], &[-0.0, 0.0]]),
    // A sum overflows to minus infinity.
    (&[-1e308, -1.5e308], &[&[-1e308, -0.0]]),
];

fn main() -> ExitCode {
    let Some(path) = std::env::args().nth(1) else {
        eprintln!("usage: freeze FILE");
        return ExitCode::FAILURE;
    };
    let Some(modes) = oracle::modes() else {
        eprintln!("bio 4.2.2: not found (BIO_SOURCE names its folder); no list is written");
        return ExitCode::FAILURE;
    };
    let mut list = List {
        modes,
        random: Random::new(SEED),
        cases: Vec::new(),
    };
    list.gate_posts();
    list.ends();
    list.models();
    list.damaged();
    list.kernels();
    list.leaves();
    list.grids();
    list.entries();
    list.model_files();
    list.rivals();
    list.altered();
    list.likelihoods();
    println!("{} cases", list.cases.len());
    match std::fs::write(&path, write(&list.cases)) {
        Ok(()) => ExitCode::SUCCESS,
        Err(error) => {
            eprintln!("{path}: {error}");
            ExitCode::FAILURE
        }
    }
}

struct List {
    modes: Modes,
    random: Random,
    cases: Vec<Frozen>,
}

/// An output of this length, filled.
fn filled(call: Call, place: usize, length: usize) -> Output {
    if call.writes_bytes(place) {
        Output::Bytes(vec![FILL; length])
    } else {
        Output::Numbers(vec![FILLED; length])
    }
}

impl List {
    /// Freezes a call on outputs with so much surplus.
    fn call(&mut self, call: Call, case: &Case, surplus: usize) {
        self.agrees(call, case);
        let needed = call.needed(case);
        let lengths: Vec<usize> = needed.iter().map(|needed| needed + surplus).collect();
        self.freeze(call, case, &lengths);
    }

    /// Freezes a call on outputs of these lengths.
    fn freeze(&mut self, call: Call, case: &Case, lengths: &[usize]) {
        let outputs = lengths.iter().enumerate();
        let mut outputs: Vec<Output> = outputs.map(|(place, length)| filled(call, place, *length)).collect();
        let given = (REFERENCE.call)(call, case, &mut outputs);
        self.cases.push(Frozen::of_model(call, case, &given, &outputs));
    }

    /// Holds a case against bio, which has no model file: what is written is held against the rule on bytes. Nor has it a
    /// rival, which is held against its Viterbi with a state barred and, where there are few paths, against all of them.
    fn agrees(&self, call: Call, case: &Case) {
        let verdict = match call {
            Call::Viterbi => likeness::viterbi(&self.modes.published, case),
            Call::Forward => likeness::forward(&self.modes.kernels, case),
            Call::Backward => likeness::backward(&self.modes.kernels, case),
            Call::BaumWelch => likeness::pass(&self.modes.kernels, case),
            Call::WriteModel => model_file::written_by_the_rule(&REFERENCE, case),
            Call::Rival => rival::against_bio(&REFERENCE, &self.modes.published, case),
        };
        must_agree(call.name(), &verdict);
        if call == Call::Viterbi && case.shape.ends {
            must_agree(
                "viterbi to the end",
                &likeness::viterbi_to_the_end(&self.modes.published, case),
            );
        }
        if call == Call::Rival && rival::has_few_paths(case) {
            let add = self.modes.published.leaves.add;
            must_agree("rival of all paths", &rival::all_paths(&REFERENCE, add, case));
        }
    }

    /// The models of the gate-post examples, but for E1 to E3 and A, and of the intended differences, on all calls.
    fn gate_posts(&mut self) {
        let [p, z] = [model_p(), zeros(2)];
        let mut unreachable = zeros(3);
        unreachable.initial.fill(MINUS);
        let mut above_zero = zeros(1);
        (above_zero.transition, above_zero.emission, above_zero.initial) = (vec![-0.1], vec![-0.1, -0.1], vec![-0.9]);
        let mut nearly_massless = zeros(2);
        nearly_massless.initial[0] = -25.0;
        let mut exit = zeros(2);
        (exit.initial, exit.end, exit.shape.ends) = (vec![-1.0, -2.0], vec![-3.0, -1.0], true);
        let models = [
            (p.clone(), vec![0, 1, 1]),
            (p.clone(), vec![1]),
            (p, vec![]),
            (z.clone(), vec![0, 0]),
            (z, vec![0]),
            (unreachable, vec![0, 0]),
            (above_zero, vec![0, 0]),
            (nearly_massless, vec![0, 0]),
            (exit.without_end_state(), vec![0]),
            (exit, vec![0]),
        ];
        for (model, samples) in models {
            let case = Case { samples, ..model };
            CALLS.into_iter().for_each(|call| self.call(call, &case, 1));
        }
    }

    /// Models whose best path depends on the end table, E1 to E3 first, and the same without an end state, on all calls.
    fn ends(&mut self) {
        for case in &ways_out() {
            CALLS.into_iter().for_each(|call| self.call(call, case, 1));
        }
    }

    /// Random models of every kind of entry.
    fn models(&mut self) {
        for (case, surplus) in models_of_every_kind(&mut self.random) {
            CALLS.into_iter().for_each(|call| self.call(call, &case, surplus));
        }
    }

    /// Every refusal from 1 to 8 in every call that gives it, several times; 3 once, on the least number of samples.
    fn damaged(&mut self) {
        for call in CALLS {
            let too_many = Case {
                samples: vec![0; 4097],
                ..zeros(1)
            };
            self.freeze(call, &too_many, &call.needed(&zeros(1)));
            self.refusals(call);
        }
    }

    /// Every refusal that damage to a model leads to in a call, several times.
    fn refusals(&mut self, call: Call) {
        for refusal in damage::refusals(call).flat_map(|refusal| [refusal; 4]) {
            let sizes = Sizes {
                states: 1 + self.random.below(3),
                symbols: 1 + self.random.below(3),
                samples: 1 + self.random.below(4),
            };
            let mut case = case::any(sizes, &mut self.random);
            if call.takes_index() {
                case.index = self.random.below(sizes.samples);
            }
            let damaged = damage::single(refusal, call, &case, &mut self.random);
            self.damaged_call(call, &case, &damaged);
        }
    }

    fn damaged_call(&mut self, call: Call, case: &Case, damaged: &damage::Damaged) {
        let mut lengths = call.needed(case);
        for (place, length) in &damaged.cuts {
            lengths[*place] = *length;
        }
        self.freeze(call, &damaged.case, &lengths);
        self.must_name(damaged.named);
    }

    /// Holds the last answer to what it must name.
    fn must_name(&self, (refusal, table, place): damage::Named) {
        let answer = self.cases.last().expect("just pushed").answer;
        assert_eq!(answer[..3], [u64::from(refusal), u64::from(table), place as u64]);
    }

    /// The kernels on each power of two that they tell apart, and on random arguments.
    fn kernels(&mut self) {
        let powers: Vec<f64> = (-34..6).step_by(3).map(|place| 2.0_f64.powi(place)).collect();
        let smallest = [1, 3, 0x000f_ffff_ffff_ffff, 0x0010_0000_0000_0000].map(f64::from_bits);
        let random: Vec<f64> = (0..12).map(|_| 43.0 * self.random.unit()).collect();
        let last = [42.97, 42.975_125, 42.976, f64::MAX];
        for x in [&powers[..], &smallest, &random, &last].concat() {
            for (name, verdict) in compare::leaves::against_bio_on(&self.modes, -x, x, &[]) {
                must_agree(name, &verdict);
            }
            self.cases
                .push(Frozen::of_leaf(NAMES[4], &[-x], &leaves::exp(-x), None));
            self.cases.push(Frozen::of_leaf(NAMES[5], &[x], &leaves::ln(x), None));
            self.cases
                .push(Frozen::of_leaf(NAMES[6], &[-x], &leaves::ln_one_minus_exp(-x), None));
        }
    }

    /// Every leaf on edges and random arguments, with every refusal that it gives.
    fn leaves(&mut self) {
        for _ in 0..12 {
            let x = argument(&mut self.random);
            let y = near(x, &mut self.random);
            let mut xs = slice(&mut self.random);
            xs.truncate(9);
            self.leaves_on(x, y, &xs);
        }
        self.leaves_on(f64::NAN, -1.0, &[-1.0, f64::NAN]);
        self.leaves_on(-1.0, f64::NAN, &[f64::INFINITY, -1.0]);
        self.leaves_on(-2.0, -1.0, &[]);
        self.leaves_on(1.0, 0.5, &[MINUS]);
        self.leaves_on(f64::INFINITY, f64::INFINITY, &[-0.0]);
        self.leaves_on(0.0, -0.0, &[-3.0, -1.0, -2.0, -1.0]);
        self.leaves_on(-0.0, 0.0, &[MINUS, -700.0, -1.0]);
        self.leaves_on(MINUS, -1.0, &[-1e308, -1.0, 1e308]);
    }

    /// exp and ln on dense grids.
    fn grids(&mut self) {
        for d in grids::exp_arguments() {
            self.cases.push(Frozen::of_leaf(NAMES[4], &[d], &leaves::exp(d), None));
        }
        for x in grids::ln_arguments() {
            self.cases.push(Frozen::of_leaf(NAMES[5], &[x], &leaves::ln(x), None));
        }
    }

    /// Entries by their bits, on Viterbi, and one case in ten on all calls.
    fn entries(&mut self) {
        for (number, case) in entries::to_freeze(&mut self.random).iter().enumerate() {
            let calls = if number % 10 == 0 { &CALLS[..] } else { &CALLS[..1] };
            calls.iter().for_each(|call| self.entries_call(*call, case));
        }
    }

    /// A call on a case that has a bad entry by the rule on words, and names it, or has none, so that bio can be asked.
    fn entries_call(&mut self, call: Call, case: &Case) {
        match entries::first_fault(case) {
            None => self.call(call, case, 1),
            Some((table, place)) => {
                self.freeze(call, case, &call.needed(case));
                self.must_name((NOT_GOOD, table, place));
            }
        }
    }

    /// Model files: read, written, and their lengths.
    fn model_files(&mut self) {
        for lent in model_file::to_freeze(&model_p(), &mut self.random) {
            self.reading(&lent);
        }
        for (case, surplus) in model_file::models_to_freeze(&model_p(), &mut self.random) {
            self.call(Call::WriteModel, &case, surplus);
        }
        self.refusals(Call::WriteModel);
        for (case, length) in model_file::refused_to_freeze(&model_p()) {
            self.freeze(Call::WriteModel, &case, &[length]);
        }
        for shape in model_file::lengths_to_freeze() {
            must_agree("file_length", &model_file::length_by_the_rule(&REFERENCE, shape));
            self.cases.push(Frozen::of_length(shape, reference::file_length(shape)));
        }
    }

    /// Rivals: models of their own, those on which the end table matters, each at every index, and random ones; every
    /// refusal, and which of several is given.
    fn rivals(&mut self) {
        for (case, surplus) in rival::to_freeze(&model_p()) {
            self.call(Call::Rival, &case, surplus);
        }
        for case in ways_out().iter().flat_map(rival::at_every_index) {
            self.call(Call::Rival, &case, 1);
        }
        for (case, surplus) in models_of_every_kind(&mut self.random) {
            let index = self.random.below(case.samples.len());
            self.call(Call::Rival, &case.at(index), surplus);
        }
        self.refusals(Call::Rival);
        for (case, lengths, named) in rival::refused_to_freeze(&model_p()) {
            self.freeze(Call::Rival, &case, &lengths);
            self.must_name(named);
        }
    }

    /// Freezes the reading of a file, after holding it against the rule on bytes.
    fn reading(&mut self, lent: &Lent) {
        must_agree("read_model", &model_file::by_the_rule(&REFERENCE, lent));
        let left = lent.read_by(&REFERENCE);
        self.cases.push(Frozen::of_reading(lent, &left));
    }

    /// The first case of each call that is done, with one fault at a time.
    fn altered(&mut self) {
        let is_done = |case: &&Frozen| case.answer[0] == u64::from(DONE);
        let done: Vec<Frozen> = self.cases.iter().filter(is_done).cloned().collect();
        for call in 0..NAMES.len() as u64 {
            let first = done.iter().find(|case| case.call == call).expect("a case that is done");
            self.cases.extend(first.altered());
        }
    }

    /// Likelihoods beside best paths: model A and others, on Viterbi, forward and backward; and those three on model A,
    /// altered. They stand after all that was there before them, so that no earlier case has moved.
    fn likelihoods(&mut self) {
        let start = self.cases.len();
        for case in likelihood::to_freeze() {
            must_agree("likelihood", &Walks::by(&REFERENCE, &case).never_under());
            WALKS.into_iter().for_each(|call| self.call(call, &case, 1));
        }
        let on_model_a = self.cases[start..start + WALKS.len()].to_vec();
        let altered = on_model_a.iter().flat_map(Frozen::altered);
        self.cases.extend(altered);
    }

    fn leaves_on(&mut self, x: f64, y: f64, xs: &[f64]) {
        for (name, verdict) in compare::leaves::against_bio_on(&self.modes, x, y, xs) {
            must_agree(name, &verdict);
        }
        let valid = Answer::done(f64::from(u8::from(leaves::is_valid(x))));
        let answers = [
            leaves::exp(x),
            leaves::ln(x),
            leaves::ln_one_minus_exp(x),
            leaves::ln_sum_exp(xs),
            leaves::ln_add_exp(x, y),
            leaves::ln_sub_exp(x, y),
        ];
        let arguments: [&[f64]; 6] = [&[x], &[x], &[x], xs, &[x, y], &[x, y]];
        for (name, (answer, arguments)) in NAMES[4..10].iter().zip(answers.iter().zip(arguments)) {
            self.cases.push(Frozen::of_leaf(name, arguments, answer, None));
        }
        self.cumulative(xs);
        let capped = leaves::cap_numerical_overshoot(x, y);
        self.cases.push(Frozen::of_leaf(NAMES[11], &[x, y], &capped, None));
        let answers = [
            valid,
            leaves::checked(x),
            leaves::log_of_prob(x),
            leaves::prob_of_log(x),
            leaves::phred_of_log(x),
            leaves::log_of_phred(x),
        ];
        for (name, answer) in NAMES[12..18].iter().zip(&answers) {
            self.cases.push(Frozen::of_leaf(name, &[x], answer, None));
        }
    }

    /// Cumulative sums into an output with surplus, and into one that is too short.
    fn cumulative(&mut self, xs: &[f64]) {
        for length in [Some(xs.len() + 2), xs.len().checked_sub(1)].into_iter().flatten() {
            let mut output = vec![FILLED; length];
            let answer = leaves::ln_cumsum_exp(xs, &mut output);
            self.cases.push(Frozen::of_leaf(NAMES[10], xs, &answer, Some(&output)));
        }
    }
}

fn must_agree(what: &str, verdict: &Verdict) {
    if let Some(text) = &verdict.wrong {
        panic!("{what} differs: {text}");
    }
}

/// S states and two symbols, all entries 0.0 and no end state.
fn zeros(states: usize) -> Case {
    Case {
        shape: Shape {
            states,
            symbols: 2,
            ends: false,
        },
        transition: vec![0.0; states * states],
        emission: vec![0.0; states * 2],
        initial: vec![0.0; states],
        end: vec![0.0; states],
        samples: Vec::new(),
        index: 0,
    }
}

/// Random models of every kind of entry and how much surplus their outputs have, the largest last.
fn models_of_every_kind(random: &mut Random) -> Vec<(Case, usize)> {
    let mut cases = Vec::new();
    for (states, symbols, samples) in [(1, 1, 1), (2, 3, 4), (3, 2, 5), (4, 4, 7), (5, 3, 2)] {
        let sizes = Sizes {
            states,
            symbols,
            samples,
        };
        for kind in KINDS {
            let case = case::of_kinds(sizes, [kind; 4], random);
            cases.push((case, random.below(3)));
        }
    }
    let largest = Sizes {
        states: 16,
        symbols: 12,
        samples: 40,
    };
    cases.push((case::ordinary(largest, random), 0));
    cases
}

/// Models whose best path depends on the end table, E1 to E3 first, and the same without an end state.
fn ways_out() -> Vec<Case> {
    let mut cases = examples_of_the_way_out().to_vec();
    for (initial, ends) in WAYS_OUT {
        cases.extend(ends.iter().map(|end| never_left(initial, end)));
        cases.push(never_left(initial, ends[0]).without_end_state());
    }
    cases
}

/// The gate-post examples E1, E2 and E3, the last with an end state and without one.
fn examples_of_the_way_out() -> [Case; 4] {
    let [mut dear, mut minus_zeros] = [model_p(), zeros(2)];
    (dear.end, dear.shape.ends, dear.samples) = (vec![0.0, -4.0], true, vec![0, 1, 1]);
    let mut equal = dear.clone();
    equal.end[0] = -1.0;
    (minus_zeros.initial, minus_zeros.emission) = (vec![-0.0; 2], vec![-0.0; 4]);
    (minus_zeros.shape.ends, minus_zeros.samples) = (true, vec![0]);
    [dear, equal, minus_zeros.without_end_state(), minus_zeros]
}

/// Two samples of one symbol, and states that are never left. What is not given is -0.0, which adds nothing even to a zero.
fn never_left(initial: &[f64], end: &[f64]) -> Case {
    let states = initial.len();
    let stays = |place: usize| place / states == place % states;
    Case {
        shape: Shape {
            states,
            symbols: 1,
            ends: true,
        },
        transition: (0..states * states)
            .map(|place| if stays(place) { -0.0 } else { MINUS })
            .collect(),
        emission: vec![-0.0; states],
        initial: initial.to_vec(),
        end: end.to_vec(),
        samples: vec![0, 0],
        index: 0,
    }
}

fn model_p() -> Case {
    Case {
        transition: vec![-1.0, -2.0, -2.0, -1.0],
        emission: vec![-1.0, -3.0, -3.0, -1.0],
        initial: vec![-1.0, -2.0],
        ..zeros(2)
    }
}
