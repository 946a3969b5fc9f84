//! Rivals and margins through the wrapper. A rival is held to `viterbi` on a model in which the chosen state cannot be at the
//! sample, and to every path there is; wrong faces are seen. In the first model every entry is another, so that no two
//! arguments can be taken for each other.

use std::mem::swap;
use wasnugram::*;

const MINUS: f64 = f64::NEG_INFINITY;
const EXIT: Model = Model {
    shape: Shape {
        states: 3,
        symbols: 4,
        ends: true,
    },
    transition: &[-0.7, -1.1, -1.9, -2.3, -0.4, -1.3, -0.9, -1.7, -0.6],
    emission: &[-0.3, -1.6, -2.9, -1.2, -2.1, -0.5, -1.4, -2.6, -1.8, -3.1, -0.8, -1.5],
    initial: &[-0.2, -2.2, -2.4],
    end: &[-2.8, -3.3, -0.1],
};
const ENDLESS: Model = Model {
    shape: Shape {
        ends: false,
        ..EXIT.shape
    },
    end: &[0.0; 3],
    ..EXIT
};
/// Every path is as good as every other, and some zeros are below zero.
const TIES: Model = Model {
    transition: &[0.0; 9],
    emission: &[-0.0; 12],
    initial: &[0.0, -0.0, -0.0],
    ..ENDLESS
};
/// State 1 is entered at the start alone, and state 2 is never left.
const ONE_WAY: Model = Model {
    transition: &[-0.7, MINUS, -1.9, -2.3, -0.4, -1.3, MINUS, MINUS, -0.6],
    ..EXIT
};
const MODELS: [Model; 4] = [EXIT, ENDLESS, TIES, ONE_WAY];
/// A passage always starts in state 0.
const ONE_START: Model = Model {
    initial: &[-0.2, MINUS, MINUS],
    ..EXIT
};
/// No passage starts at all.
const MUTE: Model = Model {
    initial: &[MINUS; 3],
    ..EXIT
};
const SAMPLES: [u16; 5] = [0, 3, 1, 2, 1];
const T: usize = SAMPLES.len();
const CELLS: usize = EXIT.shape.cells(T);
/// What lent memory holds before a call, and how much longer than needed it is.
const FILL: u8 = 0xa5;
const SURPLUS: usize = 2;

fn bits(table: &[f64]) -> Vec<u64> {
    table.iter().map(|entry| entry.to_bits()).collect()
}

/// The four lent outputs of a call, and margins beside them.
#[derive(Clone, Debug)]
struct Lent {
    path: Vec<u8>,
    rival_path: Vec<u8>,
    values: Vec<f64>,
    from: Vec<u8>,
    margins: Vec<f64>,
}

impl Lent {
    fn of([path, rival_path, values, from, margins]: [usize; 5]) -> Lent {
        let number = f64::from_bits(u64::from_le_bytes([FILL; 8]));
        Lent {
            path: vec![FILL; path],
            rival_path: vec![FILL; rival_path],
            values: vec![number; values],
            from: vec![FILL; from],
            margins: vec![number; margins],
        }
    }

    /// Each output longer than five samples need.
    fn roomy() -> Lent {
        Lent::of([T, T, CELLS, CELLS, T].map(|needed| needed + SURPLUS))
    }

    /// Whether each output holds what it was filled with, from these places on.
    fn is_untouched_from(&self, [path, rival_path, values, from, margins]: [usize; 5]) -> bool {
        let bytes = |numbers: &[f64]| numbers.iter().flat_map(|number| number.to_le_bytes()).collect();
        let rest: [Vec<u8>; 5] = [
            self.path[path..].to_vec(),
            self.rival_path[rival_path..].to_vec(),
            bytes(&self.values[values..]),
            self.from[from..].to_vec(),
            bytes(&self.margins[margins..]),
        ];
        rest.concat().iter().all(|byte| *byte == FILL)
    }

    fn rival(&mut self, model: &Model, samples: &[u16], index: usize) -> Result<Rival<'_>, Refused> {
        let (path, rival_path) = (&mut self.path, &mut self.rival_path);
        rival(
            model,
            samples,
            index,
            path,
            rival_path,
            &mut self.values,
            &mut self.from,
        )
    }

    fn margins(&mut self, model: &Model, samples: &[u16]) -> Result<(), Refused> {
        let (path, rival_path) = (&mut self.path, &mut self.rival_path);
        margins(
            model,
            samples,
            path,
            rival_path,
            &mut self.values,
            &mut self.from,
            &mut self.margins,
        )
    }
}

/// All that a call that is done gives and leaves, numbers by their bits.
#[derive(Clone, Debug, PartialEq)]
struct Found {
    path: Vec<u8>,
    best: u64,
    chosen: usize,
    rival_path: Vec<u8>,
    value: u64,
    values: Vec<u64>,
    from: Vec<u8>,
}

fn by_the_wrapper(model: &Model, index: usize) -> Found {
    let mut lent = Lent::roomy();
    let found = lent.rival(model, &SAMPLES, index).unwrap();
    let (path, rival_path) = (found.path.to_vec(), found.rival_path.to_vec());
    let (best, chosen, value) = (found.best.to_bits(), found.chosen, found.value.to_bits());
    assert!(lent.is_untouched_from([T, T, CELLS, CELLS, 0]), "surplus is left alone");
    let (values, from) = (bits(&lent.values[..CELLS]), lent.from[..CELLS].to_vec());
    Found {
        path,
        best,
        chosen,
        rival_path,
        value,
        values,
        from,
    }
}

/// The same by two calls of `viterbi`, the second on a model in which the chosen state cannot be at the sample.
fn by_viterbi(model: &Model, index: usize) -> Found {
    let (path, best, ..) = decoded(model, &SAMPLES);
    let chosen = usize::from(path[index]);
    let emission = with_a_symbol_more(model, SAMPLES[index], chosen);
    let symbols = model.shape.symbols + 1;
    let shape = Shape { symbols, ..model.shape };
    let barred = Model {
        shape,
        emission: &emission,
        ..*model
    };
    let mut samples = SAMPLES;
    samples[index] = model.shape.symbols as u16;
    let (rival_path, value, values, from) = decoded(&barred, &samples);
    Found {
        path,
        best,
        chosen,
        rival_path,
        value,
        values,
        from,
    }
}

/// The emissions with a last symbol more, which this state never emits and the others emit as they do the sample.
fn with_a_symbol_more(model: &Model, sample: u16, barred: usize) -> Vec<f64> {
    let rows = model.emission.chunks(model.shape.symbols).enumerate();
    let longer = rows.map(|(state, row)| match state == barred {
        true => [row, &[MINUS]].concat(),
        false => [row, &[row[usize::from(sample)]]].concat(),
    });
    longer.flatten().collect()
}

/// The best path, its value's bits, and both tables of its walk.
fn decoded(model: &Model, samples: &[u16]) -> (Vec<u8>, u64, Vec<u64>, Vec<u8>) {
    let (mut path, mut values, mut from) = (vec![0; T], [0.0; CELLS], vec![0; CELLS]);
    let decoded = viterbi(model, samples, &mut path, &mut values, &mut from).unwrap();
    let value = decoded.value.to_bits();
    (path, value, bits(&values), from)
}

/// The wrapper, or one that is wrong; and what makes it wrong.
type Face = fn(&Model, usize) -> Found;
type Change = fn(&mut Found, usize);

/// Whether a face finds something else than two calls of `viterbi` do, at some sample with some model.
fn is_wrong(face: impl Fn(&Model, usize) -> Found) -> bool {
    let mut cases = MODELS.iter().flat_map(|model| (0..T).map(move |index| (model, index)));
    cases.any(|(model, index)| face(model, index) != by_viterbi(model, index))
}

#[test]
fn a_rival_is_the_best_path_where_the_chosen_state_cannot_be() {
    assert!(!is_wrong(by_the_wrapper));
}

#[test]
fn a_face_that_gives_something_else_is_seen() {
    let faces: [(&str, Change); 5] = [
        ("the paths are exchanged", |found, _| {
            swap(&mut found.path, &mut found.rival_path)
        }),
        ("the values are exchanged", |found, _| {
            swap(&mut found.best, &mut found.value)
        }),
        ("the rival is the best path", |found, _| {
            found.rival_path.clone_from(&found.path)
        }),
        ("the chosen state is the rival's", |found, index| {
            found.chosen = usize::from(found.rival_path[index])
        }),
        ("the chosen state's cell is left out", |found, index| {
            found.values[3 * index + found.chosen] = 0
        }),
    ];
    for (name, change) in faces {
        let face = |model: &Model, index| {
            let mut found = by_the_wrapper(model, index);
            change(&mut found, index);
            found
        };
        assert!(is_wrong(face), "not seen: {name}");
    }
}

#[test]
fn a_face_that_hands_over_something_else_is_seen() {
    let faces: [(&str, Face); 3] = [
        ("the index counts from the end", |model, index| {
            by_the_wrapper(model, T - 1 - index)
        }),
        ("initial and end are exchanged", |model, index| {
            let (initial, end) = (model.end, model.initial);
            by_the_wrapper(&Model { initial, end, ..*model }, index)
        }),
        ("the end state is lost", |model, index| {
            let shape = Shape {
                ends: false,
                ..model.shape
            };
            by_the_wrapper(
                &Model {
                    shape,
                    end: &[0.0; 3],
                    ..*model
                },
                index,
            )
        }),
    ];
    for (name, face) in faces {
        assert!(is_wrong(face), "not seen: {name}");
    }
}

/// Every path, with its score from left to right.
fn every_path(model: &Model) -> Vec<(Vec<u8>, f64)> {
    let states = model.shape.states;
    let state = |number: usize, t: u32| (number / states.pow(t) % states) as u8;
    let paths = (0..states.pow(T as u32)).map(|number| (0..T as u32).map(|t| state(number, t)).collect());
    paths.map(|path: Vec<u8>| (path.clone(), score(model, &path))).collect()
}

fn score(model: &Model, path: &[u8]) -> f64 {
    let at = |t: usize| usize::from(path[t]);
    let emission = |t: usize| model.emission[at(t) * model.shape.symbols + usize::from(SAMPLES[t])];
    let step = |t: usize| model.transition[at(t - 1) * model.shape.states + at(t)];
    let first = model.initial[at(0)] + emission(0);
    let score = (1..T).fold(first, |score, t| score + step(t) + emission(t));
    if model.shape.ends {
        score + model.end[at(T - 1)]
    } else {
        score
    }
}

/// How far the best path with another state than the chosen one at the index is behind all paths.
fn margin_of_every_path(model: &Model, index: usize, chosen: usize) -> f64 {
    let paths = every_path(model);
    let greatest = |scores: &mut dyn Iterator<Item = f64>| scores.fold(MINUS, f64::max);
    let others = paths.iter().filter(|(path, _)| usize::from(path[index]) != chosen);
    greatest(&mut paths.iter().map(|(_, score)| *score)) - greatest(&mut others.map(|(_, score)| *score))
}

#[test]
fn no_path_with_another_state_scores_higher() {
    for model in &MODELS {
        for index in 0..T {
            let mut lent = Lent::roomy();
            let found = lent.rival(model, &SAMPLES, index).unwrap();
            assert_eq!(usize::from(found.path[index]), found.chosen);
            assert_ne!(usize::from(found.rival_path[index]), found.chosen);
            assert_eq!(score(model, found.path), found.best);
            assert_eq!(score(model, found.rival_path), found.value);
            assert_eq!(found.margin(), margin_of_every_path(model, index, found.chosen));
        }
    }
    let margins = |model| [0, 1, 2].map(|state| margin_of_every_path(model, 2, state));
    assert_eq!(margins(&TIES), [0.0; 3]);
    assert_eq!(
        margins(&EXIT).iter().filter(|margin| **margin > 0.0).count(),
        1,
        "the chosen state alone is ahead"
    );
}

/// What refuses a rival; everything that was lent must be as it was.
fn refusal(lent: &mut Lent, model: &Model, samples: &[u16], index: usize) -> Refused {
    let refused = lent.rival(model, samples, index).unwrap_err();
    assert!(lent.is_untouched_from([0; 5]));
    refused
}

fn named(refusal: Refusal, table: Table, place: usize) -> Refused {
    let table = Some(table);
    Refused { refusal, table, place }
}

/// The outputs are counted from 0 here.
fn too_short(output: usize, length: usize) -> Refused {
    named(Refusal::OutputTooShort, Table::Output(5 + output as u8), length)
}

fn without_place(refusal: Refusal) -> Refused {
    Refused {
        refusal,
        table: None,
        place: 0,
    }
}

#[test]
fn each_output_is_named_by_its_number() {
    let needed = [T, T, CELLS, CELLS, T];
    for output in 0..5 {
        let mut lengths = needed;
        lengths[output] -= 1;
        let expected = too_short(output, lengths[output]);
        let mut lent = Lent::of(lengths);
        assert_eq!(lent.margins(&EXIT, &SAMPLES), Err(expected));
        assert!(lent.is_untouched_from([0; 5]));
        if output < 4 {
            assert_eq!(refusal(&mut lent, &EXIT, &SAMPLES, 0), expected);
        }
    }
    assert!(Lent::of(needed).margins(&EXIT, &SAMPLES).is_ok());
}

#[test]
fn an_index_is_looked_at_after_the_samples_and_a_rival_last() {
    let mut lent = Lent::roomy();
    let unknown = refusal(&mut lent, &MUTE, &[0, 3, 4], 3);
    assert_eq!((unknown.refusal, unknown.place), (Refusal::UnknownSymbol, 2));
    for index in [T, T + 1, usize::MAX] {
        assert_eq!(
            refusal(&mut lent, &MUTE, &SAMPLES, index),
            without_place(Refusal::BadIndex)
        );
    }
    assert_eq!(refusal(&mut lent, &EXIT, &[], 0), without_place(Refusal::BadIndex));
    assert_eq!(
        refusal(&mut lent, &MUTE, &SAMPLES, T - 1),
        without_place(Refusal::NoRival)
    );
    assert_eq!(
        refusal(&mut lent, &ONE_START, &SAMPLES, 0),
        without_place(Refusal::NoRival)
    );
    assert!(lent.rival(&ONE_START, &SAMPLES, 1).is_ok());
}

#[test]
fn a_raw_refusal_gives_no_chosen_state_and_no_best_value() {
    let mut lent = Lent::roomy();
    let mut ask = |index| {
        let (path, rival_path) = (&mut lent.path, &mut lent.rival_path);
        raw::rival(
            &EXIT,
            &SAMPLES,
            index,
            path,
            rival_path,
            &mut lent.values,
            &mut lent.from,
        )
    };
    let done = ask(T - 1);
    assert_eq!((done.answer.refusal, done.answer.table, done.answer.place), (0, 0, 0));
    assert_eq!(
        (done.chosen, done.best > done.answer.value, done.answer.value > MINUS),
        (2, true, true)
    );
    let refused = ask(T);
    assert_eq!(
        (refused.answer.refusal, refused.answer.table, refused.answer.place),
        (16, 0, 0)
    );
    assert_eq!((refused.chosen, refused.best, refused.answer.value), (0, MINUS, MINUS));
}

#[test]
fn margins_are_those_of_a_rival_at_each_sample() {
    for model in MODELS.into_iter().chain([ONE_START]) {
        let mut lent = Lent::roomy();
        lent.margins(&model, &SAMPLES).unwrap();
        assert!(lent.is_untouched_from([T, T, CELLS, CELLS, T]), "surplus is left alone");
        let each = (0..T).map(|index| match Lent::roomy().rival(&model, &SAMPLES, index) {
            Ok(found) => found.margin(),
            Err(_) => f64::INFINITY,
        });
        assert_eq!(bits(&lent.margins[..T]), bits(&each.collect::<Vec<f64>>()));
    }
}

#[test]
fn margins_of_what_is_impossible_are_without_end() {
    let mut lent = Lent::roomy();
    lent.margins(&MUTE, &SAMPLES).unwrap();
    assert_eq!(lent.margins[..T], [f64::INFINITY; T]);
    assert!(lent.is_untouched_from([0, 0, 0, 0, T]));
}

/// Margins that are too short are named after every other wrong length, and before a bad entry or sample.
#[test]
fn margins_are_checked_in_the_order_of_the_rules() {
    let bad = Model {
        initial: &[-0.2, 0.5, -2.4],
        ..EXIT
    };
    let not_good = named(Refusal::NotGood, Table::Initial, 1);
    let wrong = named(Refusal::WrongLength, Table::End, 1);
    let unknown = named(Refusal::UnknownSymbol, Table::Samples, 4);
    let cut = Model { end: &[0.0], ..bad };
    let outside: &[u16] = &[0, 3, 1, 2, 4];
    let (long, short, shorter) = ([T, T, CELLS, CELLS, T], [T, T, CELLS, CELLS, 2], [T, T, CELLS, 1, 2]);
    let cases = [
        (cut, outside, shorter, wrong),
        (bad, outside, shorter, too_short(3, 1)),
        (bad, outside, short, too_short(4, 2)),
        (EXIT, outside, short, too_short(4, 2)),
        (EXIT, &SAMPLES, short, too_short(4, 2)),
        (bad, outside, long, not_good),
        (EXIT, outside, long, unknown),
        (bad, &[], [0; 5], not_good),
    ];
    for (model, samples, lengths, expected) in cases {
        let mut lent = Lent::of(lengths);
        assert_eq!(lent.margins(&model, samples), Err(expected));
        assert!(lent.is_untouched_from([0; 5]));
    }
    assert_eq!(Lent::of([0; 5]).margins(&EXIT, &[]), Ok(()));
}
