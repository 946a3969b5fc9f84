//! Every refusal by a call that gives it: its number, its table and its place in words; and what a done answer may mean.

use wasnugram::*;

const MINUS: f64 = f64::NEG_INFINITY;
const GOOD: Model = Model {
    shape: Shape {
        states: 2,
        symbols: 2,
        ends: false,
    },
    transition: &[-1.0, -2.0, -2.0, -1.0],
    emission: &[-1.0, -3.0, -3.0, -1.0],
    initial: &[-1.0, -2.0],
    end: &[0.0, 0.0],
};

fn decode(model: Model, samples: &[u16]) -> Result<f64, Refused> {
    viterbi(&model, samples, &mut [0; 3], &mut [0.0; 6], &mut [0; 6]).map(|decoded| decoded.value)
}

fn rival_at(model: Model, index: usize) -> Result<f64, Refused> {
    let (mut path, mut rival_path) = ([0; 3], [0; 3]);
    let found = rival(
        &model,
        &[0, 1, 1],
        index,
        &mut path,
        &mut rival_path,
        &mut [0.0; 6],
        &mut [0; 6],
    );
    found.map(|found| found.value)
}

fn train(model: Model, samples: &[u16]) -> Result<f64, Refused> {
    let mut new = Estimates {
        new_transition: &mut [0.0; 4],
        new_emission: &mut [0.0; 4],
        new_initial: &mut [0.0; 2],
        new_end: &mut [0.0; 2],
        alpha: &mut [0.0; 6],
        beta: &mut [0.0; 6],
    };
    baum_welch(&model, samples, &mut new)
}

/// Writes the file of the good model, changes it, and reads it.
fn read_changed(change: impl FnOnce(&mut Vec<u8>)) -> Result<f64, Refused> {
    let mut file = vec![0; GOOD.shape.file_length()];
    write_model(&GOOD, &mut file).unwrap();
    change(&mut file);
    let tables = Tables {
        transition: &mut [0.0; 4],
        emission: &mut [0.0; 4],
        initial: &mut [0.0; 2],
        end: &mut [0.0; 1],
    };
    read_model(&file, tables).map(|model| model.initial[0])
}

fn shaped(states: usize, symbols: usize) -> Model<'static> {
    let shape = Shape {
        states,
        symbols,
        ..GOOD.shape
    };
    Model { shape, ..GOOD }
}

#[test]
fn walks_say_what_is_wrong() {
    let too_many = [0; MOST_SAMPLES + 1];
    let refused = [
        (
            decode(shaped(MOST_STATES + 1, 2), &[]),
            "refusal 1 (BadStates): 65 states, and a model has 1 to 64",
        ),
        (
            decode(shaped(2, MOST_SYMBOLS + 1), &[]),
            "refusal 2 (BadSymbols): 257 symbols, and a model has 1 to 256",
        ),
        (
            decode(GOOD, &too_many),
            "refusal 3 (TooManySamples): 4097 samples, and a call takes at most 4096",
        ),
        (
            forward(&GOOD, &[], &mut []),
            "refusal 4 (NoSamples): no samples, and the call needs one",
        ),
        (
            decode(Model { end: &[0.0], ..GOOD }, &[]),
            "refusal 5 (WrongLength): the end table has length 1, which is wrong",
        ),
        (
            backward(&GOOD, &[0, 1], &mut [0.0; 3]),
            "refusal 6 (OutputTooShort): output 5 has length 3, which is too short",
        ),
        (
            decode(
                Model {
                    initial: &[-1.0, f64::NAN],
                    ..GOOD
                },
                &[0],
            ),
            "refusal 7 (NotGood): entry 1 of the initial table is not good",
        ),
        (
            decode(
                Model {
                    transition: &[-1.0, 0.5, -2.0, -1.0],
                    ..GOOD
                },
                &[0],
            ),
            "refusal 7 (NotGood): entry 1 of the transition table is not good",
        ),
        (
            decode(GOOD, &[0, 1, 2]),
            "refusal 8 (UnknownSymbol): sample 2 is no symbol of the model",
        ),
        (
            train(GOOD, &[1]),
            "refusal 9 (ZeroMass): no mass at place 0: a state, or their number for the whole",
        ),
        (
            rival_at(
                Model {
                    initial: &[MINUS; 2],
                    ..GOOD
                },
                2,
            ),
            "refusal 15 (NoRival): every path with another state at the index is impossible",
        ),
        (
            rival_at(GOOD, 3),
            "refusal 16 (BadIndex): there is no sample at the index",
        ),
    ];
    for (answer, words) in refused {
        assert_eq!(answer.unwrap_err().to_string(), words);
    }
}

/// The end table is lent one entry too short, so that a file that is right is refused too.
#[test]
fn the_reader_says_what_is_wrong() {
    let refused = [
        (
            read_changed(|file| file[1] ^= 1),
            "refusal 1 (BadStates): 258 states, and a model has 1 to 64",
        ),
        (
            read_changed(|file| file[2] = 0),
            "refusal 2 (BadSymbols): 0 symbols, and a model has 1 to 256",
        ),
        (
            read_changed(|file| file[12] += 8),
            "refusal 13 (BadLayout): the model file is wrong from byte 12 on, or ends there",
        ),
        (
            read_changed(|file| file.truncate(135)),
            "refusal 13 (BadLayout): the model file is wrong from byte 135 on, or ends there",
        ),
        (
            read_changed(|file| file.push(0)),
            "refusal 13 (BadLayout): the model file is wrong from byte 136 on, or ends there",
        ),
        (
            read_changed(|file| file[135] ^= 0x80),
            "refusal 14 (BadSum): the sum of the initial table in the model file is wrong",
        ),
        (
            read_changed(|_| ()),
            "refusal 6 (OutputTooShort): output 9 has length 1, which is too short",
        ),
    ];
    for (answer, words) in refused {
        assert_eq!(answer.unwrap_err().to_string(), words);
    }
}

#[test]
fn leaves_say_what_is_wrong() {
    let refused = [
        (
            exp(1.0),
            "refusal 7 (NotGood): place 0 of the arguments is NaN or outside its domain",
        ),
        (
            ln_add_exp(0.0, f64::NAN),
            "refusal 7 (NotGood): place 1 of the arguments is NaN or outside its domain",
        ),
        (
            ln_sum_exp(&[0.0, 0.0, f64::NAN]),
            "refusal 7 (NotGood): place 2 of the arguments is NaN or outside its domain",
        ),
        (
            ln_cumsum_exp(&[0.0, 0.0], &mut [0.0]),
            "refusal 6 (OutputTooShort): output 5 has length 1, which is too short",
        ),
        (
            ln_sub_exp(-2.0, -1.0),
            "refusal 10 (NegativeDifference): the difference is below zero",
        ),
        (
            cap_numerical_overshoot(1.0, 0.5),
            "refusal 11 (Overshoot): a value too far above zero, or NaN",
        ),
    ];
    for (answer, words) in refused {
        assert_eq!(answer.unwrap_err().to_string(), words);
    }
}

#[test]
fn a_refusal_is_an_error_of_its_own() {
    let error: Box<dyn std::error::Error> = Box::new(exp(1.0).unwrap_err());
    assert!(error.to_string().starts_with("refusal 7 (NotGood)"));
}

#[test]
fn numbers_and_refusals_are_one_to_one() {
    for number in 0..=u8::MAX {
        let known = matches!(number, 1..=11 | 13..=16);
        assert_eq!(
            Refusal::from_number(number).map(Refusal::number),
            known.then_some(number)
        );
    }
}

/// A passage that no path explains is done: only its value says so, whatever stands in the path.
#[test]
fn done_is_not_yet_an_explanation() {
    let mute = Model {
        initial: &[MINUS; 2],
        ..GOOD
    };
    let (mut path, mut values, mut from) = ([7; 4], [0.0; 6], [0; 6]);
    let decoded = viterbi(&mute, &[0, 1, 1], &mut path, &mut values, &mut from).unwrap();
    assert_eq!(
        (decoded.path.len(), decoded.value, decoded.is_possible()),
        (3, MINUS, false)
    );
    assert_eq!(path[3], 7, "surplus is left alone");
    assert!(!is_possible(forward(&mute, &[0, 1, 1], &mut values).unwrap()));
    assert!(!is_possible(backward(&mute, &[0, 1, 1], &mut values).unwrap()));
    assert_eq!(train(mute, &[0, 1, 1]).unwrap_err().refusal, Refusal::ZeroMass);
    let decoded = viterbi(&GOOD, &[0, 1, 1], &mut path, &mut values, &mut from).unwrap();
    assert!(decoded.is_possible());
}
