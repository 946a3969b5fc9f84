//! Readers and writers that are wrong, each in its own way.

use crate::case::Case;
use crate::engine::{Given, REFERENCE};
use crate::lent::{Call, Output};
use crate::model_file::rule::{self, places, shape_of, size_fault};
use reference::answer::{BAD_SUM, DONE, NOT_GOOD, OUTPUT_TOO_SHORT};
use reference::{read_model, Reading, Shape, Tables};

/// Reads a file into tables.
pub type Reads = fn(&[u8], &mut Tables) -> Reading;

/// Answers a call.
pub type Answers = fn(Call, &Case, &mut [Output]) -> Given;

/// Changes the bytes of a file of this shape.
type Changes = fn(Shape, &mut Vec<u8>);

/// A reader that does not read the file, but what this makes of it. A file whose shape no model has stays as it is.
fn read_changed(file: &[u8], tables: &mut Tables, changes: Changes) -> Reading {
    let mut changed = file.to_vec();
    if file.len() >= 8 && size_fault(shape_of(file)).is_none() {
        changes(shape_of(file), &mut changed);
    }
    read_model(&changed, tables)
}

/// A reader that sums in another way: it finds a sum right where it is that of this function.
fn read_summed(file: &[u8], tables: &mut Tables, sum: fn(&[u64]) -> u64) -> Reading {
    let shape = shape_of(&[file, &[0; 8]].concat());
    if size_fault(shape).is_some() || file.len() != rule::length(shape) {
        return read_model(file, tables);
    }
    let mut changed = file.to_vec();
    for place in places(shape) {
        let body = &file[place.body..place.end()];
        let words: Vec<u64> = body
            .chunks(8)
            .map(|word| u64::from_le_bytes(word.try_into().unwrap()))
            .collect();
        let is_right = file[place.sum()..][..8] == sum(&words).to_le_bytes();
        let sum = rule::sum(body).wrapping_add(u64::from(!is_right));
        changed[place.sum()..][..8].copy_from_slice(&sum.to_le_bytes());
    }
    read_model(&changed, tables)
}

/// The same file into tables that are long enough.
fn read_elsewhere(file: &[u8]) -> Reading {
    let mut lent = [4096, 16_384, 64, 64].map(|length| vec![0.0; length]);
    let [transition, emission, initial, end] = &mut lent;
    let mut tables = Tables {
        transition,
        emission,
        initial,
        end,
    };
    read_model(file, &mut tables)
}

/// Puts these bytes into a file that is long enough for them.
fn put(file: &mut [u8], place: usize, bytes: &[u8]) {
    if let Some(cells) = file.get_mut(place..place + bytes.len()) {
        cells.copy_from_slice(bytes);
    }
}

/// Readers by what is wrong with them.
pub const READERS: [(&str, Reads); 20] = [
    ("the sum skips the last word", |file, tables| {
        read_summed(file, tables, |words| {
            words[..words.len() - 1]
                .iter()
                .fold(0, |sum, word| sum.wrapping_add(*word))
        })
    }),
    ("the sum is an exclusive or", |file, tables| {
        read_summed(file, tables, |words| words.iter().fold(0, |sum, word| sum ^ word))
    }),
    ("the sum loses what it carries out of the low half", |file, tables| {
        read_summed(file, tables, |words| {
            let low = words.iter().fold(0, |sum: u32, word| sum.wrapping_add(*word as u32));
            let high = words
                .iter()
                .fold(0, |sum: u32, word| sum.wrapping_add((word >> 32) as u32));
            u64::from(high) << 32 | u64::from(low)
        })
    }),
    ("an offset is not compared", |file, tables| {
        read_changed(file, tables, |shape, file| {
            let place = places(shape)[1];
            put(file, place.entry + 4, &(place.body as u32).to_le_bytes());
        })
    }),
    ("a table number is not compared", |file, tables| {
        read_changed(file, tables, |shape, file| {
            put(file, places(shape)[2].entry, &[2, 0, 0, 0])
        })
    }),
    ("bytes after the bodies pass", |file, tables| {
        read_changed(file, tables, |shape, file| file.truncate(rule::length(shape)))
    }),
    ("missing bytes are read as 0", |file, tables| {
        read_changed(file, tables, |shape, file| {
            let length = rule::length(shape).max(file.len());
            file.resize(length, 0);
        })
    }),
    ("the flag's high byte is not looked at", |file, tables| {
        read_changed(file, tables, |_, file| file[5] = 0)
    }),
    ("any flag but 1 is none", |file, tables| {
        read_changed(file, tables, |shape, file| file[4] = u8::from(shape.ends))
    }),
    ("the number of entries is not looked at", |file, tables| {
        read_changed(file, tables, |shape, file| put(file, 6, &[3 + u8::from(shape.ends), 0]))
    }),
    ("entries are written before 7 is found", |file, tables| {
        let reading = read_model(file, tables);
        if reading.answer.refusal == NOT_GOOD {
            let place = places(shape_of(file))[0].body;
            tables.transition[0] = f64::from_le_bytes(file[place..place + 8].try_into().unwrap());
        }
        reading
    }),
    ("7 is found before 6", |file, tables| {
        let reading = read_model(file, tables);
        let elsewhere = read_elsewhere(file);
        match (reading.answer.refusal, elsewhere.answer.refusal) {
            (OUTPUT_TOO_SHORT, NOT_GOOD) => elsewhere,
            _ => reading,
        }
    }),
    ("the end table may be short without an end state", |file, tables| {
        let reading = read_model(file, tables);
        let elsewhere = read_elsewhere(file);
        match (reading.answer.refusal, reading.answer.table) {
            (OUTPUT_TOO_SHORT, 9) if !elsewhere.shape.ends => elsewhere,
            _ => reading,
        }
    }),
    ("the end table is not filled", |file, tables| {
        let before = tables.end.to_vec();
        let reading = read_model(file, tables);
        if !reading.shape.ends {
            tables.end.copy_from_slice(&before);
        }
        reading
    }),
    ("surplus is cleared", |file, tables| {
        let reading = read_model(file, tables);
        if reading.answer.refusal == DONE {
            tables.emission[reading.shape.lengths()[1]..].fill(0.0);
        }
        reading
    }),
    ("-0.0 is read as +0.0", |file, tables| {
        let reading = read_model(file, tables);
        tables.emission.iter_mut().for_each(|entry| *entry += 0.0);
        reading
    }),
    ("a sum names no table", |file, tables| {
        let mut reading = read_model(file, tables);
        if reading.answer.refusal == BAD_SUM {
            reading.answer.table = 0;
        }
        reading
    }),
    ("a refusal has a shape beside it", |file, tables| {
        let mut reading = read_model(file, tables);
        if reading.answer.refusal == NOT_GOOD {
            reading.shape = shape_of(file);
        }
        reading
    }),
    ("the shape is always without an end state", |file, tables| {
        let mut reading = read_model(file, tables);
        reading.shape.ends = false;
        reading
    }),
    ("done is minus infinity", |file, tables| {
        let mut reading = read_model(file, tables);
        reading.answer.value = f64::NEG_INFINITY;
        reading
    }),
];

/// A writer whose file is changed after it is done.
fn write_changed(call: Call, case: &Case, outputs: &mut [Output], changes: Changes) -> Given {
    let given = (REFERENCE.call)(call, case, outputs);
    if let (DONE, [Output::Bytes(file)]) = (given.answer.refusal, outputs) {
        changes(case.shape, file);
    }
    given
}

/// Writers by what is wrong with them.
pub const WRITERS: [(&str, Answers); 7] = [
    ("a sum is one more", |call, case, outputs| {
        write_changed(call, case, outputs, |shape, file| {
            let sum = places(shape)[2].sum();
            file[sum] = file[sum].wrapping_add(1);
        })
    }),
    ("an offset is another", |call, case, outputs| {
        write_changed(call, case, outputs, |shape, file| file[places(shape)[1].entry + 4] ^= 8)
    }),
    ("the flag is not written", |call, case, outputs| {
        write_changed(call, case, outputs, |_, file| file[4] = 0)
    }),
    ("the last word is not written", |call, case, outputs| {
        write_changed(call, case, outputs, |shape, file| {
            let length = rule::length(shape);
            file[length - 8..length].fill(0xa5);
        })
    }),
    ("a byte of surplus is written", |call, case, outputs| {
        write_changed(call, case, outputs, |shape, file| file[rule::length(shape)] ^= 1)
    }),
    ("-0.0 is written as +0.0", |call, case, outputs| {
        let mut plain = case.clone();
        plain.emission.iter_mut().for_each(|entry| *entry += 0.0);
        (REFERENCE.call)(call, &plain, outputs)
    }),
    ("done is minus infinity", |call, case, outputs| {
        let mut given = (REFERENCE.call)(call, case, outputs);
        given.answer.value = f64::NEG_INFINITY;
        given
    }),
];
