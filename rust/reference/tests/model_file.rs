//! The model file by its bytes, its reader by its checks, and what becomes of a file that is not whole.

use reference::{file_length, read_model, write_model, Answer, Model, Reading, Shape, Tables};

const MINUS: f64 = f64::NEG_INFINITY;

/// What lent entries and bytes are before a call.
const ENTRY: u64 = 0xa5a5_a5a5_a5a5_a5a5;
const BYTE: u8 = 0xa5;

/// The file of model P, eight bytes a line.
#[rustfmt::skip]
const FILE_OF_P: [[u8; 8]; 17] = [
    [0x02, 0x00, 0x02, 0x00, 0x00, 0x00, 0x03, 0x00], //   0: 2 states, 2 symbols, no end state, 3 entries
    [0x00, 0x00, 0x00, 0x00, 0x38, 0x00, 0x00, 0x00], //   8: table 0, at byte 56
    [0x00, 0x00, 0x00, 0x00, 0x00, 0x00, 0xe0, 0xff], //  16: its sum
    [0x01, 0x00, 0x00, 0x00, 0x58, 0x00, 0x00, 0x00], //  24: table 1, at byte 88
    [0x00, 0x00, 0x00, 0x00, 0x00, 0x00, 0xf0, 0xff], //  32: its sum
    [0x02, 0x00, 0x00, 0x00, 0x78, 0x00, 0x00, 0x00], //  40: table 2, at byte 120
    [0x00, 0x00, 0x00, 0x00, 0x00, 0x00, 0xf0, 0x7f], //  48: its sum
    [0x00, 0x00, 0x00, 0x00, 0x00, 0x00, 0xf0, 0xbf], //  56: transition -1
    [0x00, 0x00, 0x00, 0x00, 0x00, 0x00, 0x00, 0xc0], //  64: -2
    [0x00, 0x00, 0x00, 0x00, 0x00, 0x00, 0x00, 0xc0], //  72: -2
    [0x00, 0x00, 0x00, 0x00, 0x00, 0x00, 0xf0, 0xbf], //  80: -1
    [0x00, 0x00, 0x00, 0x00, 0x00, 0x00, 0xf0, 0xbf], //  88: emission -1
    [0x00, 0x00, 0x00, 0x00, 0x00, 0x00, 0x08, 0xc0], //  96: -3
    [0x00, 0x00, 0x00, 0x00, 0x00, 0x00, 0x08, 0xc0], // 104: -3
    [0x00, 0x00, 0x00, 0x00, 0x00, 0x00, 0xf0, 0xbf], // 112: -1
    [0x00, 0x00, 0x00, 0x00, 0x00, 0x00, 0xf0, 0xbf], // 120: initial -1
    [0x00, 0x00, 0x00, 0x00, 0x00, 0x00, 0x00, 0xc0], // 128: -2
];

const P: Model = Model {
    shape: Shape {
        states: 2,
        symbols: 2,
        ends: false,
    },
    transition: &[-1.0, -2.0, -2.0, -1.0],
    emission: &[-1.0, -3.0, -3.0, -1.0],
    initial: &[-1.0, -2.0],
    end: &[0.0, 0.0],
};

/// One state more than symbols, and an end state.
const EXIT: Model = Model {
    shape: Shape {
        states: 3,
        symbols: 2,
        ends: true,
    },
    transition: &[-1.0, -2.0, MINUS, -0.0, 0.0, -1e-310, -1e308, -0.5, -0.25],
    emission: &[-1.0, -3.0, -3.0, -1.0, -0.1, -0.2],
    initial: &[-1.0, MINUS, -2.0],
    end: &[-4.0, 0.0, -0.0],
};

const NO_SHAPE: Shape = Shape {
    states: 0,
    symbols: 0,
    ends: false,
};

/// The answer's fields and the bits of the four lent tables.
#[derive(Clone, Debug, PartialEq)]
struct Read {
    named: (u8, u8, usize),
    value: u64,
    shape: Shape,
    tables: [Vec<u64>; 4],
}

/// Reads a file into filled tables of these lengths.
fn read_into(file: &[u8], lengths: [usize; 4]) -> Read {
    let mut lent = lengths.map(|length| vec![f64::from_bits(ENTRY); length]);
    let [transition, emission, initial, end] = &mut lent;
    let mut tables = Tables {
        transition,
        emission,
        initial,
        end,
    };
    let Reading { answer, shape } = read_model(file, &mut tables);
    Read {
        named: (answer.refusal, answer.table, answer.place),
        value: answer.value.to_bits(),
        shape,
        tables: lent.map(|table| bits(&table)),
    }
}

/// Reads a file into filled tables that have room for every file here and for surplus.
fn read(file: &[u8]) -> Read {
    read_into(file, [12; 4])
}

fn bits(table: &[f64]) -> Vec<u64> {
    table.iter().map(|entry| entry.to_bits()).collect()
}

fn written(model: &Model) -> Vec<u8> {
    let mut file = vec![BYTE; file_length(model.shape)];
    let answer = write_model(model, &mut file);
    assert!(answer.same_bits(&Answer::done(0.0)), "{answer:?}");
    file
}

/// The refusal that a file is read with, after it was seen that nothing was written and no shape was given.
fn refusal(file: &[u8]) -> (u8, u8, usize) {
    refusal_into(file, [12; 4])
}

fn refusal_into(file: &[u8], lengths: [usize; 4]) -> (u8, u8, usize) {
    let read = read_into(file, lengths);
    assert_ne!(read.named.0, 0);
    assert_eq!((read.value, read.shape), (MINUS.to_bits(), NO_SHAPE));
    assert_eq!(read.tables, lengths.map(|length| vec![ENTRY; length]));
    read.named
}

/// The file of P with these bytes from this place on.
fn p_with(place: usize, bytes: &[u8]) -> Vec<u8> {
    let mut file = FILE_OF_P.as_flattened().to_vec();
    file[place..place + bytes.len()].copy_from_slice(bytes);
    file
}

/// The file of a model with one word of one table another, and the right sum.
fn with_word(model: &Model, table: usize, place: usize, word: u64) -> Vec<u8> {
    let mut file = written(model);
    let entry = 8 + 16 * table;
    let offset = u32::from_le_bytes(file[entry + 4..entry + 8].try_into().unwrap()) as usize;
    let old = model.tables()[table][place].to_bits();
    let sum = u64::from_le_bytes(file[entry + 8..entry + 16].try_into().unwrap());
    let sum = sum.wrapping_sub(old).wrapping_add(word);
    file[entry + 8..entry + 16].copy_from_slice(&sum.to_le_bytes());
    file[offset + 8 * place..][..8].copy_from_slice(&word.to_le_bytes());
    file
}

#[test]
fn the_file_of_model_p_byte_for_byte() {
    assert_eq!(written(&P), FILE_OF_P.as_flattened());
    assert_eq!(file_length(P.shape), 136);
}

#[test]
fn lengths_of_files() {
    let length = |states, symbols, ends| file_length(Shape { states, symbols, ends });
    assert_eq!(length(12, 256, false), 25_880);
    assert_eq!(length(12, 256, true), 25_880 + 16 + 96);
    assert_eq!(length(1, 1, false), 8 + 48 + 24);
    assert_eq!(length(64, 256, true), 8 + 64 + 8 * (4096 + 16_384 + 64 + 64));
    let none = [(0, 1), (65, 1), (1, 0), (1, 257), (usize::MAX, 1), (1, usize::MAX)];
    for (states, symbols) in none {
        assert_eq!([length(states, symbols, false), length(states, symbols, true)], [0; 2]);
    }
}

#[test]
fn what_was_written_is_read_back_and_surplus_stays() {
    for model in [P, EXIT] {
        let read = read(&written(&model));
        assert_eq!((read.named, read.value, read.shape), ((0, 0, 0), 0, model.shape));
        for (after, table) in read.tables.iter().zip(model.tables()) {
            let (front, surplus) = after.split_at(table.len());
            assert_eq!(front, bits(table));
            assert!(surplus.iter().all(|word| *word == ENTRY));
        }
    }
}

#[test]
fn the_file_lies_at_the_front_of_the_bytes() {
    let mut bytes = [BYTE; 140];
    assert!(write_model(&P, &mut bytes).same_bits(&Answer::done(0.0)));
    assert_eq!(bytes[..136], *FILE_OF_P.as_flattened());
    assert_eq!(bytes[136..], [BYTE; 4]);
}

#[test]
fn fewer_than_eight_bytes_are_named_by_their_number() {
    for length in 0..8 {
        assert_eq!(refusal(&[0xff; 8][..length]), (13, 0, length));
    }
}

#[test]
fn states_and_symbols_are_looked_at_before_the_layout() {
    for states in [0_u16, 65, 256, 65_535] {
        assert_eq!(refusal(&p_with(0, &states.to_le_bytes())), (1, 0, usize::from(states)));
    }
    for symbols in [0_u16, 257, 512, 65_535] {
        assert_eq!(
            refusal(&p_with(2, &symbols.to_le_bytes())),
            (2, 0, usize::from(symbols))
        );
    }
    assert_eq!(refusal(&[65, 0, 0, 0, 9, 9, 9, 9]), (1, 0, 65));
    assert_eq!(refusal(&[64, 0, 1, 1, 9, 9, 9, 9]), (2, 0, 257));
    assert_eq!(refusal(&[64, 0, 0, 1, 9, 9, 9, 9]), (13, 0, 4));
}

#[test]
fn the_flag_and_the_number_of_entries_are_named_by_their_first_wrong_byte() {
    for (bytes, place) in [
        ([2, 0, 3, 0], 4),
        ([255, 255, 3, 0], 4),
        ([0, 1, 3, 0], 5),
        ([1, 1, 4, 0], 5),
        ([0, 0, 4, 0], 6),
        ([0, 0, 2, 0], 6),
        ([1, 0, 3, 0], 6),
        ([0, 0, 3, 1], 7),
        ([1, 0, 4, 1], 7),
        // With an end state the first body is at byte 72, and P's is at 56.
        ([1, 0, 4, 0], 12),
    ] {
        assert_eq!(refusal(&p_with(4, &bytes)), (13, 0, place), "{bytes:?}");
    }
}

#[test]
fn labels_are_named_by_their_first_wrong_byte() {
    for entry in [8, 24, 40] {
        for place in entry..entry + 8 {
            assert_eq!(refusal(&p_with(place, &[0xee])), (13, 0, place));
        }
        assert_eq!(refusal(&p_with(entry, &[0xee; 8])), (13, 0, entry));
    }
    // Another shape demands another offset of the second body.
    assert_eq!(refusal(&p_with(0, &[3])), (13, 0, 28));
    assert_eq!(refusal(&p_with(2, &[3])), (13, 0, 44));
}

#[test]
fn sums_are_named_by_their_table_upward() {
    for table in 0..3 {
        let sum = 8 + 16 * table + 8;
        assert_eq!(refusal(&p_with(sum, &[1; 8])), (14, table as u8, 0));
    }
    let mut both = p_with(48, &[1]);
    both[88] ^= 1;
    assert_eq!(refusal(&both), (14, 1, 0));
}

#[test]
fn short_tables_are_named_after_sums_and_before_entries() {
    let exit = written(&EXIT);
    let needed = [9, 6, 3, 3];
    assert_eq!(read_into(&exit, needed).named, (0, 0, 0));
    for table in 0..4 {
        for length in [0, needed[table] - 1] {
            let mut lengths = needed;
            lengths[table] = length;
            assert_eq!(refusal_into(&exit, lengths), (6, 6 + table as u8, length));
            let bad = with_word(&EXIT, 0, 0, 1);
            assert_eq!(refusal_into(&bad, lengths), (6, 6 + table as u8, length));
        }
    }
    assert_eq!(refusal_into(&exit, [8, 5, 2, 2]), (6, 6, 8));
    // Without an end state the end table is filled, and so needed.
    assert_eq!(refusal_into(&written(&P), [4, 4, 2, 1]), (6, 9, 1));
    assert_eq!(refusal_into(&p_with(16, &[1]), [0; 4]), (14, 0, 0));
}

#[test]
fn bad_words_with_the_right_sum_are_named_by_table_and_place() {
    let bad = [
        1,
        0x7fef_ffff_ffff_ffff,
        0x7ff0_0000_0000_0000,
        0x7ff0_0000_0000_0001,
        0x7ff8_0000_0000_0000,
        0xfff0_0000_0000_0001,
        0xfff8_0000_0000_0000,
        u64::MAX,
    ];
    for model in [P, EXIT] {
        let tables = if model.shape.ends { 4 } else { 3 };
        for (table, place) in (0..tables).flat_map(|table| [(table, 0), (table, model.tables()[table].len() - 1)]) {
            for word in bad {
                assert_eq!(refusal(&with_word(&model, table, place, word)), (7, table as u8, place));
            }
            for word in [0, 0x8000_0000_0000_0000, 0x8000_0000_0000_0001, 0xfff0_0000_0000_0000] {
                let read = read(&with_word(&model, table, place, word));
                assert_eq!((read.named, read.tables[table][place]), ((0, 0, 0), word));
            }
        }
    }
}

/// The refusal that a flip at this place of a file with so many entries must lead to; none in the first eight bytes,
/// where there are several.
fn told(file: &[u8], entries: usize, place: usize) -> Option<(u8, u8, usize)> {
    if place < 8 {
        return None;
    }
    if place < 8 + 16 * entries {
        let (table, inside) = ((place - 8) / 16, (place - 8) % 16);
        return Some(if inside < 8 {
            (13, 0, place)
        } else {
            (14, table as u8, 0)
        });
    }
    let offset = |table: usize| u32::from_le_bytes(file[8 + 16 * table + 4..][..4].try_into().unwrap()) as usize;
    let table = (0..entries).rev().find(|table| offset(*table) <= place)?;
    Some((14, table as u8, 0))
}

#[test]
fn every_flipped_bit_is_refused_by_its_place() {
    for (model, entries) in [(P, 3), (EXIT, 4)] {
        let whole = written(&model);
        for (place, bit) in (0..whole.len()).flat_map(|place| (0..8).map(move |bit| (place, bit))) {
            let mut file = whole.clone();
            file[place] ^= 1 << bit;
            let named = refusal(&file);
            match told(&whole, entries, place) {
                Some(expected) => assert_eq!(named, expected, "byte {place}, bit {bit}"),
                None => assert!(
                    [1, 2, 13].contains(&named.0) && named.1 == 0,
                    "byte {place}, bit {bit}: {named:?}"
                ),
            }
        }
    }
}

#[test]
fn every_proper_prefix_is_refused_at_its_length() {
    for model in [P, EXIT] {
        let whole = written(&model);
        for length in 0..whole.len() {
            assert_eq!(refusal(&whole[..length]), (13, 0, length));
        }
    }
}

#[test]
fn longer_files_are_refused_at_the_files_length() {
    for model in [P, EXIT] {
        let whole = written(&model);
        for more in [1, 2, 7, 8, 16, 1000] {
            for byte in [0, 0xff] {
                let file = [&whole[..], &vec![byte; more]].concat();
                assert_eq!(refusal(&file), (13, 0, whole.len()));
            }
        }
    }
}

#[test]
fn words_of_a_body_in_another_order_are_another_model() {
    let file = p_with(56, &FILE_OF_P[8..10].concat());
    let swapped = [&file[..72], &FILE_OF_P[7], &file[80..]].concat();
    let read = read(&swapped);
    assert_eq!(read.named, (0, 0, 0));
    assert_eq!(read.tables[0][..4], bits(&[-2.0, -2.0, -1.0, -1.0]));
}

/// The refusal of the writer, after it was seen that nothing was written.
fn unwritten(model: &Model, length: usize) -> (u8, u8, usize) {
    let mut file = vec![BYTE; length];
    let answer = write_model(model, &mut file);
    assert_eq!(answer.value.to_bits(), MINUS.to_bits());
    assert!(file.iter().all(|byte| *byte == BYTE));
    (answer.refusal, answer.table, answer.place)
}

#[test]
fn the_writers_checks_in_their_order() {
    let of_shape = |states, symbols| Model {
        shape: Shape {
            states,
            symbols,
            ends: false,
        },
        ..P
    };
    assert_eq!(unwritten(&of_shape(0, 0), 0), (1, 0, 0));
    assert_eq!(unwritten(&of_shape(usize::MAX, 2), 0), (1, 0, usize::MAX));
    assert_eq!(unwritten(&of_shape(2, 257), 0), (2, 0, 257));
    let short = &[f64::NAN; 3];
    assert_eq!(unwritten(&Model { transition: short, ..P }, 0), (5, 0, 3));
    assert_eq!(unwritten(&Model { emission: short, ..P }, 0), (5, 1, 3));
    assert_eq!(unwritten(&Model { initial: short, ..P }, 0), (5, 2, 3));
    assert_eq!(unwritten(&Model { end: short, ..P }, 0), (5, 3, 3));
    let bad = &[-1.0, f64::NAN];
    assert_eq!(unwritten(&Model { initial: bad, ..P }, 135), (6, 5, 135));
    assert_eq!(unwritten(&Model { initial: bad, ..P }, 136), (7, 2, 1));
    assert_eq!(unwritten(&Model { end: &[0.0, -0.0], ..P }, 140), (7, 3, 1));
    assert_eq!(unwritten(&EXIT, file_length(EXIT.shape) - 1), (6, 5, 239));
}
