//! The cases of the frozen list.

use super::{rule, Lent};
use crate::case::{of_kinds, Case, Kind, Sizes};
use crate::entries::{MINUS_INFINITY, MINUS_ZERO};
use crate::random::Random;
use reference::Shape;

/// Other first numbers in the file of model P, each as a place and the bytes there.
const FIRST_NUMBERS: [(usize, &[u8]); 21] = [
    // No number of states: 0, 65, 256 and the greatest; the symbols are looked at after it.
    (0, &[0, 0]),
    (0, &[65, 0]),
    (0, &[0, 1]),
    (0, &[255, 255]),
    (0, &[65, 0, 0, 0]),
    // No number of symbols: 0, 257, 512 and the greatest; the flag is looked at after it.
    (2, &[0, 0]),
    (2, &[1, 1]),
    (2, &[0, 2]),
    (2, &[255, 255, 2]),
    // The greatest numbers of both, which demand other offsets.
    (0, &[64, 0]),
    (2, &[0, 1]),
    (0, &[64, 0, 0, 1]),
    // A flag that is neither 0 nor 1, in its low byte and in its high one.
    (4, &[2]),
    (4, &[255, 255]),
    (5, &[1]),
    (4, &[1, 1, 4]),
    // A number of entries that does not go with the flag.
    (6, &[2]),
    (6, &[4]),
    (7, &[1]),
    (4, &[1]),
    // An end state where the bodies lie as without one.
    (4, &[1, 0, 4]),
];

/// Words that are not good, and then words that are.
const WORDS: [u64; 10] = [
    1,
    0x7ff0_0000_0000_0000,
    0x7ff8_0000_0000_0000,
    MINUS_INFINITY + 1,
    0xfff8_0000_0000_0000,
    0x3ff0_0000_0000_0000,
    0,
    MINUS_ZERO,
    MINUS_ZERO + 1,
    MINUS_INFINITY,
];

/// Files, most of them model P's or that of P with an end state, and what they are read into.
pub fn to_freeze(p: &Case, random: &mut Random) -> Vec<Lent> {
    let [plain, ends] = [p.clone(), with_end_state(p)];
    let mut files: Vec<Lent> = models_to_freeze(p, random)
        .iter()
        .map(|(case, surplus)| Lent::of(case, [*surplus; 4]))
        .collect();
    files.extend(
        FIRST_NUMBERS
            .iter()
            .map(|(place, bytes)| with(&whole(&plain), *place, bytes)),
    );
    files.extend([0, 1].map(|length| of_length(&plain, length)));
    for case in [&plain, &ends] {
        files.extend(flipped(case));
        files.extend(of_other_lengths(case));
        files.extend(short_tables(case));
        files.extend(words(case));
    }
    files.extend(several_faults(&ends));
    files.extend(random_files(&ends, random));
    files
}

/// Good models of both end kinds, and how much surplus they are read and written with: P first.
pub fn models_to_freeze(p: &Case, random: &mut Random) -> Vec<(Case, usize)> {
    let mut models = vec![(p.clone(), 1), (with_end_state(p), 1), (p.clone(), 0)];
    for (number, (states, symbols)) in [(1, 1), (2, 3), (3, 2), (1, 100), (7, 5)].into_iter().enumerate() {
        let sizes = Sizes {
            states,
            symbols,
            samples: 0,
        };
        let mut ends = of_kinds(sizes, [Kind::Mixed; 4], random);
        (ends.shape.ends, ends.end) = (true, ends.initial.clone());
        models.push((ends.without_end_state(), number % 3));
        models.push((ends, (number + 1) % 3));
    }
    models
}

/// Models and lengths of files that the writer refuses, of both end kinds: each table too short or too long, the last
/// entry of each table not good, and a file too short.
pub fn refused_to_freeze(p: &Case) -> Vec<(Case, usize)> {
    let mut refused = Vec::new();
    for case in [p.clone(), with_end_state(p)] {
        let length = rule::length(case.shape);
        for table in 0..4 {
            let [mut other, mut bad] = [case.clone(), case.clone()];
            let entries = case.model().tables()[table].len();
            let is_longer = case.shape.ends == (table % 2 == 0);
            other.tables_mut()[table].resize(if is_longer { entries + 1 } else { entries - 1 }, 0.0);
            bad.tables_mut()[table][entries - 1] = f64::from_bits(MINUS_INFINITY + 1);
            refused.extend([(other, 0), (bad, length)]);
        }
        refused.extend([(case.clone(), length - 1), (case, 0)]);
    }
    let mut minus_zero = p.clone();
    minus_zero.end[0] = -0.0;
    refused.push((minus_zero, rule::length(p.shape)));
    refused
}

/// The least and the greatest shapes of both end kinds, some between, and those next to them that no model has.
pub fn lengths_to_freeze() -> impl Iterator<Item = Shape> {
    let most = usize::MAX;
    let taken = [(1, 1), (2, 2), (1, 256), (64, 1), (12, 256), (64, 256)];
    let not_taken = [
        (0, 1),
        (65, 1),
        (most, 1),
        (1, 0),
        (1, 257),
        (1, most),
        (0, 0),
        (65, 257),
    ];
    let both = [&taken[..], &not_taken].concat().into_iter();
    both.flat_map(|(states, symbols)| [false, true].map(|ends| Shape { states, symbols, ends }))
}

fn with_end_state(p: &Case) -> Case {
    let mut ends = p.clone();
    (ends.shape.ends, ends.end) = (true, vec![0.0, -4.0]);
    ends
}

/// The file of a model, to be read into tables with one entry of surplus.
fn whole(case: &Case) -> Lent {
    Lent::of(case, [1; 4])
}

fn with(lent: &Lent, place: usize, bytes: &[u8]) -> Lent {
    let mut changed = lent.clone();
    changed.file[place..place + bytes.len()].copy_from_slice(bytes);
    changed
}

/// One bit of each table number, offset, sum and body: by turns the lowest of the first byte and the highest of the
/// last.
fn flipped(case: &Case) -> Vec<Lent> {
    let places = rule::places(case.shape);
    let parts = places.iter().flat_map(|at| {
        let label = at.entry + 4;
        [
            at.entry..label,
            label..at.sum(),
            at.sum()..at.entry + 16,
            at.body..at.end(),
        ]
    });
    let flips = parts.enumerate().map(|(number, part)| match (number / 4 + number) % 2 {
        0 => whole(case).flipped(part.start, 0),
        _ => whole(case).flipped(part.end - 1, 7),
    });
    flips.collect()
}

/// Cut before the last first number, in the contents, before the bodies, in them and before the last byte; and longer.
fn of_other_lengths(case: &Case) -> Vec<Lent> {
    let length = rule::length(case.shape);
    let bodies = rule::places(case.shape)[0].body;
    let lengths = [
        7,
        8,
        9,
        16,
        24,
        bodies - 1,
        bodies,
        bodies + 1,
        length - 1,
        length + 1,
        length + 8,
    ];
    lengths.into_iter().map(|length| of_length(case, length)).collect()
}

/// The file, cut or with zeros after it.
fn of_length(case: &Case, length: usize) -> Lent {
    let mut lent = whole(case);
    lent.file.resize(length, 0);
    lent
}

/// Each table by one entry too short, then empty, and then all of them too short.
fn short_tables(case: &Case) -> Vec<Lent> {
    let needed = case.shape.lengths();
    let mut files = Vec::new();
    for (table, needed) in needed.into_iter().enumerate() {
        for length in [needed - 1, 0] {
            let mut lent = whole(case);
            lent.lengths[table] = length;
            files.push(lent);
        }
    }
    files.push(Lent {
        lengths: needed.map(|length| length - 1),
        ..whole(case)
    });
    files
}

/// The file with another word in a body and the right sum.
fn with_word(case: &Case, table: usize, place: usize, word: u64) -> Lent {
    let mut changed = case.clone();
    changed.tables_mut()[table][place] = f64::from_bits(word);
    whole(&changed)
}

/// Words at the first and the last places of the bodies, by turns: the last body first.
fn words(case: &Case) -> Vec<Lent> {
    let places = rule::places(case.shape).into_iter().enumerate();
    let borders: Vec<(usize, usize)> = places
        .flat_map(|(table, at)| [(table, 0), (table, at.words - 1)])
        .collect();
    let borders = borders.iter().cycle().skip(borders.len() - 2);
    let words = WORDS.iter().zip(borders);
    words
        .map(|(word, (table, place))| with_word(case, *table, *place, *word))
        .collect()
}

/// Several faults, of which the first in the order of the checks is named; and words that pass the sum.
fn several_faults(ends: &Case) -> Vec<Lent> {
    let mut two_bad = ends.clone();
    (two_bad.emission[3], two_bad.initial[0]) = (f64::INFINITY, f64::NAN);
    let bad = whole(&two_bad);
    let at = rule::places(ends.shape);
    let mut exchanged = ends.clone();
    exchanged.transition.swap(0, 3);
    exchanged.transition.swap(0, 1);
    let short = |lent: &Lent| Lent {
        lengths: [0, 3, 2, 1],
        ..lent.clone()
    };
    let one_sum = bad.flipped(at[3].sum(), 0);
    let two_sums = one_sum.flipped(at[1].body, 3);
    vec![
        bad.clone(),
        short(&bad),
        short(&one_sum),
        short(&two_sums),
        short(&two_sums.flipped(at[2].entry, 1)),
        short(&two_sums.flipped(5, 1)),
        whole(&exchanged),
    ]
}

/// Random bytes; random bytes behind the first numbers; random sums and bodies.
fn random_files(case: &Case, random: &mut Random) -> Vec<Lent> {
    let at = rule::places(case.shape);
    let parts = [
        0..whole(case).file.len(),
        8..whole(case).file.len(),
        at[0].body..at[3].end(),
    ];
    let files = parts.into_iter().flat_map(|part| [part.clone(), part]).map(|part| {
        let mut lent = whole(case);
        lent.file[part].iter_mut().for_each(|byte| *byte = random.bits() as u8);
        lent
    });
    files.collect()
}
