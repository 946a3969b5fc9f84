//! Files of random good models, and what is done to them.

use super::rule::{self, Place};
use super::Lent;
use crate::case::{self, Case, Sizes};
use crate::entries::{words, MINUS_INFINITY, MINUS_ZERO};
use crate::random::Random;
use reference::Shape;

/// How many cases of a round have two or three kinds of damage.
const MIXED: usize = 8;

/// One round in so many is on a model of any size, the others on small ones.
const LARGE: usize = 16;

/// Something done to a file of this shape, or to what it is read into.
type Damage = fn(Shape, &mut Lent, &mut Random);

/// Every kind of damage, by name.
pub const DAMAGES: [(&str, Damage); 18] = [
    ("one bit flipped", one_bit),
    ("two bits flipped", two_bits),
    ("cut", cut),
    ("longer", longer),
    ("a first number", first_number),
    ("a label", label),
    ("a sum", sum),
    ("two sums exchanged", sums_exchanged),
    ("two words exchanged", words_exchanged),
    ("two words apart by as much", words_apart),
    ("any word, the right sum", any_word_summed),
    ("a bad word, the right sum", bad_word_summed),
    ("a bad word", bad_word),
    ("a table too short", short_table),
    ("random bytes", random_bytes),
    ("random bytes behind the first numbers", random_behind_first_numbers),
    ("random bytes in sums and bodies", random_sums_and_bodies),
    ("random words, the right sums", random_words_summed),
];

/// A round: a good model, and its file whole, with each kind of damage, and with several.
pub fn round(number: usize, random: &mut Random) -> (Case, Vec<Lent>) {
    let case = model(number, random);
    let whole = Lent::of(&case, [0; 4].map(|_| random.below(4)));
    let mut files = vec![whole.clone()];
    for (_, damage) in DAMAGES {
        files.push(damaged(case.shape, &whole, &[damage], random));
    }
    for _ in 0..MIXED {
        let kinds = random.pick(&[2, 2, 3]);
        let damages: Vec<Damage> = (0..kinds).map(|_| random.pick(&DAMAGES).1).collect();
        files.push(damaged(case.shape, &whole, &damages, random));
    }
    (case, files)
}

/// A random good model: of up to five states and six symbols, and once in a while of any size, each in turn.
fn model(number: usize, random: &mut Random) -> Case {
    let sizes = if number % LARGE == 0 {
        Sizes::sweep(number / LARGE, 0, random)
    } else {
        Sizes {
            states: 1 + random.below(5),
            symbols: 1 + random.below(6),
            samples: 0,
        }
    };
    case::any(sizes, random)
}

fn damaged(shape: Shape, whole: &Lent, damages: &[Damage], random: &mut Random) -> Lent {
    let mut lent = whole.clone();
    for damage in damages {
        damage(shape, &mut lent, random);
    }
    lent
}

/// Puts bytes at a place, as far as the file goes.
fn put(file: &mut [u8], place: usize, bytes: &[u8]) {
    file.iter_mut()
        .skip(place)
        .zip(bytes)
        .for_each(|(cell, byte)| *cell = *byte);
}

fn put_word(file: &mut [u8], place: usize, word: u64) {
    put(file, place, &word.to_le_bytes());
}

/// The word at a place; what is missing is 0.
fn word(file: &[u8], place: usize) -> u64 {
    let mut bytes = [0; 8];
    let there = file.iter().skip(place);
    bytes.iter_mut().zip(there).for_each(|(cell, byte)| *cell = *byte);
    u64::from_le_bytes(bytes)
}

/// Adds to the word at a place.
fn add(file: &mut [u8], place: usize, more: u64) {
    put_word(file, place, word(file, place).wrapping_add(more));
}

/// Any byte, of the first numbers, the contents and the bodies alike.
fn any_byte(shape: Shape, file: &[u8], random: &mut Random) -> usize {
    let bodies = rule::places(shape)[0].body;
    let bound = random.pick(&[8, bodies, file.len()]);
    random.below(bound.min(file.len()).max(1))
}

fn any_table(shape: Shape, random: &mut Random) -> Place {
    random.pick(&rule::places(shape))
}

/// A word of a body: the first, the last, or any.
fn any_word(table: Place, random: &mut Random) -> usize {
    let any = random.below(table.words);
    let place = random.pick(&[0, table.words - 1, any]);
    table.body + 8 * place
}

fn one_bit(shape: Shape, lent: &mut Lent, random: &mut Random) {
    let place = any_byte(shape, &lent.file, random);
    let bit = 1 << random.below(8);
    lent.file.iter_mut().skip(place).take(1).for_each(|byte| *byte ^= bit);
}

fn two_bits(shape: Shape, lent: &mut Lent, random: &mut Random) {
    one_bit(shape, lent, random);
    one_bit(shape, lent, random);
}

fn cut(shape: Shape, lent: &mut Lent, random: &mut Random) {
    let length = lent.file.len();
    let any = any_byte(shape, &lent.file, random);
    lent.file
        .truncate(random.pick(&[any, any, length.saturating_sub(1), length.saturating_sub(8)]));
}

fn longer(_: Shape, lent: &mut Lent, random: &mut Random) {
    let more = random.pick(&[1, 2, 7, 8, 9, 16]);
    let zeros = random.once_in(2);
    lent.file
        .extend((0..more).map(|_| if zeros { 0 } else { random.bits() as u8 }));
}

/// Another number of states or symbols, another flag or another number of entries.
fn first_number(_: Shape, lent: &mut Lent, random: &mut Random) {
    let any = random.bits() as u16;
    let number = random.pick(&[0, 1, 2, 3, 4, 5, 64, 65, 255, 256, 257, 258, 259, 260, 512, 0xffff, any]);
    put(&mut lent.file, 2 * random.below(4), &number.to_le_bytes());
}

/// Another table number, another offset, or the label of another table.
fn label(shape: Shape, lent: &mut Lent, random: &mut Random) {
    let [table, other] = [0; 2].map(|_| any_table(shape, random));
    let any = random.bits() as u32;
    let near = (table.body + random.below(17)) as u32;
    match random.below(3) {
        0 => put(
            &mut lent.file,
            table.entry,
            &random.pick(&[0, 1, 2, 3, 4, 256, any]).to_le_bytes(),
        ),
        1 => put(
            &mut lent.file,
            table.entry + 4,
            &random.pick(&[0, near.wrapping_sub(8), any]).to_le_bytes(),
        ),
        _ => {
            let label = word(&lent.file, other.entry);
            put_word(&mut lent.file, table.entry, label);
        }
    }
}

/// Another sum: one more or less, of all words but the last, all words combined by exclusive or, or anything.
fn sum(shape: Shape, lent: &mut Lent, random: &mut Random) {
    let table = any_table(shape, random);
    let sum = word(&lent.file, table.sum());
    let last = word(&lent.file, table.end() - 8);
    let words = (0..table.words).map(|place| word(&lent.file, table.body + 8 * place));
    let combined = words.fold(0, |a, b| a ^ b);
    let [more, less] = [sum.wrapping_add(1), sum.wrapping_sub(1)];
    let any = random.bits();
    let other = random.pick(&[more, less, sum.wrapping_sub(last), combined, 0, any]);
    put_word(&mut lent.file, table.sum(), other);
}

fn sums_exchanged(shape: Shape, lent: &mut Lent, random: &mut Random) {
    let [first, second] = [0; 2].map(|_| any_table(shape, random).sum());
    exchange(&mut lent.file, first, second);
}

/// Two words of one body: the sum stays as it is, and the model is another one.
fn words_exchanged(shape: Shape, lent: &mut Lent, random: &mut Random) {
    let table = any_table(shape, random);
    let [first, second] = [0; 2].map(|_| any_word(table, random));
    exchange(&mut lent.file, first, second);
}

fn exchange(file: &mut [u8], first: usize, second: usize) {
    let words = [first, second].map(|place| word(file, place));
    put_word(file, first, words[1]);
    put_word(file, second, words[0]);
}

/// One word greater and another one less by as much, so that the sum stays as it is.
fn words_apart(shape: Shape, lent: &mut Lent, random: &mut Random) {
    let table = any_table(shape, random);
    let any = random.bits();
    let apart = random.pick(&[1, 1 << 52, 1 << 63, any]);
    add(&mut lent.file, any_word(table, random), apart);
    add(&mut lent.file, any_word(table, random), apart.wrapping_neg());
}

/// Puts a word into a body, and makes its sum right again.
fn put_summed(file: &mut [u8], table: Place, place: usize, new: u64) {
    let apart = new.wrapping_sub(word(file, place));
    put_word(file, place, new);
    add(file, table.sum(), apart);
}

fn any_word_summed(shape: Shape, lent: &mut Lent, random: &mut Random) {
    let table = any_table(shape, random);
    let place = any_word(table, random);
    put_summed(&mut lent.file, table, place, words::any(random));
}

/// NaN of both signs, +2^-1074, plus infinity, and others that are not good.
const BAD: [u64; 7] = [
    0x7ff8_0000_0000_0000,
    0xfff8_0000_0000_0000,
    0x7ff0_0000_0000_0001,
    0xfff0_0000_0000_0001,
    1,
    0x7ff0_0000_0000_0000,
    0x3ff0_0000_0000_0000,
];

fn bad_word_summed(shape: Shape, lent: &mut Lent, random: &mut Random) {
    let table = any_table(shape, random);
    let place = any_word(table, random);
    put_summed(&mut lent.file, table, place, random.pick(&BAD));
}

fn bad_word(shape: Shape, lent: &mut Lent, random: &mut Random) {
    let place = any_word(any_table(shape, random), random);
    put_word(&mut lent.file, place, random.pick(&BAD));
}

fn short_table(_: Shape, lent: &mut Lent, random: &mut Random) {
    let length = &mut lent.lengths[random.below(4)];
    let any = random.below(*length + 1);
    *length = random.pick(&[0, any, length.saturating_sub(1), length.saturating_sub(4)]);
}

/// Random bytes from a place on, to this one.
fn put_random(file: &mut [u8], from: usize, to: usize, random: &mut Random) {
    let bytes = file.iter_mut().take(to).skip(from);
    bytes.for_each(|byte| *byte = random.bits() as u8);
}

fn random_bytes(_: Shape, lent: &mut Lent, random: &mut Random) {
    let length = random.below(200);
    lent.file.resize(length, 0);
    put_random(&mut lent.file, 0, length, random);
}

fn random_behind_first_numbers(_: Shape, lent: &mut Lent, random: &mut Random) {
    let length = lent.file.len();
    put_random(&mut lent.file, 8, length, random);
}

fn random_sums_and_bodies(shape: Shape, lent: &mut Lent, random: &mut Random) {
    for table in rule::places(shape) {
        put_random(&mut lent.file, table.sum(), table.sum() + 8, random);
        put_random(&mut lent.file, table.body, table.end(), random);
    }
}

/// Random words below zero, and any word once in a while.
fn random_words_summed(shape: Shape, lent: &mut Lent, random: &mut Random) {
    for table in rule::places(shape) {
        for place in (0..table.words).map(|word| table.body + 8 * word) {
            let word = if random.once_in(32) {
                words::any(random)
            } else {
                MINUS_ZERO + random.bits() % (MINUS_INFINITY - MINUS_ZERO + 1)
            };
            put_summed(&mut lent.file, table, place, word);
        }
    }
}
