//! Which entries are good (RULES 2.5): by the checks, which compare numbers, and by a rule on the words of their bits.

use reference::answer::NOT_GOOD;
use reference::model::{check, Empty};
use reference::{Answer, Model, Shape};

const MINUS_ZERO: u64 = 0x8000_0000_0000_0000;
const MINUS_INFINITY: u64 = 0xfff0_0000_0000_0000;
const INFINITY: u64 = 0x7ff0_0000_0000_0000;

/// The first and the last word of each kind of number, and whether it is good.
const EDGES: [(u64, bool); 20] = [
    (0, true),
    (1, false),
    (0x000f_ffff_ffff_ffff, false),
    (0x0010_0000_0000_0000, false),
    (0x7fef_ffff_ffff_ffff, false),
    (INFINITY, false),
    (0x7ff0_0000_0000_0001, false),
    (0x7ff7_ffff_ffff_ffff, false),
    (0x7ff8_0000_0000_0000, false),
    (0x7fff_ffff_ffff_ffff, false),
    (MINUS_ZERO, true),
    (0x8000_0000_0000_0001, true),
    (0x800f_ffff_ffff_ffff, true),
    (0x8010_0000_0000_0000, true),
    (0xffef_ffff_ffff_ffff, true),
    (MINUS_INFINITY, true),
    (0xfff0_0000_0000_0001, false),
    (0xfff7_ffff_ffff_ffff, false),
    (0xfff8_0000_0000_0000, false),
    (0xffff_ffff_ffff_ffff, false),
];

fn is_good(word: u64) -> bool {
    word == 0 || (MINUS_ZERO..=MINUS_INFINITY).contains(&word)
}

/// The refusal of a model of one state and one symbol with this word in this table and +0.0 in the others.
fn refusal(word: u64, table: usize, ends: bool) -> Option<Answer> {
    let mut entries = [0.0; 4];
    entries[table] = f64::from_bits(word);
    let [transition, emission, initial, end] = entries.each_ref().map(std::slice::from_ref);
    let model = Model {
        shape: Shape {
            states: 1,
            symbols: 1,
            ends,
        },
        transition,
        emission,
        initial,
        end,
    };
    check(&model, &[], Empty::Taken, || [])
}

/// Holds the checks to the rule, in each table, with an end state and without one.
fn assert_as_the_rule(word: u64) {
    for (table, ends) in (0..4).flat_map(|table| [(table, false), (table, true)]) {
        let good = if table == 3 && !ends { word == 0 } else { is_good(word) };
        let place = refusal(word, table, ends).map(|answer| (answer.refusal, usize::from(answer.table), answer.place));
        let expected = (!good).then_some((NOT_GOOD, table, 0));
        assert_eq!(place, expected, "{word:#018x} in table {table}, end state: {ends}");
    }
}

/// Words drawn by a linear rule, the high half of one beside the high half of the next.
fn random_words() -> impl Iterator<Item = u64> {
    let mut state: u64 = 1;
    let mut half = move || {
        state = state.wrapping_mul(6_364_136_223_846_793_005).wrapping_add(1);
        state >> 32
    };
    std::iter::repeat_with(move || half() << 32 | half())
}

#[test]
fn edges_are_good_or_not_by_the_rule_and_by_the_checks() {
    for (word, good) in EDGES {
        assert_eq!(is_good(word), good, "{word:#018x}");
        assert_as_the_rule(word);
    }
}

#[test]
fn words_of_one_bit_and_of_all_but_one() {
    for bit in (0..u64::BITS).map(|place| 1 << place) {
        [bit, !bit, MINUS_ZERO | bit].into_iter().for_each(assert_as_the_rule);
    }
}

#[test]
fn infinities_with_one_bit_of_a_fraction() {
    for bit in (0..52).map(|place| 1 << place) {
        [INFINITY | bit, MINUS_INFINITY | bit, MINUS_INFINITY - bit]
            .into_iter()
            .for_each(assert_as_the_rule);
    }
}

#[test]
fn random_words_of_numbers_and_of_nan() {
    random_words().take(1_000_000).for_each(assert_as_the_rule);
    let not_numbers = random_words().map(|word| word | INFINITY);
    not_numbers.take(100_000).for_each(assert_as_the_rule);
}
