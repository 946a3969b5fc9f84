//! Damage that leads to each of the refusals 1 to 8 and to 16, and what the refusal must name.

use crate::case::Case;
use crate::lent::{Call, Output};
use crate::random::Random;
use reference::answer::{
    BAD_INDEX, BAD_STATES, BAD_SYMBOLS, FIRST_OUTPUT, NOT_GOOD, NO_SAMPLES, OUTPUT_TOO_SHORT, SAMPLES,
    TOO_MANY_SAMPLES, UNKNOWN_SYMBOL, WRONG_LENGTH,
};

/// The refusal, the table and the place that some damage leads to. Of several, the least in this order wins.
pub type Named = (u8, u8, usize);

/// Damage done to a case, and outputs to be cut when they are lent.
pub struct Damaged {
    pub case: Case,
    pub cuts: Vec<(usize, usize)>,
    pub named: Named,
}

impl Damaged {
    /// Cuts the lent outputs as this damage says.
    pub fn cut(&self, outputs: &mut [Output]) {
        for (place, length) in &self.cuts {
            outputs[*place].truncate(*length);
        }
    }
}

/// The refusals that damage leads to in a call, but for too many samples, which only very long rows lead to.
pub fn refusals(call: Call) -> impl Iterator<Item = u8> {
    let all = [
        BAD_STATES,
        BAD_SYMBOLS,
        NO_SAMPLES,
        WRONG_LENGTH,
        OUTPUT_TOO_SHORT,
        NOT_GOOD,
        UNKNOWN_SYMBOL,
        BAD_INDEX,
    ];
    all.into_iter().filter(move |refusal| match *refusal {
        NO_SAMPLES => call.needs_samples(),
        UNKNOWN_SYMBOL => call.takes_samples(),
        BAD_INDEX => call.takes_index(),
        _ => true,
    })
}

/// Damage of one kind to a case with samples.
pub fn single(refusal: u8, call: Call, case: &Case, random: &mut Random) -> Damaged {
    let mut damaged = undamaged(case);
    loop {
        if let Some(named) = damage(refusal, call, &mut damaged, random) {
            damaged.named = named;
            return damaged;
        }
    }
}

fn undamaged(case: &Case) -> Damaged {
    Damaged {
        case: case.clone(),
        cuts: Vec::new(),
        named: (u8::MAX, 0, 0),
    }
}

/// The kinds that are drawn, the last one where the call is lent an index.
const KINDS: [u8; 9] = [
    BAD_STATES,
    BAD_SYMBOLS,
    TOO_MANY_SAMPLES,
    NO_SAMPLES,
    WRONG_LENGTH,
    OUTPUT_TOO_SHORT,
    NOT_GOOD,
    UNKNOWN_SYMBOL,
    BAD_INDEX,
];

/// One to three kinds of damage to a case; none where it has no room for those drawn.
pub fn damaged(call: Call, case: &Case, random: &mut Random) -> Option<Damaged> {
    let mut damaged = undamaged(case);
    let kinds = random.pick(&[1, 1, 1, 2, 3]);
    let drawn = &KINDS[..KINDS.len() - usize::from(!call.takes_index())];
    let mut refusals: Vec<u8> = (0..kinds).map(|_| random.pick(drawn)).collect();
    // Entries before lengths before sizes, so that each kind finds what it damages; a length is damaged once.
    refusals.sort_unstable_by(|a, b| b.cmp(a));
    refusals.dedup_by(|a, b| a == b && *a < NOT_GOOD);
    for refusal in refusals {
        if let Some(named) = damage(refusal, call, &mut damaged, random) {
            damaged.named = damaged.named.min(named);
        }
    }
    if call.needs_samples() && damaged.case.samples.is_empty() {
        damaged.named = damaged.named.min((NO_SAMPLES, SAMPLES, 0));
    }
    if call.takes_index() && damaged.case.index >= damaged.case.samples.len() {
        damaged.named = damaged.named.min((BAD_INDEX, 0, 0));
    }
    (damaged.named.0 != u8::MAX).then_some(damaged)
}

fn damage(refusal: u8, call: Call, damaged: &mut Damaged, random: &mut Random) -> Option<Named> {
    match refusal {
        BAD_STATES => Some(bad_states(damaged, random)),
        BAD_SYMBOLS => Some(bad_symbols(damaged, random)),
        TOO_MANY_SAMPLES | UNKNOWN_SYMBOL if !call.takes_samples() => None,
        TOO_MANY_SAMPLES => Some(too_many_samples(damaged, random)),
        NO_SAMPLES => no_samples(call, damaged),
        WRONG_LENGTH => Some(wrong_length(damaged, random)),
        OUTPUT_TOO_SHORT => output_too_short(call, damaged, random),
        NOT_GOOD => Some(not_good(damaged, random)),
        BAD_INDEX => bad_index(call, damaged, random),
        _ => unknown_symbol(damaged, random),
    }
}

fn bad_states(damaged: &mut Damaged, random: &mut Random) -> Named {
    let states = random.pick(&[0, 65, 66, 255, 256, 1 << 32, usize::MAX]);
    damaged.case.shape.states = states;
    (BAD_STATES, 0, states)
}

fn bad_symbols(damaged: &mut Damaged, random: &mut Random) -> Named {
    let symbols = random.pick(&[0, 257, 258, 65_536, usize::MAX]);
    damaged.case.shape.symbols = symbols;
    (BAD_SYMBOLS, 0, symbols)
}

fn too_many_samples(damaged: &mut Damaged, random: &mut Random) -> Named {
    let length = random.pick(&[4097, 4098, 8192, 65_536]);
    damaged.case.samples.resize(length, 0);
    (TOO_MANY_SAMPLES, SAMPLES, length)
}

fn no_samples(call: Call, damaged: &mut Damaged) -> Option<Named> {
    if !call.needs_samples() {
        return None;
    }
    damaged.case.samples.clear();
    Some((NO_SAMPLES, SAMPLES, 0))
}

fn wrong_length(damaged: &mut Damaged, random: &mut Random) -> Named {
    let table = random.below(4);
    let entries = &mut *damaged.case.tables_mut()[table];
    let length = match random.below(3) {
        0 => 0,
        1 => entries.len() - 1,
        _ => entries.len() + 1,
    };
    entries.resize(length, 0.0);
    (WRONG_LENGTH, table as u8, length)
}

fn output_too_short(call: Call, damaged: &mut Damaged, random: &mut Random) -> Option<Named> {
    let needed = call.needed(&damaged.case);
    let place = random.below(needed.len());
    let length = match random.below(3) {
        0 => 0,
        1 => random.below(needed[place].max(1)),
        _ => needed[place].checked_sub(1)?,
    };
    (length < needed[place]).then(|| {
        damaged.cuts.push((place, length));
        (OUTPUT_TOO_SHORT, FIRST_OUTPUT + place as u8, length)
    })
}

/// Puts an entry that is not good at a random place: the first one of its table, since the others are good.
fn not_good(damaged: &mut Damaged, random: &mut Random) -> Named {
    let table = random.below(4);
    let anything_but_zero = table == 3 && !damaged.case.shape.ends;
    let bad = match anything_but_zero {
        false => random.pick(&[f64::NAN, -f64::NAN, f64::INFINITY, f64::from_bits(1), 0.5, 1e308]),
        true => random.pick(&[-0.0, -1.0, f64::NEG_INFINITY, f64::NAN, f64::from_bits(1), 2.0]),
    };
    let entries = &mut *damaged.case.tables_mut()[table];
    let place = random.below(entries.len());
    entries[place] = bad;
    (NOT_GOOD, table as u8, place)
}

/// Moves the index to a place that no sample has: the first one, others near it, and great ones.
fn bad_index(call: Call, damaged: &mut Damaged, random: &mut Random) -> Option<Named> {
    if !call.takes_index() {
        return None;
    }
    let length = damaged.case.samples.len();
    damaged.case.index = random
        .pick(&[length, length + 1, 2 * length + 1, 4096, 1 << 32, usize::MAX])
        .max(length);
    Some((BAD_INDEX, 0, 0))
}

fn unknown_symbol(damaged: &mut Damaged, random: &mut Random) -> Option<Named> {
    let symbols = damaged.case.shape.symbols as u16;
    let samples = &mut damaged.case.samples;
    if samples.is_empty() {
        return None;
    }
    let place = random.below(samples.len());
    samples[place] = random.pick(&[symbols, symbols + 1, u16::MAX]);
    Some((UNKNOWN_SYMBOL, SAMPLES, place))
}
