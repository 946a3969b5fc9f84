//! The refused flip: the entry's bits before and after, and the answer.

use super::svg::{path, rectangle, text, Anchor};
use super::RED;
use crate::flip::Tally;
use crate::morning::Morning;
use crate::words;

pub const HEIGHT: usize = 208;

const PITCH: usize = 10;
const BITS: usize = 78;
const READS: usize = 64 * PITCH + 40;

pub fn panel(left: usize, top: usize, width: usize, morning: &Morning) -> String {
    let (flip, outcome) = (morning.flip, &morning.outcome);
    let inner = left + 22;
    let line = |y, class, words: &str| text(inner, top + y, class, Anchor::Start, words);
    [
        rectangle(left, top, width, HEIGHT, "#fdf1f0"),
        rectangle(left, top, 5, HEIGHT, RED),
        line(
            34,
            "strong",
            &format!("One bit of the model flips: {}", words::flip(flip)),
        ),
        bits(inner, top + 50, "before", outcome.before, None),
        bits(inner, top + 76, "after", outcome.after, Some(flip.bit)),
        line(126, "strong", &words::answer(outcome)),
        line(150, "", &words::memory(outcome, "decoded")),
        line(184, "soft", &all_flips(&morning.tally)),
    ]
    .concat()
}

fn all_flips(tally: &Tally) -> String {
    let [flips, refused, accepted] = [tally.flips(), tally.refused, tally.accepted].map(words::grouped);
    format!("Of {flips} such flips, {refused} make an entry that is not good: refused. {accepted} leave one at most 0.")
}

/// The 64 bits of an entry, the sign first, and what it reads.
fn bits(left: usize, top: usize, name: &str, entry: f64, flipped: Option<u32>) -> String {
    let first = left + BITS;
    let squares = |wanted: u64| -> String {
        let chosen = (0..64).filter(|bit| entry.to_bits() >> bit & 1 == wanted);
        chosen.map(|bit| square(first, top, bit)).collect()
    };
    let ring = format!("fill=\"none\" stroke=\"{RED}\" stroke-width=\"3\"");
    let ring = flipped.map_or(String::new(), |bit| path(&ring, &square(first, top, bit)));
    [
        text(left, top + 14, "soft", Anchor::Start, name),
        path("fill=\"#1c2430\"", &squares(1)),
        path("fill=\"#fff\" stroke=\"#c3c9d1\"", &squares(0)),
        ring,
        text(
            first + READS,
            top + 14,
            "strong",
            Anchor::Start,
            &format!("{entry:+.6}"),
        ),
    ]
    .concat()
}

/// Sign, exponent and fraction stand a little apart.
fn square(first: usize, top: usize, bit: u32) -> String {
    let apart = match bit {
        63 => 0,
        52..=62 => 8,
        _ => 16,
    };
    let x = first + (63 - bit as usize) * PITCH + apart;
    format!("M{x} {}h8v14h-8z", top + 2)
}
