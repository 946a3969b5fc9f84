//! Words whose places among the good ones and the bad ones matter.

use super::{MINUS_INFINITY, MINUS_ZERO};
use crate::random::Random;

/// The bits of plus infinity.
const INFINITY: u64 = 0x7ff0_0000_0000_0000;

/// How many bits of a word are a number's fraction.
const FRACTION: u32 = 52;

/// The first and the last word of every kind: of zeros, of subnormal and normal numbers, of infinities, of signalling and
/// of quiet NaN, without a sign and then with it; and one half and one of both signs.
pub const EDGES: [u64; 30] = [
    0,
    1,
    0x000f_ffff_ffff_ffff,
    0x0010_0000_0000_0000,
    0x0010_0000_0000_0001,
    0x3fe0_0000_0000_0000,
    0x3ff0_0000_0000_0000,
    0x7fef_ffff_ffff_fffe,
    0x7fef_ffff_ffff_ffff,
    INFINITY,
    0x7ff0_0000_0000_0001,
    0x7ff7_ffff_ffff_ffff,
    0x7ff8_0000_0000_0000,
    0x7ff8_0000_0000_0001,
    0x7fff_ffff_ffff_ffff,
    MINUS_ZERO,
    0x8000_0000_0000_0001,
    0x800f_ffff_ffff_ffff,
    0x8010_0000_0000_0000,
    0x8010_0000_0000_0001,
    0xbfe0_0000_0000_0000,
    0xbff0_0000_0000_0000,
    0xffef_ffff_ffff_fffe,
    0xffef_ffff_ffff_ffff,
    MINUS_INFINITY,
    0xfff0_0000_0000_0001,
    0xfff7_ffff_ffff_ffff,
    0xfff8_0000_0000_0000,
    0xfff8_0000_0000_0001,
    0xffff_ffff_ffff_ffff,
];

/// The edges; every word of one bit, of all bits but one, and of a sign and one bit; and what is one bit of a fraction above
/// an infinity, which is NaN, or below minus infinity's word, which is good.
pub fn telling() -> Vec<u64> {
    let bits = |places| (0..places).map(|place| 1 << place);
    let mut words = EDGES.to_vec();
    words.extend(bits(u64::BITS).flat_map(|bit: u64| [bit, !bit, MINUS_ZERO | bit]));
    words.extend(bits(FRACTION).flat_map(|bit| [INFINITY | bit, MINUS_INFINITY | bit, MINUS_INFINITY - bit]));
    words.sort_unstable();
    words.dedup();
    words
}

/// Any word: all bits random, or few low ones and a sign, or those of a NaN, or near an edge.
pub fn any(random: &mut Random) -> u64 {
    let bits = random.bits();
    let sign = random.pick(&[0, MINUS_ZERO]);
    let low = bits >> random.below(u64::BITS as usize);
    match random.below(4) {
        0 => bits,
        1 => low >> 1 | sign,
        2 => INFINITY | sign | low >> (u64::BITS - FRACTION),
        _ => random.pick(&EDGES).wrapping_add(bits % 9).wrapping_sub(4),
    }
}
