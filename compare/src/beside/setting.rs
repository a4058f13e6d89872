//! Settings of clarity: what a kind and a pattern mean, and any of them, lawful and not.

use super::plain::{distance, Clarity};
use super::random::Random;
use crate::panel::Setting;

/// The patterns of 0.5 and of 1.
pub const HALF: u32 = 0x3f00_0000;
pub const ONE: u32 = 0x3f80_0000;

/// What a setting means, or nothing where it is refused: T is above 0 and at most 1, and no kind is above 2.
pub fn meant(Setting { kind, bits }: Setting) -> Option<Clarity> {
    let threshold = f32::from_bits(bits);
    let lawful = threshold > 0.0 && threshold <= 1.0;
    match kind {
        0 => Some(Clarity::Standard),
        1 if lawful => Some(Clarity::Threshold(threshold)),
        2 if lawful => Some(Clarity::Gated(threshold)),
        _ => None,
    }
}

/// Whether the original serves for it.
pub fn like_standard(clarity: Clarity) -> bool {
    matches!(clarity, Clarity::Standard | Clarity::Threshold(0.5))
}

/// Which of four sorts a setting is: the standard, threshold 0.5, another threshold, gated.
pub fn sort(clarity: Clarity) -> usize {
    match clarity {
        Clarity::Standard => 0,
        Clarity::Threshold(_) if like_standard(clarity) => 1,
        Clarity::Threshold(_) => 2,
        Clarity::Gated(_) => 3,
    }
}

/// A setting as a header answers it: at the standard the pattern is 0.
pub fn answered(setting: Setting) -> Setting {
    if setting.kind == 0 {
        Setting { bits: 0, ..setting }
    } else {
        setting
    }
}

/// Lawful patterns at the borders: the least, the last subnormal, the first normal, round 0.5, and to 1.
const BORDERS: [u32; 9] = [1, 2, 0x007f_ffff, 0x0080_0000, HALF - 1, HALF + 1, ONE - 1, ONE, 0x3e80_0000];

/// Patterns of 0, of what is above 1, below 0, infinite, and no number.
const REFUSED: [u32; 16] = [
    0,
    0x8000_0000,
    0x8000_0001,
    0xbf00_0000,
    0xbf80_0000,
    ONE + 1,
    0x3f80_8000,
    0x4000_0000,
    0x7f7f_ffff,
    0x7f80_0000,
    0x7f80_0001,
    0x7fc0_0000,
    0x7fff_ffff,
    0xff80_0000,
    0xffc0_0000,
    u32::MAX,
];

/// Kinds above 2; the low bits of some are those of a lawful kind.
const PAST_KINDS: [u32; 8] = [3, 4, 0x100, 0x101, 0x1_0002, 0x8000_0000, 0x8000_0001, u32::MAX];

/// The distance of two words of the picture, mostly of neighbours, which is where a weight becomes 0: that single, one
/// beside it, or another in an easy ratio to it.
fn near_distance(random: &mut Random, picture: &[u32]) -> u32 {
    if picture.len() < 2 {
        return HALF;
    }
    let first = random.below(picture.len());
    let second = if random.one_in(2) { (first + 1) % picture.len() } else { random.below(picture.len()) };
    let between = distance(picture[first], picture[second]);
    let bits = match random.below(8) {
        0 => between.to_bits().saturating_sub(1),
        1 => between.to_bits() + 1,
        2 => (2.0 * between).to_bits(),
        3 => (0.5 * between).to_bits(),
        _ => between.to_bits(),
    };
    bits.clamp(1, ONE)
}

/// The pattern of a lawful single: of any size, at a border, even from 0 to 1, or by the picture's own distances.
fn lawful_bits(random: &mut Random, picture: &[u32]) -> u32 {
    match random.below(8) {
        0 => random.pick(&BORDERS),
        1 => random.between(1, ONE as usize) as u32,
        2 => HALF,
        3 | 4 => (random.between(1, 1 << 24) as f32 / (1 << 24) as f32).to_bits(),
        _ => near_distance(random, picture),
    }
}

/// Any pattern.
fn any_bits(random: &mut Random) -> u32 {
    match random.below(3) {
        0 => random.pick(&REFUSED),
        1 => random.pick(&BORDERS),
        _ => random.word(),
    }
}

/// A lawful setting: the standard, with any pattern beside it; threshold 0.5; another threshold; a gated one.
pub fn lawful(random: &mut Random, picture: &[u32]) -> Setting {
    match random.below(10) {
        0 | 1 => Setting { kind: 0, bits: any_bits(random) },
        2 => Setting { kind: 1, bits: HALF },
        3..=5 => Setting { kind: 1, bits: lawful_bits(random, picture) },
        _ => Setting { kind: 2, bits: lawful_bits(random, picture) },
    }
}

/// A setting that is refused, for its single or for its kind.
pub fn refused(random: &mut Random) -> Setting {
    let (kind, past) = (random.pick(&[1, 2]), random.pick(&PAST_KINDS));
    match random.below(8) {
        0 => Setting { kind: past, bits: any_bits(random) },
        1 => Setting { kind: past, bits: random.pick(&[HALF, ONE, 1]) },
        2 => Setting { kind, bits: random.between(ONE as usize + 1, u32::MAX as usize) as u32 },
        _ => Setting { kind, bits: random.pick(&REFUSED) },
    }
}

/// Any setting, lawful ones mostly.
pub fn any(random: &mut Random, picture: &[u32]) -> Setting {
    if random.one_in(6) {
        refused(random)
    } else {
        lawful(random, picture)
    }
}
