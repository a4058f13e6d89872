//! Palettes of every kind, and the nearest entry by a plain search: an independent reading of the rule.

use super::random::Random;

/// The numbers of entries that are tried: none, one, few, the most, one less and one more.
pub const SIZES: [usize; 7] = [1, 2, 16, 255, 256, 257, 0];

fn channels(word: u32) -> [i64; 3] {
    [16, 8, 0].map(|shift| i64::from(word >> shift & 0xff))
}

/// N = (1020+R+R')(R-R')^2 + 2040(G-G')^2 + (1530-R-R')(B-B')^2.
pub fn nearness(p: u32, q: u32) -> i64 {
    let ([r, g, b], [r2, g2, b2]) = (channels(p), channels(q));
    (1020 + r + r2) * (r - r2).pow(2) + 2040 * (g - g2).pow(2) + (1530 - r - r2) * (b - b2).pow(2)
}

/// The entry with the smallest N, at the lowest place of those that have it.
pub fn nearest(palette: &[u32], word: u32) -> u32 {
    let places = (0..palette.len()).map(|place| (nearness(palette[place], word), place));
    let (_, place) = places.min().expect("a palette with an entry");
    palette[place]
}

/// Two words, by a number: a pair of values of one channel beside the same other channels and any top bytes; past all
/// pairs any two words, or two that differ in one bit.
pub fn pair(random: &mut Random, i: u32) -> (u32, u32) {
    let (p, q) = (random.word(), random.word());
    if i >> 16 < 3 {
        let shift = 8 * (i >> 16);
        let beside = q & !(0xff << shift) & 0x00ff_ffff | p & 0xff00_0000;
        return (beside | (i & 0xff) << shift, (beside ^ q & 0xff00_0000) | (i >> 8 & 0xff) << shift);
    }
    match random.below(2) {
        0 => (p, q),
        _ => (p, p ^ 1 << random.below(32)),
    }
}

/// An entry near a word: the word itself with any top byte, or with a channel moved by a little.
fn near(random: &mut Random, word: u32) -> u32 {
    let moved = word.wrapping_add(random.pick(&[0, 1, 2, 5]) << random.pick(&[0, 8, 16]));
    moved & 0x00ff_ffff | random.word() & 0xff00_0000
}

/// Two entries at one N from a word: its green less and more by the same.
fn either_side(random: &mut Random, word: u32) -> [u32; 2] {
    let green = word >> 8 & 0xff;
    let by = random.below(green.min(255 - green) as usize + 1) as u32;
    [word - (by << 8), word + (by << 8)]
}

/// Entries of a kind for a picture.
fn entries(random: &mut Random, kind: usize, n: usize, picture: &[u32]) -> Vec<u32> {
    let mut entries: Vec<u32> = (0..n).map(|_| random.word()).collect();
    match kind {
        0 => {}
        // few levels a channel: equal entries, and ties
        1 => entries.iter_mut().for_each(|entry| *entry &= random.pick(&[0xff80_8080, 0xffc0_c0c0, 0xff01_0101])),
        // the picture's own words, and others near them
        2 => entries.iter_mut().for_each(|entry| *entry = near(random, random_word(*entry, picture))),
        // two by two at one N from a word of the picture
        3 => {
            for two in entries.chunks_exact_mut(2) {
                let sides = either_side(random, random_word(two[0], picture));
                two.copy_from_slice(&sides);
            }
        }
        // an entry again with another top byte, or the same entry again
        _ => {
            for i in 1..n {
                if random.one_in(2) {
                    let top = if random.one_in(3) { 0 } else { random.word() & 0xff00_0000 };
                    entries[i] = entries[random.below(i)] ^ top;
                }
            }
        }
    }
    entries
}

/// A word of the picture chosen by a number, or that number where there is none.
fn random_word(number: u32, picture: &[u32]) -> u32 {
    if picture.is_empty() {
        number
    } else {
        picture[number as usize % picture.len()]
    }
}

/// A palette of so many entries for a picture, in any order.
pub fn any(random: &mut Random, n: usize, picture: &[u32]) -> Vec<u32> {
    let kind = random.below(5);
    let mut palette = entries(random, kind, n, picture);
    for last in (1..n).rev() {
        palette.swap(last, random.below(last + 1));
    }
    palette
}
