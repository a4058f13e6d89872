//! The distance of two words beside the original's, in every bit.

use super::original;
use super::random::Random;
use crate::panel;

/// Whether the library agrees with the original on two words in both orders, and the distance is what the rules say of it.
fn agrees(p: u32, q: u32) -> bool {
    let (there, back) = (panel::distance(p, q), panel::distance(q, p));
    let same = (p ^ q) & 0x00ff_ffff == 0;
    there.to_bits() == original::distance(p, q).to_bits()
        && back.to_bits() == there.to_bits()
        && (0.0..=1.0).contains(&there)
        && (there == 0.0) == same
}

/// Two words: any, alike but for one channel, alike but for one bit, or alike but for the top byte.
fn pair(random: &mut Random) -> (u32, u32) {
    let p = random.word();
    let q = match random.below(4) {
        0 => random.word(),
        1 => p ^ (random.word() & (0xff << (8 * random.below(3)))),
        2 => p ^ (1 << random.below(24)),
        _ => p ^ (random.word() & 0xff00_0000),
    };
    (p, q)
}

/// Every pair of values in each channel, and a count of other pairs; true where nothing differs.
pub fn run(count: usize, seed: u64) -> bool {
    let mut random = Random::new(seed);
    let channels = (0..3 << 16).map(|i: u32| {
        let shift = 8 * (i >> 16);
        ((i & 0xff) << shift, (i >> 8 & 0xff) << shift)
    });
    let pairs = channels.chain((0..count).map(|_| pair(&mut random)));
    let (mut total, mut found) = (0, 0);
    for (p, q) in pairs {
        total += 1;
        if !agrees(p, q) {
            found += 1;
            if found == 1 {
                let (a, b) = (panel::distance(p, q), original::distance(p, q));
                println!("distance of {p:08x} and {q:08x}: {:08x}, expected {:08x}", a.to_bits(), b.to_bits());
            }
        }
    }
    println!("distance: {total} pairs of words: {found} differences");
    found == 0
}
