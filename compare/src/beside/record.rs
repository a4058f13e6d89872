//! The recorded sample of the original's answers, which the program `vectors` replays without Rust.
//!
//! `crates/vectors/stdin` holds 32-bit little-endian words: the number of pictures, then for each picture its form, w, h,
//! wh, and its wh words. In form 1 follow 25wh words: 4wh metrics and 4wh weights as patterns, 4wh junction numbers, 4wh tag
//! numbers and the 9wh words of the output. In form 2 follow a digest of each of these five parts, and one of the 81wh words
//! of the nine-times output. A digest is FNV-1a over 32-bit words in place of bytes.

use super::original::{self, Stages};
use super::pictures::KINDS;
use super::random::Random;
use super::whole;
use std::fs;

const SEED: u64 = 2_048;
const IN_FULL: usize = 6;
const DIGESTED: usize = 154;
const LARGE_SIDE: usize = 32;

/// The crate of the program that replays the recording.
const FOLDER: &str = concat!(env!("CARGO_MANIFEST_DIR"), "/../crates/vectors");

struct Sample {
    in_full: bool,
    w: usize,
    h: usize,
    picture: Vec<u32>,
}

/// The pictures of the sample, of every kind: small ones, and a larger one each.
fn samples() -> Vec<Sample> {
    let mut random = Random::new(SEED);
    let mut samples = Vec::new();
    for kind in &KINDS {
        for i in 0..IN_FULL + DIGESTED {
            let in_full = i < IN_FULL;
            // long ones among them: a run of six pixels needs thirteen
            let (w, h) = match random.below(6) {
                0 => (random.between(9, 14), random.between(2, 5)),
                1 => (random.between(2, 5), random.between(9, 14)),
                _ => (random.between(1, 7), random.between(1, 7)),
            };
            samples.push(Sample { in_full, w, h, picture: kind.picture(&mut random, w, h) });
        }
        let picture = kind.picture(&mut random, LARGE_SIDE, LARGE_SIDE);
        samples.push(Sample { in_full: false, w: LARGE_SIDE, h: LARGE_SIDE, picture });
    }
    samples
}

fn digest(words: &[u32]) -> u32 {
    words.iter().fold(2_166_136_261, |sum: u32, word| (sum ^ word).wrapping_mul(16_777_619))
}

fn patterns(records: &[[f32; 4]]) -> Vec<u32> {
    records.iter().flatten().map(|single| single.to_bits()).collect()
}

fn numbers(records: &[[u8; 4]]) -> Vec<u32> {
    records.iter().flatten().map(|&number| u32::from(number)).collect()
}

/// The words of one picture's record.
fn words(sample: &Sample) -> Vec<u32> {
    let form = if sample.in_full { 1 } else { 2 };
    let mut words = vec![form, sample.w as u32, sample.h as u32, sample.picture.len() as u32];
    words.extend(&sample.picture);
    let Stages { metrics, weights, junctions, tags, output } = original::stages(&sample.picture, sample.w, sample.h);
    let mut parts = vec![patterns(&metrics), patterns(&weights), numbers(&junctions), numbers(&tags), output];
    if sample.in_full {
        words.extend(parts.concat());
    } else {
        parts.push(original::scale9x(&sample.picture, sample.w, sample.h));
        words.extend(parts.iter().map(|part| digest(part)));
    }
    words
}

fn recording(samples: &[Sample]) -> Vec<u8> {
    let count = samples.len() as u32;
    let words = std::iter::once(count).chain(samples.iter().flat_map(words));
    words.flat_map(u32::to_le_bytes).collect()
}

/// What the program that replays the recording prints.
fn replayed(samples: &[Sample]) -> String {
    let pixels: usize = samples.iter().filter(|sample| sample.in_full).map(|sample| sample.w * sample.h).sum();
    let digests = 6 * samples.iter().filter(|sample| !sample.in_full).count();
    format!("{} pictures, {} values and {digests} digests: 0 differences\n", samples.len(), 25 * pixels)
}

/// Writes the recording anew; nothing is compared.
pub fn write() -> bool {
    let samples = samples();
    fs::write(format!("{FOLDER}/stdin"), recording(&samples)).expect("the recording can be written");
    fs::write(format!("{FOLDER}/stdout"), replayed(&samples)).expect("what its replay prints can be written");
    true
}

/// The recording made again beside the kept one, and each picture through the library; true where nothing differs.
pub fn run() -> bool {
    let samples = samples();
    let made = recording(&samples);
    let kept = fs::read(format!("{FOLDER}/stdin")).unwrap_or_default();
    let bytes = made.iter().zip(&kept).filter(|(a, b)| a != b).count() + made.len().abs_diff(kept.len());
    let texts = samples.iter().filter_map(|sample| whole::wrong_exact(sample.w, sample.h, &sample.picture));
    let texts: Vec<String> = texts.collect();
    if let Some(text) = texts.first() {
        println!("{text}");
    }
    println!(
        "record: {} bytes made again beside the kept ones, {} pictures stage by stage through the library: {} differences",
        made.len(),
        samples.len(),
        bytes + texts.len()
    );
    bytes + texts.len() == 0
}
