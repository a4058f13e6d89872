//! Times of the original and of the library from one run, the two by turns, the best of several repetitions.
//! The library's buffers are made and written once before the first repetition and not cleared between them: what they
//! hold does not matter to it. The original makes its own at each call.

use super::bench_clarity;
use super::bench_palette;
use super::bench_session;
use super::font;
use super::original;
use super::random::Random;
use super::times::{best, time, Form};
use crate::panel::{self, Palette, Screen, Setting, STANDARD};
use std::hint::black_box;

/// Sides by repetitions.
const SCALE: [(usize, usize); 4] = [(64, 40), (256, 10), (1024, 3), (2048, 2)];
const SCALE9X: [(usize, usize); 3] = [(64, 12), (256, 3), (682, 2)];

/// The pictures by name: a page of text, and noise.
pub const PICTURES: [&str; 2] = ["page", "noise"];

pub fn picture(name: &str, side: usize) -> Vec<u32> {
    match name {
        "page" => font::page(side, side, 0, 0),
        _ => {
            let mut random = Random::new(1);
            (0..side * side).map(|_| random.word()).collect()
        }
    }
}

/// The buffers of a whole-picture call on a square, written once.
pub struct Buffers {
    output: Vec<u32>,
    middle: Vec<u32>,
    singles: Vec<f32>,
    bytes: Vec<u8>,
}

impl Buffers {
    pub fn three(pixels: usize) -> Buffers {
        Buffers {
            output: vec![1; 9 * pixels],
            middle: vec![1; 0],
            singles: vec![1.0; 8 * pixels],
            bytes: vec![1; 8 * pixels],
        }
    }

    pub fn nine(pixels: usize) -> Buffers {
        Buffers {
            output: vec![1; 81 * pixels],
            middle: vec![1; 9 * pixels],
            singles: vec![1.0; 72 * pixels],
            bytes: vec![1; 72 * pixels],
        }
    }

    pub fn scale(&mut self, setting: Setting, picture: &[u32], side: usize) {
        let (sides, output) = ([side as u32; 2], &mut self.output);
        let refusal = panel::scale(sides, setting, picture, output, &mut self.singles, &mut self.bytes);
        assert_eq!(refusal, 0);
    }

    pub fn scale9x(&mut self, setting: Setting, picture: &[u32], side: usize) {
        let (sides, output, middle) = ([side as u32; 2], &mut self.output, &mut self.middle);
        let refusal = panel::scale9x(sides, setting, picture, output, middle, &mut self.singles, &mut self.bytes);
        assert_eq!(refusal, 0);
    }

    pub fn scale_palette(&mut self, picture: &[u32], entries: &[u32], replaced: &mut [u32], side: usize) {
        let (sides, palette, output) = ([side as u32; 2], Palette { entries, replaced }, &mut self.output);
        let (singles, bytes) = (&mut self.singles, &mut self.bytes);
        assert_eq!(panel::scale_palette(sides, STANDARD, picture, palette, output, singles, bytes), 0);
    }

    pub fn scale9x_palette(&mut self, picture: &[u32], entries: &[u32], replaced: &mut [u32], side: usize) {
        let (sides, palette, output) = ([side as u32; 2], Palette { entries, replaced }, &mut self.output);
        let (middle, singles, bytes) = (&mut self.middle, &mut self.singles, &mut self.bytes);
        assert_eq!(panel::scale9x_palette(sides, STANDARD, picture, palette, output, middle, singles, bytes), 0);
    }
}

// Kept out of line, so that a profiler finds them by name.
#[inline(never)]
fn original_scale(picture: &[u32], side: usize) -> Vec<u32> {
    original::scale(picture, side, side)
}

#[inline(never)]
fn original_scale9x(picture: &[u32], side: usize) -> Vec<u32> {
    original::scale9x(picture, side, side)
}

pub fn original_whole(screen: Screen, picture: &[u32], side: usize) -> Vec<u32> {
    match screen {
        Screen::Three => original_scale(picture, side),
        Screen::Nine => original_scale9x(picture, side),
    }
}

fn row(form: Form, call: &str, name: &str, side: usize, (original, ours): (f64, f64)) {
    let (pixels, ratio) = ((side * side) as f64, ours / original);
    let line = format!(
        "{call:<8} {name:<6} {side:>5}   original {:>8.1}   library {:>8.1}   library / original {ratio:>6.3}",
        original / pixels,
        ours / pixels
    );
    form.row(&line, &format!("{call} {name} {side}"), ratio, ours);
}

fn three_times(form: Form) {
    for name in PICTURES {
        for (side, repetitions) in SCALE {
            let (picture, mut buffers) = (picture(name, side), Buffers::three(side * side));
            let original = || time(|| drop(black_box(original_scale(black_box(&picture), side))));
            let ours = || time(|| buffers.scale(STANDARD, black_box(&picture), side));
            row(form, "scale", name, side, best(repetitions, original, ours));
        }
    }
}

fn nine_times(form: Form) {
    for name in PICTURES {
        for (side, repetitions) in SCALE9X {
            let (picture, mut buffers) = (picture(name, side), Buffers::nine(side * side));
            let original = || time(|| drop(black_box(original_scale9x(black_box(&picture), side))));
            let ours = || time(|| buffers.scale9x(STANDARD, black_box(&picture), side));
            row(form, "scale9x", name, side, best(repetitions, original, ours));
        }
    }
}

/// The parts by name.
const PARTS: [&str; 6] = ["scale", "scale9x", "session", "session9", "clarity", "palette"];

/// Prints the times of the parts named, or of all; nothing is compared, and nothing run where a word is no part.
pub fn run(form: Form, parts: &[&str]) -> Option<bool> {
    if parts.iter().any(|part| !PARTS.contains(part)) {
        return None;
    }
    let wanted = |part: &str| parts.is_empty() || parts.contains(&part);
    if wanted("scale") || wanted("scale9x") {
        form.note("nanoseconds a pixel of the picture; the library's buffers are written beforehand and not cleared");
    }
    if wanted("scale") {
        three_times(form);
    }
    if wanted("scale9x") {
        nine_times(form);
    }
    for screen in [Screen::Three, Screen::Nine].into_iter().filter(|screen| wanted(screen.name())) {
        bench_session::run(form, screen);
    }
    if wanted("clarity") {
        bench_clarity::run(form);
    }
    if wanted("palette") {
        bench_palette::run(form);
    }
    Some(true)
}

/// One call of the library or of the original, to be run under a profiler; nothing where a word is not understood.
pub fn calls(words: &[&str]) -> Option<bool> {
    let (call, name, side, ours) = match *words {
        [call, name, side] => (call, name, side, true),
        [call, name, side, "original"] => (call, name, side, false),
        _ => return None,
    };
    let side: usize = side.parse().ok()?;
    let name = PICTURES.into_iter().find(|known| *known == name)?;
    let picture = picture(name, side);
    match (call, ours) {
        ("scale", true) => Buffers::three(side * side).scale(STANDARD, &picture, side),
        ("scale9x", true) => Buffers::nine(side * side).scale9x(STANDARD, &picture, side),
        ("scale", false) => drop(black_box(original_scale(&picture, side))),
        ("scale9x", false) => drop(black_box(original_scale9x(&picture, side))),
        ("change", true) => bench_session::change(Screen::Three, &picture, side),
        ("change9", true) => bench_session::change(Screen::Nine, &picture, side),
        _ => return None,
    }
    Some(true)
}
