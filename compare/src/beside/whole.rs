//! Whole pictures, three and nine times: the library beside the original, in every bit of every buffer.

use super::case::{self, Case, Simpler};
use super::drawing::By;
use super::lent::{Bits, Lent};
use super::original;
use super::pictures::KINDS;
use super::plain::{Clarity, Drawn};
use super::random::Random;
use super::setting::meant;
use crate::panel::{self, Screen};
use std::fmt::Display;

/// The buffers of a call, as they are lent or as they are left.
#[derive(Clone)]
pub struct Buffers {
    pub picture: Lent<u32>,
    pub output: Lent<u32>,
    pub middle: Lent<u32>,
    pub singles: Lent<f32>,
    pub bytes: Lent<u8>,
}

impl Buffers {
    pub fn of(case: &Case) -> Buffers {
        let mut random = Random::new(case.seed);
        let [picture, output, middle, singles, bytes] = case.lengths();
        Buffers {
            picture: Lent::with(&case.picture, picture, &mut random),
            output: Lent::new(output, &mut random),
            middle: Lent::new(middle, &mut random),
            singles: Lent::new(singles, &mut random),
            bytes: Lent::new(bytes, &mut random),
        }
    }

    fn call(&mut self, case: &Case) -> u32 {
        let (output, singles, bytes) = (self.output.part_mut(), self.singles.part_mut(), self.bytes.part_mut());
        let (sides, setting, picture) = ([case.w, case.h], case.setting, self.picture.part());
        match case.times {
            Screen::Three => panel::scale(sides, setting, picture, output, singles, bytes),
            Screen::Nine => panel::scale9x(sides, setting, picture, output, self.middle.part_mut(), singles, bytes),
        }
    }

    /// What an enlargement leaves: words and stage results at the front of each buffer.
    pub fn fill(&mut self, case: &Case, clarity: Clarity, by: By) {
        let (w, h) = (case.w as usize, case.h as usize);
        let mut last = by.draw(clarity, &case.picture, w, h);
        if case.times == Screen::Nine {
            self.middle.put(&last.output);
            last = by.draw(clarity, &last.output, 3 * w, 3 * h);
        }
        let whole = if case.times == Screen::Three { original::scale } else { original::scale9x };
        let copied = by == By::Plain || last.output == whole(&case.picture, w, h);
        assert!(copied, "the copy with exposed stages is not the original");
        self.output.put(&last.output);
        self.singles.put(&singles(&last));
        self.bytes.put(&bytes(&last));
    }

    /// A line on the first buffer that is not as expected.
    pub fn difference(&self, expected: &Buffers, case: &Case) -> Option<String> {
        let pixels = second_pass(case);
        words("picture", &self.picture, &expected.picture)
            .or_else(|| stage(["metric", "weight"], pixels, &self.singles, &expected.singles))
            .or_else(|| stage(["junction number", "tag number"], pixels, &self.bytes, &expected.bytes))
            .or_else(|| words("middle", &self.middle, &expected.middle))
            .or_else(|| words("output", &self.output, &expected.output))
    }
}

/// The pixels of the pass that leaves its stage results.
fn second_pass(case: &Case) -> isize {
    let factor = if case.times == Screen::Three { 1 } else { 9 };
    factor * case.w as isize * case.h as isize
}

/// All metrics, then all weights.
fn singles(stages: &Drawn) -> Vec<f32> {
    stages.metrics.iter().chain(&stages.weights).flatten().copied().collect()
}

/// All junction numbers, then all tag numbers.
fn bytes(stages: &Drawn) -> Vec<u8> {
    stages.junctions.iter().chain(&stages.tags).flatten().copied().collect()
}

pub fn words(name: &str, got: &Lent<u32>, expected: &Lent<u32>) -> Option<String> {
    let (at, a, b) = got.difference(expected)?;
    Some(format!("{name} element {at}: {a:08x}, expected {b:08x}"))
}

/// Two stages stand one after the other, four elements a pixel.
fn stage<T: Bits>(names: [&str; 2], pixels: isize, got: &Lent<T>, expected: &Lent<T>) -> Option<String> {
    let (at, a, b) = got.difference(expected)?;
    let place = match at {
        i if (0..4 * pixels).contains(&i) => format!("{} {} of pixel {}", names[0], i % 4, i / 4),
        i if (4 * pixels..8 * pixels).contains(&i) => format!("{} {} of pixel {}", names[1], i % 4, i / 4 - pixels),
        i => format!("element {i}, outside the {} and {}", names[0], names[1]),
    };
    Some(format!("{place}: {a:08x}, expected {b:08x}"))
}

/// Who draws what is expected at a setting.
pub type Drawers = fn(Clarity) -> &'static [By];

/// What is wrong with the call, if anything.
pub fn wrong(case: &Case, drawers: Drawers) -> Option<String> {
    let mut got = Buffers::of(case);
    let lent = got.clone();
    let refusal = got.call(case);
    if refusal != case.refusal() {
        return Some(format!("refusal {refusal}, expected {}", case.refusal()));
    }
    let Some(clarity) = meant(case.setting).filter(|_| refusal == 0) else {
        return got.difference(&lent, case);
    };
    drawers(clarity).iter().find_map(|&by| {
        let mut expected = lent.clone();
        expected.fill(case, clarity, by);
        got.difference(&expected, case).map(|text| format!("beside {by:?}: {text}"))
    })
}

/// The original alone, for calls at the standard.
fn original_alone(_: Clarity) -> &'static [By] {
    &[By::Original]
}

/// What is wrong with a picture enlarged three and nine times on exact buffers, if anything.
pub fn wrong_exact(w: usize, h: usize, picture: &[u32]) -> Option<String> {
    [Screen::Three, Screen::Nine].into_iter().find_map(|times| {
        let case = Case::exact(times, w, h, picture);
        wrong(&case, original_alone).map(|text| format!("{case}\n{text}"))
    })
}

/// Whether a case is as expected; where it is not, the smallest case found that is still wrong is printed.
pub fn good<C: Simpler + Display>(mut case: C, wrong: impl Fn(&C) -> Option<String>) -> bool {
    if wrong(&case).is_none() {
        return true;
    }
    loop {
        let simpler = case.simpler().find(|next| wrong(next).is_some());
        match simpler {
            Some(next) => case = next,
            None => break,
        }
    }
    println!("{case}\n{}", wrong(&case).unwrap_or_default());
    false
}

/// What was run.
#[derive(Default)]
struct Tally {
    enlarged: usize,
    pixels: usize,
    empty: usize,
    refused: usize,
}

impl Tally {
    /// Runs one case; false, with the smallest reproduction printed, where it is wrong.
    fn check(&mut self, case: Case) -> bool {
        match (case.refusal(), case.picture.len()) {
            (0, 0) => self.empty += 1,
            (0, n) => {
                self.enlarged += 1;
                self.pixels += n;
            }
            _ => self.refused += 1,
        }
        good(case, |case| wrong(case, original_alone))
    }
}

/// The edges, the largest pictures, and at least a count of pictures of every kind; true where nothing differs.
pub fn run(count: usize, seed: u64) -> bool {
    let mut random = Random::new(seed);
    let mut tally = Tally::default();
    let edges = case::edges().into_iter().chain(case::largest());
    let mut good = edges.into_iter().all(|plan| tally.check(plan.case(&mut random)));
    let mut kind = 0;
    while good && tally.enlarged < count {
        let plan = case::any(&mut random, kind % KINDS.len());
        good = tally.check(plan.case(&mut random));
        kind += 1;
    }
    println!(
        "whole: {} pictures enlarged ({} pixels), {} without pixels, {} calls refused: {}",
        tally.enlarged,
        tally.pixels,
        tally.empty,
        tally.refused,
        ending(good)
    );
    good
}

/// How a comparison that stops at its first difference ends its line.
pub fn ending(same: bool) -> &'static str {
    if same {
        "0 differences"
    } else {
        "a difference, and the run stopped there"
    }
}
