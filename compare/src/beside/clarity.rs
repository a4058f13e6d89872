//! Whole pictures at every setting of clarity. First the plain enlargement is held to the original, at the standard and at
//! threshold 0.5; then the library to the plain enlargement at any setting, and where the original serves to that too, in
//! every bit of every buffer. Settings that are not lawful have to be refused in their turn, with every buffer kept.

use super::case::{self, Case};
use super::drawing::By;
use super::pictures::KINDS;
use super::plain::{Clarity, Drawn};
use super::random::Random;
use super::setting::{self, like_standard, meant};
use super::whole::{ending, good, wrong};
use crate::panel::Setting;

// ---- the plain enlargement beside the original

fn patterns(records: &[[f32; 4]]) -> impl Iterator<Item = u32> + '_ {
    records.iter().flatten().map(|single| single.to_bits())
}

/// The name of the first stage at which two enlargements differ.
fn differing(a: &Drawn, b: &Drawn) -> Option<&'static str> {
    let same = [
        ("metrics", patterns(&a.metrics).eq(patterns(&b.metrics))),
        ("weights", patterns(&a.weights).eq(patterns(&b.weights))),
        ("junction numbers", a.junctions == b.junctions),
        ("tag numbers", a.tags == b.tags),
        ("output", a.output == b.output),
    ];
    same.into_iter().find(|(_, same)| !same).map(|(name, _)| name)
}

/// Where the plain enlargement of a case's picture, or that of its result, is not the original's.
fn plain_wrong(case: &Case) -> Option<String> {
    let (mut w, mut h, mut picture) = (case.w as usize, case.h as usize, case.picture.clone());
    for pass in 1..=case.times.passes() {
        let original = By::Original.draw(Clarity::Standard, &picture, w, h);
        for clarity in [Clarity::Standard, Clarity::Threshold(0.5)] {
            if let Some(stage) = differing(&By::Plain.draw(clarity, &picture, w, h), &original) {
                return Some(format!("the plain {stage} of pass {pass} at {clarity:?} are not the original's"));
            }
        }
        (w, h, picture) = (3 * w, 3 * h, original.output);
    }
    None
}

fn run_plain(count: usize, random: &mut Random) -> bool {
    let (mut same, mut pictures, mut pixels) = (true, 0, 0);
    while same && pictures < count {
        let case = case::any(random, pictures % KINDS.len()).case(random);
        pixels += case.picture.len();
        pictures += 1;
        same = good(case, plain_wrong);
    }
    println!(
        "clarity: the plain enlargement beside the original at the standard and at threshold 0.5, {pictures} pictures ({pixels} \
         pixels): {}",
        ending(same)
    );
    same
}

// ---- the library beside both

/// What was run.
#[derive(Default)]
struct Tally {
    /// Pictures at the standard, at threshold 0.5, at another threshold, at a gated one.
    enlarged: [usize; 4],
    pixels: usize,
    /// Of these, pictures whose output is not that of the standard; large ones are left out, for the time that they take.
    other: usize,
    empty: usize,
    /// Calls refused by 13, and those with a setting that is not lawful that were refused by another number before it.
    refused: usize,
    before: usize,
    /// Calls with a lawful setting that were refused.
    lawful: usize,
}

/// The pixels from which on a picture is not looked at again at the standard.
const COUNTED: usize = 1 << 16;

impl Tally {
    fn total(&self) -> usize {
        self.enlarged.iter().sum()
    }

    /// Runs one case; false, with the smallest reproduction printed, where it is wrong.
    fn check(&mut self, case: Case) -> bool {
        match (case.refusal(), meant(case.setting)) {
            (0, Some(clarity)) if !case.picture.is_empty() => self.add(&case, clarity),
            (0, _) => self.empty += 1,
            (13, _) => self.refused += 1,
            (_, None) => self.before += 1,
            (_, Some(_)) => self.lawful += 1,
        }
        good(case, |case| wrong(case, By::serving))
    }

    fn add(&mut self, case: &Case, clarity: Clarity) {
        self.enlarged[setting::sort(clarity)] += 1;
        self.pixels += case.picture.len();
        if !like_standard(clarity) && case.picture.len() < COUNTED {
            let output = |clarity| By::Plain.draw(clarity, &case.picture, case.w as usize, case.h as usize).output;
            self.other += usize::from(output(clarity) != output(Clarity::Standard));
        }
    }
}

/// The settings of the two largest pictures.
const LARGEST: [Setting; 2] = [Setting { kind: 2, bits: setting::HALF }, Setting { kind: 1, bits: 0x3e99_999a }];

/// The edges and at least a count of pictures of every kind, at any setting, and the largest pictures.
fn run_library(count: usize, random: &mut Random) -> bool {
    let mut tally = Tally::default();
    let largest = case::largest().into_iter().zip(LARGEST);
    let mut same = case::edges().into_iter().all(|plan| tally.check(plan.case_at(random, setting::any)))
        && largest.into_iter().all(|(plan, setting)| tally.check(plan.case_at(random, |_, _| setting)));
    let mut kind = 0;
    while same && tally.total() < count {
        let plan = case::any(random, kind % KINDS.len());
        same = tally.check(plan.case_at(random, setting::any));
        kind += 1;
    }
    let Tally { enlarged: [standard, half, threshold, gated], pixels, other, .. } = tally;
    println!(
        "clarity: {} pictures enlarged ({pixels} pixels): {standard} at the standard, {half} at threshold 0.5, {threshold} at \
         others, {gated} gated; {other} came out otherwise than at the standard",
        tally.total()
    );
    println!(
        "clarity: {} without pixels; {} calls refused for their setting, {} for what comes before it, {} with a lawful one: {}",
        tally.empty,
        tally.refused,
        tally.before,
        tally.lawful,
        ending(same)
    );
    same
}

/// Both parts, each over at least a count of pictures; true where nothing differs.
pub fn run(count: usize, seed: u64) -> bool {
    run_plain(count, &mut Random::new(seed)) && run_library(count, &mut Random::new(!seed))
}
