//! Whole pictures on panels with a palette, and the nearness of two words. The replaced picture is held to a plain search;
//! everything else to what the original draws of the replaced picture where it serves, and to the plain enlargement at
//! every setting, in every bit of every buffer. What is refused has to be so in its turn, with every buffer kept.

use super::case::{self, Case, Room, Simpler};
use super::drawing::By;
use super::lent::Lent;
use super::palettes::{self, nearest, nearness};
use super::pictures::KINDS;
use super::random::Random;
use super::setting::{self, like_standard, meant};
use super::whole::{ending, good, words, Buffers};
use crate::panel::{self, Palette, Screen};
use std::collections::BTreeMap;
use std::fmt;

/// One call: one without a palette, the palette, and the room of the buffer for the replaced picture.
#[derive(Clone)]
struct Given {
    case: Case,
    palette: Vec<u32>,
    room: Room,
}

impl Given {
    fn replaced_len(&self) -> usize {
        let needed = if self.case.lawful() { self.case.picture.len() } else { 24 };
        self.room.length(needed, self.case.seed as usize)
    }

    fn lawful_palette(&self) -> bool {
        (1..=256).contains(&self.palette.len())
    }

    /// The refusal that is due: 1 to 4 as without a palette, then the replaced buffer, the setting, and last the palette.
    fn refusal(&self) -> u32 {
        match self.case.refusal() {
            plain @ 1..=4 => plain,
            _ if self.replaced_len() < self.case.picture.len() => 4,
            0 if !self.lawful_palette() => 14,
            plain => plain,
        }
    }

    fn call(&self, lent: &mut Buffers, replaced: &mut Lent<u32>, palette: &Lent<u32>) -> u32 {
        let (sides, setting, picture) = ([self.case.w, self.case.h], self.case.setting, lent.picture.part());
        let palette = Palette { entries: palette.part(), replaced: replaced.part_mut() };
        let (output, singles, bytes) = (lent.output.part_mut(), lent.singles.part_mut(), lent.bytes.part_mut());
        match self.case.times {
            Screen::Three => panel::scale_palette(sides, setting, picture, palette, output, singles, bytes),
            Screen::Nine => {
                let middle = lent.middle.part_mut();
                panel::scale9x_palette(sides, setting, picture, palette, output, middle, singles, bytes)
            }
        }
    }
}

impl Simpler for Given {
    /// The palette with runs of entries taken out, and the call made simpler.
    fn simpler(&self) -> Box<dyn Iterator<Item = Given> + '_> {
        let without = |(first, n): (u32, u32)| {
            let mut palette = self.palette.clone();
            palette.drain(first as usize..(first + n) as usize);
            Given { palette, ..self.clone() }
        };
        let entries = case::runs(self.palette.len() as u32).map(without);
        Box::new(entries.chain(self.case.simpler().map(|case| Given { case, ..self.clone() })))
    }
}

impl fmt::Display for Given {
    fn fmt(&self, f: &mut fmt::Formatter) -> fmt::Result {
        let entries: Vec<String> = self.palette.iter().map(|entry| format!("{entry:08x}")).collect();
        write!(f, "{}\nreplaced {:?}, palette of {}: {}", self.case, self.room, entries.len(), entries.join(" "))
    }
}

/// What is wrong with the call, if anything.
fn wrong(given: &Given) -> Option<String> {
    let case = &given.case;
    let mut random = Random::new(!case.seed);
    let mut got = Buffers::of(case);
    let mut replaced = Lent::new(given.replaced_len(), &mut random);
    let palette = Lent::with(&given.palette, given.palette.len(), &mut random);
    let (lent, mut replaced_due, palette_due) = (got.clone(), replaced.clone(), palette.clone());
    let refusal = given.call(&mut got, &mut replaced, &palette);
    if refusal != given.refusal() {
        return Some(format!("refusal {refusal}, expected {}", given.refusal()));
    }
    let lists = |replaced_due: &Lent<u32>| {
        words("palette", &palette, &palette_due).or_else(|| words("replaced", &replaced, replaced_due))
    };
    let Some(clarity) = meant(case.setting).filter(|_| refusal == 0) else {
        return lists(&replaced_due).or_else(|| got.difference(&lent, case));
    };
    let picture: Vec<u32> = case.picture.iter().map(|&word| nearest(&given.palette, word)).collect();
    replaced_due.put(&picture);
    let on = case.on(picture);
    lists(&replaced_due).or_else(|| {
        By::serving(clarity).iter().find_map(|&by| {
            let mut expected = lent.clone();
            expected.fill(&on, clarity, by);
            got.difference(&expected, case).map(|text| format!("beside {by:?}: {text}"))
        })
    })
}

/// What was run.
#[derive(Default)]
struct Tally {
    enlarged: usize,
    /// Of these, the ones that are held to the original too, and the ones enlarged nine times.
    original: usize,
    nine: usize,
    pixels: usize,
    empty: usize,
    /// Pictures enlarged by the number of the palette's entries.
    sizes: BTreeMap<usize, usize>,
    /// Words whose nearest colour another colour ties with, or an entry that differs in the top byte alone.
    colours_tie: usize,
    top_bytes_tie: usize,
    /// Words that lost another top byte to the entry's.
    top_bytes: usize,
    refused: BTreeMap<u32, usize>,
    /// Of those refused by 4, the ones whose other buffers are long enough.
    replaced_short: usize,
    /// Calls refused for their palette by the number of its entries.
    refused_sizes: BTreeMap<usize, usize>,
}

impl Tally {
    /// Runs one call; false, with the smallest reproduction printed, where it is wrong.
    fn check(&mut self, given: Given) -> bool {
        match given.refusal() {
            0 if given.case.picture.is_empty() => self.empty += 1,
            0 => self.add(&given),
            number => {
                *self.refused.entry(number).or_default() += 1;
                self.replaced_short += usize::from(number == 4 && given.case.refusal() != 4);
                if number == 14 {
                    *self.refused_sizes.entry(given.palette.len()).or_default() += 1;
                }
            }
        }
        good(given, wrong)
    }

    fn add(&mut self, given: &Given) {
        self.enlarged += 1;
        self.original += usize::from(meant(given.case.setting).is_some_and(like_standard));
        self.nine += usize::from(given.case.times == Screen::Nine);
        self.pixels += given.case.picture.len();
        *self.sizes.entry(given.palette.len()).or_default() += 1;
        // large pictures are not looked at again, for the time that this takes
        for &word in given.case.picture.iter().filter(|_| given.case.picture.len() < 1 << 16) {
            let entry = nearest(&given.palette, word);
            let tied = given.palette.iter().filter(|&&other| nearness(other, word) == nearness(entry, word));
            let others: Vec<u32> = tied.map(|other| other ^ entry).filter(|&differing| differing != 0).collect();
            self.colours_tie += usize::from(others.iter().any(|differing| differing << 8 != 0));
            self.top_bytes_tie += usize::from(others.iter().any(|differing| differing << 8 == 0));
            self.top_bytes += usize::from((word ^ entry) >> 24 != 0);
        }
    }

    /// What the run was to meet and did not: without it nothing would be shown of that.
    fn unmet(&self) -> Vec<&'static str> {
        let sizes: Vec<usize> = self.sizes.keys().chain(self.refused_sizes.keys()).copied().collect();
        let met = [
            ("a palette of each size", palettes::SIZES.iter().all(|size| sizes.contains(size))),
            ("each refusal", [1, 2, 3, 4, 13, 14].iter().all(|number| self.refused.contains_key(number))),
            ("a replaced buffer that alone is short", self.replaced_short > 0),
            ("a tie of colours", self.colours_tie > 0),
            ("a tie of top bytes", self.top_bytes_tie > 0),
            ("a top byte replaced", self.top_bytes > 0),
            ("a picture without pixels", self.empty > 0),
            ("both enlargements beside the original", self.original > 0 && self.nine > 0 && self.nine < self.enlarged),
        ];
        met.into_iter().filter(|(_, met)| !met).map(|(name, _)| name).collect()
    }

    fn print(&self, same: bool) {
        let list = |counts: &mut dyn Iterator<Item = String>| counts.collect::<Vec<String>>().join(", ");
        println!(
            "palette: {} pictures enlarged ({} pixels), {} of them beside the original too, {} nine times, {} without pixels; by \
             entries: {}",
            self.enlarged,
            self.pixels,
            self.original,
            self.nine,
            self.empty,
            list(&mut self.sizes.iter().map(|(entries, count)| format!("{count} with {entries}")))
        );
        println!(
            "palette: words whose nearest colour ties with another colour {}, with another top byte {}; top bytes replaced {}",
            self.colours_tie, self.top_bytes_tie, self.top_bytes
        );
        println!(
            "palette: calls refused: {}; of those by 4 for the replaced buffer alone {}, of those by 14 {}: {}",
            list(&mut self.refused.iter().map(|(number, count)| format!("{count} by {number}"))),
            self.replaced_short,
            list(&mut self.refused_sizes.iter().map(|(entries, count)| format!("{count} with {entries}"))),
            ending(same)
        );
    }
}

/// A palette for a case, and the room of its buffer, which is exact mostly.
fn given(case: Case, random: &mut Random, size: usize) -> Given {
    let palette = palettes::any(random, palettes::SIZES[size % palettes::SIZES.len()], &case.picture);
    let room = match random.below(8) {
        0 => Room::OneShort,
        1 => Room::Longer,
        2 => random.pick(&[Room::Empty, Room::Longer]),
        _ => Room::Exact,
    };
    Given { case, palette, room }
}

/// The edges at any setting, the largest pictures with 16 entries, and at least a count of pictures of every kind.
fn run_pictures(count: usize, random: &mut Random) -> bool {
    let mut tally = Tally::default();
    let edges = case::edges().into_iter().enumerate().collect::<Vec<_>>();
    let mut same = edges.into_iter().all(|(i, plan)| {
        let case = plan.case_at(random, setting::any);
        tally.check(given(case, random, i))
    });
    same = same
        && case::largest().into_iter().all(|plan| {
            let case = plan.case(random);
            let palette = palettes::any(random, 16, &case.picture);
            tally.check(Given { case, palette, room: Room::Exact })
        });
    let mut kind = 0;
    while same && tally.enlarged < count {
        let case = case::any(random, kind % KINDS.len()).case_at(random, setting::any);
        same = tally.check(given(case, random, kind / KINDS.len()));
        kind += 1;
    }
    tally.print(same);
    let unmet = if same { tally.unmet() } else { Vec::new() };
    unmet.iter().for_each(|name| println!("palette: not met in this run: {name}"));
    same && unmet.is_empty()
}

/// Every pair of values in each channel beside any other channels, and a count of other pairs.
fn run_nearness(count: usize, random: &mut Random) -> bool {
    let (mut total, mut found) = (0, 0);
    for i in 0..(3 << 16) + count as u32 {
        let (p, q) = palettes::pair(random, i);
        let due = nearness(p, q);
        let same = [panel::nearness(p, q), panel::nearness(q, p)] == [due as u32; 2]
            && (0..=298_464_750).contains(&due)
            && (due == 0) == ((p ^ q) << 8 == 0);
        if !same && found == 0 {
            println!("nearness of {p:08x} and {q:08x}: {}, expected {due}", panel::nearness(p, q));
        }
        total += 1;
        found += usize::from(!same);
    }
    println!("palette: nearness of {total} pairs of words: {found} differences");
    found == 0
}

/// Both parts; true where nothing differs.
pub fn run(count: usize, seed: u64) -> bool {
    run_nearness(10 * count, &mut Random::new(seed)) && run_pictures(count, &mut Random::new(!seed))
}
