//! Two lists of calls that end with one picture under equal settings: with nothing stale they have the same output. The
//! standard and threshold 0.5 are equal settings.

use super::machine::{Call, ITEMS, NONE};
use super::pair::Pair;
use super::pictures::KINDS;
use super::plain::Clarity;
use super::random::Random;
use super::setting::{like_standard, HALF};
use crate::panel::{Item, Setting, STANDARD};

/// The setting of the second list: the first one's, or of the standard and threshold 0.5 either.
fn equal_setting(random: &mut Random, first: &Pair) -> Setting {
    match first.machine.clarity {
        clarity if like_standard(clarity) => random.pick(&[STANDARD, Setting { kind: 1, bits: HALF }]),
        Clarity::Standard => STANDARD,
        Clarity::Threshold(threshold) => Setting { kind: 1, bits: threshold.to_bits() },
        Clarity::Gated(threshold) => Setting { kind: 2, bits: threshold.to_bits() },
    }
}

/// The words of a picture as items, in any order, some of them twice.
fn items(random: &mut Random, picture: &[u32], w: usize) -> Vec<Item> {
    let item = |at: usize| Item { column: (at % w) as u32, row: (at / w) as u32, word: picture[at] };
    let mut items: Vec<Item> = (0..picture.len()).map(item).collect();
    for last in (1..items.len()).rev() {
        items.swap(last, random.below(last + 1));
    }
    let again = random.below(items.len() + 1);
    items.extend_from_within(..again);
    items
}

/// Paints the picture by single paints and by lists, with refreshes between, and refreshes until nothing is stale.
fn follow(random: &mut Random, pair: &mut Pair, items: &[Item]) -> Result<(), String> {
    let mut rest = items;
    while !rest.is_empty() {
        let (now, later) = rest.split_at(random.between(1, ITEMS.min(rest.len())));
        rest = later;
        match now {
            &[Item { column, row, word }] => pair.call(&Call::Paint { column, row, word })?,
            _ => pair.call(&Call::PaintList { items: now.to_vec() })?,
        };
        if random.one_in(3) {
            pair.call(&Call::Refresh { n: random.between(0, 40) as u32 })?;
        }
    }
    settle(pair)
}

fn settle(pair: &mut Pair) -> Result<(), String> {
    pair.call(&Call::Refresh { n: u32::MAX })?;
    pair.same()
}

/// Ends a list, and makes a second one from another first picture to the same last one; whether one of them was at the
/// standard and the other at threshold 0.5.
pub fn compare(random: &mut Random, first: &mut Pair) -> Result<bool, String> {
    let [w, h, ..] = first.header.map(|number| number as usize);
    first.call(&Call::Lock { lock: NONE })?;
    settle(first)?;
    let setting = equal_setting(random, first);
    let other = KINDS[random.below(KINDS.len())].picture(random, w, h);
    let (screen, title) = (first.screen, format!("second list to {}, {setting:x?}", first.title()));
    let lengths = screen.lengths(w * h);
    let mut second = Pair::open(screen, title, [w, h], setting, &other, lengths, random)?;
    let items = items(random, &first.machine.picture, w);
    follow(random, &mut second, &items)?;
    let words = lengths[1];
    if first.got.output.part()[..words] != second.got.output.part()[..words] {
        return Err(format!("{}: the two lists have one picture and setting, and not the same output", second.title()));
    }
    Ok(second.machine.clarity != first.machine.clarity)
}
