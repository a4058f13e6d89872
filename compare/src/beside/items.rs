//! The items of lists of paints: 0 to 66 of them, of which the library takes 64, on positions that come again, with words
//! that are equal, other or set back, inside the lock and beside it, and with an item that is refused at either end or
//! between.

use super::machine::{holds, lock_of, Rectangle};
use super::random::Random;
use super::session::{any_position, any_word, near};
use crate::panel::{Header, Item, Screen};

fn any_count(random: &mut Random) -> usize {
    match random.below(8) {
        0 => random.pick(&[0, 1, 63, 64, 65, 66]),
        1 => random.between(0, 66),
        _ => random.between(2, 12),
    }
}

/// An item that is taken at its turn where those before it are: inside the picture, and in the lock the word that stands
/// there.
fn taken(random: &mut Random, screen: Screen, header: Header, picture: &[u32], before: &[Item]) -> Item {
    let (w, h) = near(screen, header);
    let (column, row) = match before.last() {
        Some(item) if random.one_in(3) => (item.column, item.row),
        _ => (random.below(w.max(1)) as u32, random.below(h.max(1)) as u32),
    };
    let here = picture.get(row as usize * w + column as usize).copied();
    let word = match here {
        Some(word) if holds(lock_of(header), column, row) || random.one_in(4) => word,
        _ => any_word(random, picture, w, column, row),
    };
    Item { column, row, word }
}

/// An item that may be refused: any position, any word.
fn wild(random: &mut Random, screen: Screen, header: Header, picture: &[u32]) -> Item {
    let (w, h) = near(screen, header);
    let [left, top, width, height]: Rectangle = lock_of(header);
    let column = any_position(random, screen, w, left, width);
    let row = any_position(random, screen, h, top, height);
    Item { column, row, word: any_word(random, picture, w, column, row) }
}

/// An item that is refused: outside the picture, or where there is a lock another word in it.
fn refused(random: &mut Random, [w, h, left, top, width, height, ..]: Header, item: Item) -> Item {
    match random.below(4) {
        0 => Item { column: w, ..item },
        1 => Item { row: h, ..item },
        _ if width == 0 || height == 0 => Item { column: u32::MAX, ..item },
        _ => Item { column: left, row: top, word: !item.word },
    }
}

pub fn any_items(random: &mut Random, screen: Screen, header: Header, picture: &[u32]) -> Vec<Item> {
    let (count, any) = (any_count(random), random.one_in(6));
    let mut items = Vec::with_capacity(count);
    for _ in 0..count {
        items.push(match any {
            true => wild(random, screen, header, picture),
            false => taken(random, screen, header, picture, &items),
        });
    }
    if !items.is_empty() && random.one_in(3) {
        let last = items.len() - 1;
        let at = random.pick(&[0, last / 2, last]);
        items[at] = refused(random, header, items[at]);
    }
    items
}
