//! Sessions with the largest sides, 2,048 or nine times 682, at each sort of setting: painted at corners and in the middle,
//! refreshed in slices and whole, beside the plain machine. Sides of one more are refused, by the opening and by every call.
//!
//! The machine redraws whole where a refresh follows a changing paint, and the original takes seconds for the largest
//! picture. So paints stand together, and refreshes after them: two redraws. Answers are compared at every call, the buffers
//! after each group of calls.

use super::alone::{call_alone, opening, Buffers};
use super::font;
use super::machine::{header, Call, ITEMS, NONE};
use super::pair::Pair;
use super::pictures::KINDS;
use super::random::Random;
use super::setting::HALF;
use crate::panel::{self, Item, Screen, Setting, STANDARD};

/// The standard, threshold 0.5, another threshold and two gated ones.
const SETTINGS: [Setting; 5] = [
    STANDARD,
    Setting { kind: 1, bits: HALF },
    Setting { kind: 1, bits: 0x3e4c_cccd },
    Setting { kind: 2, bits: HALF },
    Setting { kind: 2, bits: 0x3f60_0000 },
];

/// The corners, the middles of the sides and the middle.
fn places(w: usize, h: usize) -> Vec<(u32, u32)> {
    let along = |side: usize| {
        let mut at = vec![0, side / 2, side - 1];
        at.dedup();
        at
    };
    let (columns, rows) = (along(w), along(h));
    rows.iter().flat_map(|&y| columns.iter().map(move |&x| (x as u32, y as u32))).collect()
}

/// A list of calls on one session.
struct List {
    pair: Pair,
    w: usize,
    h: usize,
    setting: Setting,
    calls: usize,
}

impl List {
    fn open(
        screen: Screen,
        [w, h]: [usize; 2],
        setting: Setting,
        name: &str,
        first: &[u32],
        random: &mut Random,
    ) -> Result<List, String> {
        let [picture, output, marks] = screen.lengths(w * h);
        let title = format!("{w} by {h}, {setting:x?}, {name}");
        let lengths = [picture + 3, output + 5, marks + 7];
        let pair = Pair::open(screen, title, [w, h], setting, first, lengths, random)?;
        Ok(List { pair, w, h, setting, calls: 1 })
    }

    fn call(&mut self, call: Call) -> Result<(), String> {
        self.calls += 1;
        self.pair.call(&call).map(|_| ())
    }

    /// The word at each place altered by a mask, then the first one painted again as it stands; two positions outside.
    fn paints(&mut self, mask: u32) -> Result<(), String> {
        for (column, row) in places(self.w, self.h) {
            let word = self.pair.machine.picture[row as usize * self.w + column as usize] ^ mask;
            self.call(Call::Paint { column, row, word })?;
        }
        let word = self.pair.machine.picture[0];
        self.call(Call::Paint { column: 0, row: 0, word })?;
        self.call(Call::Paint { column: self.w as u32, row: 0, word })?;
        self.call(Call::Paint { column: 0, row: self.h as u32, word })?;
        self.pair.same()
    }

    /// The same places by one list, each word twice and so set back in the end but for the last place's; the list once
    /// more with a position outside behind it, with 65 items, and with none.
    fn paint_lists(&mut self, mask: u32) -> Result<(), String> {
        let places = places(self.w, self.h);
        let item = |&(column, row): &(u32, u32), mask: u32| {
            let word = self.pair.machine.picture[row as usize * self.w + column as usize] ^ mask;
            Item { column, row, word }
        };
        let mut items: Vec<Item> = places.iter().flat_map(|at| [item(at, mask), item(at, 0)]).collect();
        items.pop();
        let mut outside = items.clone();
        outside.push(Item { column: 0, row: self.h as u32, word: 0 });
        let many = items.iter().copied().cycle().take(ITEMS + 1).collect();
        for items in [outside, items, many, Vec::new()] {
            self.call(Call::PaintList { items })?;
        }
        self.pair.same()
    }

    fn refreshes(&mut self, numbers: &[u32]) -> Result<(), String> {
        numbers.iter().try_for_each(|&n| self.call(Call::Refresh { n }))?;
        self.pair.same()
    }

    /// The last pixel locked, a rectangle one past each border refused, and nothing locked again.
    fn locks(&mut self) -> Result<(), String> {
        let (w, h) = (self.w as u32, self.h as u32);
        let word = self.pair.machine.picture[self.w * self.h - 1];
        self.call(Call::Lock { lock: [w - 1, h - 1, 1, 1] })?;
        self.call(Call::Lock { lock: [w - 1, h - 1, 2, 1] })?;
        self.call(Call::Lock { lock: [w - 1, h - 1, 1, 2] })?;
        self.call(Call::Paint { column: w - 1, row: h - 1, word: !word })?;
        self.call(Call::Paint { column: w - 1, row: h - 1, word })?;
        self.call(Call::Lock { lock: NONE })?;
        self.pair.same()
    }

    /// The block of each place, the one beside the last place's marked blocks, and two outside.
    fn shows(&mut self) -> Result<(), String> {
        let reach = self.pair.screen.reach();
        let beside = (self.w.saturating_sub(reach.beside + 2) as u32, self.h.saturating_sub(reach.above + 2) as u32);
        let outside = [(self.w as u32, 0), (0, self.h as u32)];
        let blocks = places(self.w, self.h).into_iter().chain([beside]).chain(outside);
        blocks.into_iter().try_for_each(|(bx, by)| self.call(Call::Show { bx, by }))
    }

    /// Everything stale, nothing stale, some stale, nothing stale.
    fn run(&mut self) -> Result<(), String> {
        let limit = self.pair.screen.limit();
        self.paints(0x00ff_ffff)?;
        self.shows()?;
        self.refreshes(&[0, 1, 16, 256, limit - 1, limit + 5, 70_001])?;
        self.shows()?;
        self.refreshes(&[u32::MAX, u32::MAX])?;
        self.shows()?;
        self.locks()?;
        self.paints(0x0100_0000)?;
        self.paint_lists(0x0000_ff00)?;
        self.paints(0x0012_3456)?;
        self.shows()?;
        self.refreshes(&[0, 1, 16, 40, 100])?;
        self.shows()?;
        self.refreshes(&[16, 256, u32::MAX, 1])?;
        self.shows()?;
        self.whole()
    }

    /// With nothing stale, the output is what the library's whole enlargement of the last picture gives.
    fn whole(&self) -> Result<(), String> {
        let (w, h) = (self.w as u32, self.h as u32);
        let (refusal, output) = enlarged(self.pair.screen, [w, h], self.setting, &self.pair.machine.picture);
        if refusal != 0 || output != self.pair.got.output.part()[..output.len()] {
            return Err(format!("{w} by {h}: the last picture enlarged whole, refusal {refusal}, is not the output"));
        }
        Ok(())
    }
}

/// The library's whole enlargement, three or nine times: its refusal, and the output.
fn enlarged(screen: Screen, sides: [u32; 2], setting: Setting, picture: &[u32]) -> (u32, Vec<u32>) {
    let records = 8 * screen.block() / 9 * picture.len();
    let (mut singles, mut bytes) = (vec![1.0; records], vec![1; records]);
    let mut output = vec![1; screen.block() * picture.len()];
    let refusal = match screen {
        Screen::Three => panel::scale(sides, setting, picture, &mut output, &mut singles, &mut bytes),
        Screen::Nine => {
            let mut middle = vec![1; 9 * picture.len()];
            panel::scale9x(sides, setting, picture, &mut output, &mut middle, &mut singles, &mut bytes)
        }
    };
    (refusal, output)
}

/// A page of text whose top bytes are any: they are carried to the output, and tell where a word came from.
fn page(random: &mut Random, [w, h]: [usize; 2]) -> Vec<u32> {
    font::page(w, h, 0, 0).into_iter().map(|word| word ^ (random.word() & 0xff00_0000)).collect()
}

fn noise(random: &mut Random, [w, h]: [usize; 2]) -> Vec<u32> {
    (0..w * h).map(|_| random.word()).collect()
}

/// Buffers of any contents for a number of blocks, each shorter by what is given.
fn buffers(random: &mut Random, screen: Screen, blocks: usize, short: [usize; 3]) -> Buffers {
    let lengths = screen.lengths(blocks);
    Buffers::on(&[], [0, 1, 2].map(|i| lengths[i] - short[i]), random)
}

/// A setting that is refused after all that is wrong with sides and buffers.
const UNLAWFUL: Setting = Setting { kind: 2, bits: 0 };

/// Sides of one more than the largest, on buffers that are long enough for a row of so many blocks; the largest sides on
/// buffers one short.
fn refused(screen: Screen, random: &mut Random) -> Result<(), String> {
    let (n, past) = (screen.limit(), screen.limit() + 1);
    let long = |random: &mut Random| buffers(random, screen, past as usize, [0; 3]);
    for [w, h] in [[past, 1], [1, past], [past, 0], [0, past], [past, n], [n, past], [past, past]] {
        opening(screen, [w, h], STANDARD, long(random))?;
        opening(screen, [w, h], UNLAWFUL, long(random))?;
        let paint = Call::Paint { column: 0, row: 0, word: 1 };
        let lock = Call::Lock { lock: [0, 0, w, h] };
        let list = Call::PaintList { items: Vec::new() };
        for call in [paint, list, Call::Refresh { n: u32::MAX }, Call::Show { bx: 0, by: 0 }, lock] {
            call_alone(screen, header([w, h], NONE, STANDARD), long(random), &call)?;
            call_alone(screen, header([w, h], [0, 0, w, h], UNLAWFUL), long(random), &call)?;
        }
    }
    for sides in [[n, 1], [1, n]] {
        for short in [[1, 0, 0], [0, 1, 0], [0, 0, 1], [1, 1, 1]] {
            opening(screen, sides, STANDARD, buffers(random, screen, n as usize, short))?;
            opening(screen, sides, UNLAWFUL, buffers(random, screen, n as usize, short))?;
        }
        opening(screen, sides, UNLAWFUL, buffers(random, screen, n as usize, [0; 3]))?;
    }
    Ok(())
}

/// The sizes of the page and of the noise. Nine times, noise at a setting of its own would take the machine too long.
fn sheets(screen: Screen) -> [[usize; 2]; 2] {
    let n = screen.limit() as usize;
    match screen {
        Screen::Three => [[n, n], [n, n]],
        Screen::Nine => [[n, n], [n, 24]],
    }
}

/// The sizes by their names.
pub fn sizes(screen: Screen) -> String {
    let (n, mut sheets) = (screen.limit() as usize, sheets(screen).to_vec());
    sheets.dedup();
    let (last, others) = sheets.split_last().expect("a size");
    let named: Vec<String> = [[n, 1], [1, n]].iter().chain(others).map(|[w, h]| format!("{w} by {h}")).collect();
    format!("{} and {} by {}", named.join(", "), last[0], last[1])
}

/// The calls made beside the machine, or the first difference.
pub fn run(screen: Screen, random: &mut Random) -> Result<usize, String> {
    refused(screen, random)?;
    let limit = screen.limit() as usize;
    let mut calls = 0;
    let mut settings = SETTINGS.into_iter().cycle();
    for sides in [[limit, 1], [1, limit]] {
        for (kind, setting) in KINDS.iter().zip(&mut settings) {
            let first = kind.picture(random, sides[0], sides[1]);
            let mut list = List::open(screen, sides, setting, kind.name, &first, random)?;
            list.run()?;
            calls += list.calls;
        }
    }
    // a page comes out alike at most settings, noise does not
    let [text, any] = sheets(screen);
    let sheets = [("a page", text, STANDARD, page(random, text)), ("noise", any, SETTINGS[3], noise(random, any))];
    for (name, sides, setting, first) in sheets {
        let mut list = List::open(screen, sides, setting, name, &first, random)?;
        list.run()?;
        calls += list.calls;
    }
    Ok(calls)
}
