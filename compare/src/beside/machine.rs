//! The plain machine of a session on either screen. It redraws the picture whole at its setting, by the original or by the
//! plain enlargement, and takes nothing from the library.

use super::drawing;
use super::plain::Clarity;
use super::setting::{answered, meant};
use crate::panel::{Header, Item, Screen, Setting};

/// A rectangle of the picture: left, top, width, height.
pub type Rectangle = [u32; 4];

pub const NONE: Rectangle = [0; 4];

/// Whether the position lies in the rectangle; one of width or height 0 has none.
pub fn holds([left, top, width, height]: Rectangle, x: u32, y: u32) -> bool {
    let along = |start: u32, length: u32, at: u32| at.checked_sub(start).is_some_and(|distance| distance < length);
    along(left, width, x) && along(top, height, y)
}

/// Whether the rectangle has an area and reaches past a picture of w by h.
pub fn past([left, top, width, height]: Rectangle, w: u32, h: u32) -> bool {
    let fits = |start: u32, length: u32, side: u32| side.checked_sub(start).is_some_and(|room| length <= room);
    width > 0 && height > 0 && !(fits(left, width, w) && fits(top, height, h))
}

/// The header of a picture of w by h with a lock and a setting.
pub fn header([w, h]: [u32; 2], [left, top, width, height]: Rectangle, setting: Setting) -> Header {
    [w, h, left, top, width, height, setting.kind, setting.bits]
}

/// The lock in a header.
pub fn lock_of([_, _, left, top, width, height, _, _]: Header) -> Rectangle {
    [left, top, width, height]
}

/// The setting in a header.
pub fn setting_of([.., kind, bits]: Header) -> Setting {
    Setting { kind, bits }
}

pub struct Machine {
    screen: Screen,
    w: usize,
    h: usize,
    lock: Rectangle,
    /// As its header has it, and what it means.
    setting: Setting,
    pub clarity: Clarity,
    pub picture: Vec<u32>,
    pub stale: Vec<bool>,
    pub output: Vec<u32>,
    /// The item for which a list of paints was refused last.
    pub refused_at: Option<usize>,
    /// The present picture enlarged whole, where it was asked for since the last change.
    whole: Option<Vec<u32>>,
}

/// The most items of a list of paints.
pub const ITEMS: usize = 64;

#[derive(Clone, Debug)]
pub enum Call {
    Paint { column: u32, row: u32, word: u32 },
    PaintList { items: Vec<Item> },
    Refresh { n: u32 },
    Show { bx: u32, by: u32 },
    Lock { lock: Rectangle },
}

#[derive(Clone, Debug, PartialEq, Eq)]
pub enum Answer {
    Refused(u32),
    Unchanged { stale: u32 },
    Painted { stale: u32 },
    PaintedList { stale: u32 },
    Refreshed { drawn: u32, left: u32 },
    Shown(Vec<u32>),
    Locked(Header),
}

impl Machine {
    /// Every block is stale, every output word 0, nothing locked. The setting is a lawful one.
    pub fn open(screen: Screen, [w, h]: [usize; 2], setting: Setting, picture: &[u32]) -> Machine {
        let picture = picture[..w * h].to_vec();
        let (stale, output) = (vec![true; w * h], vec![0; screen.block() * w * h]);
        let clarity = meant(setting).expect("a setting that is not refused");
        let setting = answered(setting);
        Machine { screen, w, h, lock: NONE, setting, clarity, picture, stale, output, refused_at: None, whole: None }
    }

    pub fn stale_count(&self) -> u32 {
        self.stale.iter().filter(|&&s| s).count() as u32
    }

    pub fn call(&mut self, call: &Call) -> Answer {
        match *call {
            Call::Paint { column, row, word } => match self.place(column, row) {
                Some(at) if self.picture[at] == word => Answer::Unchanged { stale: self.stale_count() },
                Some(_) if holds(self.lock, column, row) => Answer::Refused(11),
                Some(at) => self.paint(at, word),
                None => Answer::Refused(5),
            },
            Call::PaintList { ref items } => self.paint_list(items),
            Call::Refresh { n } => self.refresh(n),
            Call::Show { bx, by } => match self.place(bx, by) {
                Some(at) if self.stale[at] => Answer::Refused(7),
                Some(at) => Answer::Shown(self.places(at).map(|i| self.output[i]).collect()),
                None => Answer::Refused(5),
            },
            Call::Lock { lock } => self.relock(lock),
        }
    }

    pub fn header(&self) -> Header {
        header([self.w as u32, self.h as u32], self.lock, self.setting)
    }

    fn relock(&mut self, lock: Rectangle) -> Answer {
        if past(lock, self.w as u32, self.h as u32) {
            return Answer::Refused(10);
        }
        self.lock = lock;
        Answer::Locked(self.header())
    }

    /// A position's number in row order, if it is inside the picture.
    fn place(&self, x: u32, y: u32) -> Option<usize> {
        let (x, y) = (x as usize, y as usize);
        (x < self.w && y < self.h).then(|| y * self.w + x)
    }

    /// The places in the output of a block's words, row by row.
    fn places(&self, at: usize) -> impl Iterator<Item = usize> {
        self.screen.places(self.w, (at % self.w, at / self.w))
    }

    /// A paint of another word.
    fn paint(&mut self, at: usize, word: u32) -> Answer {
        self.picture[at] = word;
        self.whole = None;
        for (i, stale) in self.stale.iter_mut().enumerate() {
            *stale |= self.screen.names((at % self.w, at / self.w), (i % self.w, i / self.w));
        }
        Answer::Painted { stale: self.stale_count() }
    }

    /// A list as its items, one after another, with one answer; one that is refused as nothing but its number.
    fn paint_list(&mut self, items: &[Item]) -> Answer {
        if items.len() > ITEMS {
            return Answer::Refused(12);
        }
        let (picture, stale) = (self.picture.clone(), self.stale.clone());
        for (i, &Item { column, row, word }) in items.iter().enumerate() {
            if let Answer::Refused(number) = self.call(&Call::Paint { column, row, word }) {
                (self.picture, self.stale, self.whole) = (picture, stale, None);
                self.refused_at = Some(i);
                return Answer::Refused(number);
            }
        }
        Answer::PaintedList { stale: self.stale_count() }
    }

    fn refresh(&mut self, n: u32) -> Answer {
        let blocks = 0..self.stale.len();
        let first: Vec<usize> = blocks.filter(|&at| self.stale[at]).take(n as usize).collect();
        let whole = self.enlarged();
        for &at in &first {
            self.stale[at] = false;
            for i in self.places(at) {
                self.output[i] = whole[i];
            }
        }
        self.whole = Some(whole);
        Answer::Refreshed { drawn: first.len() as u32, left: self.stale_count() }
    }

    /// The present picture enlarged whole.
    fn enlarged(&mut self) -> Vec<u32> {
        let draw = || drawing::words(self.screen, self.clarity, &self.picture, self.w, self.h);
        self.whole.take().unwrap_or_else(draw)
    }

    /// The first block that is not stale and has in an output other words than the present picture enlarged whole.
    pub fn outdated(&mut self, output: &[u32]) -> Option<usize> {
        let whole = self.enlarged();
        let same = |at: usize| self.places(at).all(|i| output[i] == whole[i]);
        let found = (0..self.stale.len()).find(|&at| !self.stale[at] && !same(at));
        self.whole = Some(whole);
        found
    }
}
