//! Times of a session's calls, beside one whole `scale` of the original on the same picture, or `scale9x` where the session is
//! of the nine-times screen.

use super::bench::{original_whole, picture, PICTURES};
use super::times::{best, least, median, time, time_short, Form};
use crate::panel::{self, Item, Screen, Setting, STANDARD};
use std::hint::black_box;

/// A square session whose calls are timed.
struct Square {
    side: usize,
    /// Repetitions of the original, which stands below every ratio.
    original: usize,
    /// Repetitions of one refresh of everything.
    everything: usize,
    /// Refreshes that follow each other until nothing is stale: the blocks drawn by each, and repetitions of them all.
    slices: &'static [(u32, usize)],
}

/// At 1,024 a side 65,536 refreshes of 16 blocks are needed, and each counts all the marks: seconds, so they run once.
const THREE: [Square; 2] = [
    Square { side: 256, original: 20, everything: 20, slices: &[(16, 8), (256, 8)] },
    Square { side: 1024, original: 3, everything: 4, slices: &[(16, 1), (256, 2)] },
];

/// One whole `scale9x` of the original at 256 a side takes as long as nine of its `scale`.
const NINE: [Square; 1] = [Square { side: 256, original: 4, everything: 8, slices: &[(16, 2)] }];

fn squares(screen: Screen) -> &'static [Square] {
    match screen {
        Screen::Three => &THREE,
        Screen::Nine => &NINE,
    }
}

/// Blocks of one slice; the slices of which the middle time is taken, those at the start of a session; the sessions of
/// which the best is taken.
const SLICE: u32 = 16;
const FIRST_SLICES: usize = 64;
const SESSIONS: usize = 8;

pub struct Session {
    screen: Screen,
    header: panel::Header,
    picture: Vec<u32>,
    output: Vec<u32>,
    marks: Vec<u8>,
}

impl Session {
    /// Everything is stale at the standard; every buffer has been written.
    fn open(screen: Screen, picture: &[u32], side: usize) -> Session {
        Session::open_at(screen, STANDARD, picture, side)
    }

    /// The same at another setting.
    pub fn open_at(screen: Screen, setting: Setting, picture: &[u32], side: usize) -> Session {
        let (mut output, mut marks) = (vec![1; screen.block() * side * side], vec![0; side * side]);
        let opened = panel::open(screen, [side as u32; 2], setting, picture, &mut output, &mut marks);
        assert_eq!(opened.refusal, 0);
        Session { screen, header: opened.header, picture: picture.to_vec(), output, marks }
    }

    fn refresh(&mut self, n: u32) -> panel::Refreshed {
        panel::refresh(self.screen, self.header, &self.picture, &mut self.output, &mut self.marks, n)
    }

    pub fn refresh_all(&mut self) -> panel::Refreshed {
        self.refresh(u32::MAX)
    }

    /// Refreshes of n blocks each, until nothing is stale.
    fn refresh_by(&mut self, n: u32) {
        while self.refresh(n).left != 0 {}
    }

    fn paint(&mut self, column: usize, row: usize, word: u32) -> panel::Painted {
        let item = Item { column: column as u32, row: row as u32, word };
        panel::paint(self.screen, self.header, &mut self.picture, &mut self.marks, item)
    }

    fn paint_list(&mut self, items: &[Item]) -> panel::PaintedList {
        panel::paint_list(self.screen, self.header, &mut self.picture, &mut self.marks, items)
    }

    /// A paint of another word, and a refresh of all that it makes stale. Never inlined, so that a profiler finds it.
    #[inline(never)]
    pub fn change_pixel(&mut self, column: usize, row: usize, word: u32) {
        assert_eq!(self.paint(column, row, word).changed, 1);
        assert_eq!(self.refresh_all().left, 0);
    }
}

impl Session {
    /// The time of one changed pixel, the i-th of some that are spread over the picture.
    pub fn time_change(&mut self, side: usize, i: usize) -> f64 {
        let (column, row) = (20 + 37 * i % 200, 20 + 53 * i % 200);
        let word = self.picture[row * side + column] ^ 0x00ff_ffff;
        time(|| self.change_pixel(column, row, word))
    }
}

/// One changed pixel in the middle of a picture of which nothing is stale, to be run under a profiler.
pub fn change(screen: Screen, picture: &[u32], side: usize) {
    let mut session = Session::open(screen, picture, side);
    assert_eq!(session.refresh_all().left, 0);
    let middle = side / 2;
    session.change_pixel(middle, middle, picture[middle * side + middle] ^ 0x00ff_ffff);
}

/// All marks in one byte: each is read once, as fast as the compiler can make it.
#[inline(never)]
fn read_marks(marks: &[u8]) -> u8 {
    marks.iter().fold(0, |all, mark| all | mark)
}

/// One picture's rows.
struct Bench<'a> {
    form: Form,
    screen: Screen,
    square: &'a Square,
    name: &'a str,
    picture: Vec<u32>,
    /// Nanoseconds of one whole enlargement by the original.
    full: f64,
}

impl<'a> Bench<'a> {
    fn new(form: Form, screen: Screen, square: &'a Square, name: &'a str) -> Bench<'a> {
        let picture = picture(name, square.side);
        let once = |_| time(|| drop(black_box(original_whole(screen, &picture, square.side))));
        let full = least((0..square.original).map(once));
        Bench { form, screen, square, name, picture, full }
    }

    fn open(&self) -> Session {
        Session::open(self.screen, &self.picture, self.square.side)
    }

    fn line(&self, what: &str, ns: f64) -> String {
        let (name, full) = (self.name, self.full);
        format!(
            "{name:<6} {what:<58} {:>10.1}   original whole {:>9.1}   ratio {:>8.5}",
            ns / 1e3,
            full / 1e3,
            ns / full
        )
    }

    fn say(&self, what: &str, ns: f64) {
        let name = format!("{} {} {}: {what}", self.screen.name(), self.square.side, self.name);
        self.form.row(&self.line(what, ns), &name, ns / self.full, ns);
    }

    /// Everything is stale: one refresh of everything, one slice, and slices until nothing is stale.
    fn drawing(&self) {
        let drawn = |n: u32, repetitions: usize| {
            least((0..repetitions).map(|_| {
                let mut session = self.open();
                time(|| session.refresh_by(n))
            }))
        };
        self.say("first refresh of everything after opening", drawn(u32::MAX, self.square.everything));
        let slice = least((0..SESSIONS).map(|_| {
            let mut session = self.open();
            median((0..FIRST_SLICES).map(|_| time(|| assert_eq!(session.refresh(SLICE).drawn, SLICE))))
        }));
        self.say(&format!("one refresh of {SLICE} blocks, everything stale"), slice);
        for &(n, repetitions) in self.square.slices {
            self.say(&format!("refreshes of {n} blocks until none is stale"), drawn(n, repetitions));
        }
    }

    /// Nothing is stale: a changed pixel, an equal word, and a refresh that finds nothing.
    fn keeping(&self) {
        let side = self.square.side;
        let mut session = self.open();
        assert_eq!(session.refresh_all().left, 0);
        let changed = median((0..200).map(|i| session.time_change(side, i)));
        self.say("one changed pixel: paint, and refresh until none is stale", changed);
        self.equal_word(&mut session);
        let nothing = least((0..20).map(|_| time_short(|| assert_eq!(session.refresh_all().drawn, 0))));
        self.say("refresh with nothing stale", nothing);
    }

    fn equal_word(&self, session: &mut Session) {
        let (word, marks) = (session.picture[100 * self.square.side + 100], session.marks.clone());
        let (once, equal) = best(
            20,
            || time_short(|| assert_eq!(read_marks(black_box(&marks)), 0)),
            || time_short(|| assert_eq!(session.paint(100, 100, word).changed, 0)),
        );
        self.form.note(&self.line("the marks read once, by plain Rust", once));
        self.say("paint of an equal word, with its stale count", equal);
        let name = self.name;
        let times = format!("{name:<6} the paint of an equal word takes {:.2} times the marks read once", equal / once);
        self.form.note(&times);
    }
}

/// The side at which lists of paints are timed, and the pixels of the bar graph that each of them paints.
const LIST_SIDE: usize = 2048;
const BARS: usize = 4;
const LEVELS: usize = 10;

/// A single paint and a list of forty, each of words that change: how many times the one the other takes.
fn paint_lists(form: Form) {
    let mut session = Session::open(Screen::Three, &picture("page", LIST_SIDE), LIST_SIDE);
    assert_eq!(session.refresh_all().left, 0);
    let mut listed = Session::open(Screen::Three, &session.picture, LIST_SIDE);
    assert_eq!(listed.refresh_all().left, 0);
    let at = |i: usize| (1000 + 3 * (i / LEVELS), 1000 + i % LEVELS);
    let (single, list) = best(
        20,
        || {
            let (column, row) = at(0);
            let word = session.picture[row * LIST_SIDE + column] ^ 0x00ff_ffff;
            time(|| assert_eq!(session.paint(column, row, word).changed, 1))
        },
        || {
            let item = |i| {
                let (column, row) = at(i);
                let word = listed.picture[row * LIST_SIDE + column] ^ 0x00ff_ffff;
                Item { column: column as u32, row: row as u32, word }
            };
            let items: Vec<Item> = (0..BARS * LEVELS).map(item).collect();
            time(|| {
                let painted = listed.paint_list(&items);
                assert!(painted.refusal == 0 && painted.stale != 0);
            })
        },
    );
    form.note(&format!(
        "a session of {LIST_SIDE} by {LIST_SIDE}: one paint {:.1} us, {} paints in one call {:.1} us, {:.3} times as long",
        single / 1e3,
        BARS * LEVELS,
        list / 1e3,
        list / single
    ));
}

/// Prints the rows of every square and picture; lists of paints, whose time rests on no screen, with those of three times.
pub fn run(form: Form, screen: Screen) {
    let (title, whole) = match screen {
        Screen::Three => ("a session", "scale"),
        Screen::Nine => ("a nine-times session", "scale9x"),
    };
    for square in squares(screen) {
        let side = square.side;
        form.note(&format!("{title} of {side} by {side}: microseconds, beside one whole {whole} of the original"));
        for name in PICTURES {
            let bench = Bench::new(form, screen, square, name);
            bench.drawing();
            bench.keeping();
        }
    }
    if screen == Screen::Three {
        paint_lists(form);
    }
}
