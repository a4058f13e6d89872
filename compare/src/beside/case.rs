//! Calls that enlarge a whole picture: sizes, pictures, settings and lengths of buffers, at every edge and at random.

use super::pictures::KINDS;
use super::random::Random;
use super::setting::meant;
use crate::panel::{Screen, Setting, STANDARD};
use std::fmt;

impl Screen {
    pub fn passes(self) -> usize {
        match self {
            Screen::Three => 1,
            Screen::Nine => 2,
        }
    }

    /// The elements that a call on a whole picture needs, by buffer.
    fn needed(self, w: u32, h: u32) -> [u128; 5] {
        let wh = u128::from(w) * u128::from(h);
        match self {
            Screen::Three => [wh, 9 * wh, 0, 8 * wh, 8 * wh],
            Screen::Nine => [wh, 81 * wh, 9 * wh, 72 * wh, 72 * wh],
        }
    }
}

/// A buffer's length, against the length that the call needs.
#[derive(Clone, Copy, Debug, PartialEq, Eq)]
pub enum Room {
    Exact,
    OneShort,
    Longer,
    Empty,
}

impl Room {
    /// The length lent where n elements are needed; a longer buffer by the number handed in.
    pub fn length(self, n: usize, by: usize) -> usize {
        match self {
            Room::Exact => n,
            Room::OneShort => n.saturating_sub(1),
            Room::Longer => n + 1 + by % 29,
            Room::Empty => 0,
        }
    }
}

/// The buffers of a call, in the order in which they are checked; three-times is lent no middle.
const BUFFERS: [&str; 5] = ["picture", "output", "middle", "singles", "bytes"];
const ALL_EXACT: [Room; 5] = [Room::Exact; 5];

/// What a call is to be, without its picture.
#[derive(Clone, Copy)]
pub struct Plan {
    times: Screen,
    w: u32,
    h: u32,
    kind: usize,
    rooms: [Room; 5],
}

impl Plan {
    /// The call at the standard.
    pub fn case(self, random: &mut Random) -> Case {
        self.case_at(random, |_, _| STANDARD)
    }

    /// The call at a setting that is chosen for its picture.
    pub fn case_at(self, random: &mut Random, setting: impl FnOnce(&mut Random, &[u32]) -> Setting) -> Case {
        let Plan { times, w, h, kind, rooms } = self;
        let lawful = w.max(h) <= times.limit();
        let (columns, rows) = if lawful { (w as usize, h as usize) } else { (4, 4) };
        let picture = KINDS[kind].picture(random, columns, rows);
        let setting = setting(random, &picture);
        Case { times, w, h, setting, picture, kind: KINDS[kind].name, rooms, seed: random.next() }
    }
}

/// Every small size with every kind, and the limits with every room.
pub fn edges() -> Vec<Plan> {
    let mut plans = Vec::new();
    for times in [Screen::Three, Screen::Nine] {
        let small = [0, 1, 2, 3, 12, 13];
        for (w, h) in small.into_iter().flat_map(|w| small.map(|h| (w, h))) {
            plans.extend((0..KINDS.len()).map(|kind| Plan { times, w, h, kind, rooms: ALL_EXACT }));
        }
        let n = times.limit();
        let refused = [(n + 1, 1), (1, n + 1), (n + 1, 0), (0, n + 1), (n + 1, n + 1), (1 << 16, 1 << 16), (!0, !0)];
        let lawful = [(n, 0), (0, n), (n, 1), (1, n), (n, 2), (3, n), (13, n), (n, 12), (2, 2), (5, 3)];
        for (w, h) in refused.into_iter().chain(lawful) {
            let rooms = all_rooms().into_iter().enumerate();
            plans.extend(rooms.map(|(i, rooms)| Plan { times, w, h, kind: i % KINDS.len(), rooms }));
        }
    }
    plans
}

/// Noise of the largest size, three and nine times.
pub fn largest() -> [Plan; 2] {
    [Screen::Three, Screen::Nine].map(|times| {
        let n = times.limit();
        Plan { times, w: n, h: n, kind: 0, rooms: ALL_EXACT }
    })
}

/// One room for each buffer alone, and each pair of short ones.
fn all_rooms() -> Vec<[Room; 5]> {
    let mut rooms = vec![ALL_EXACT, [Room::Longer; 5], [Room::OneShort; 5], [Room::Empty; 5]];
    for i in 0..5 {
        for j in 0..=i {
            let mut short = ALL_EXACT;
            short[i] = Room::OneShort;
            short[j] = Room::OneShort;
            rooms.push(short);
        }
        let mut longer = ALL_EXACT;
        longer[i] = Room::Longer;
        rooms.push(longer);
    }
    rooms
}

/// A call on a picture of a kind, most of them small and on exact buffers.
pub fn any(random: &mut Random, kind: usize) -> Plan {
    let times = if random.one_in(4) { Screen::Nine } else { Screen::Three };
    let (small, large) = if times == Screen::Three { (16, 40) } else { (8, 16) };
    let (w, h) = match random.below(40) {
        0 => (random.between(1, 3), random.between(1, 160)),
        1 => (random.between(1, 160), random.between(1, 3)),
        2..=7 => (random.between(1, large), random.between(1, large)),
        _ => (random.between(0, small), random.between(0, small)),
    };
    let mut rooms = ALL_EXACT;
    match random.below(8) {
        0 => rooms = [Room::Longer; 5],
        1 => rooms[random.below(5)] = Room::OneShort,
        2 => rooms.fill_with(|| random.pick(&[Room::Exact, Room::Exact, Room::Longer, Room::OneShort, Room::Empty])),
        _ => {}
    }
    Plan { times, w: w as u32, h: h as u32, kind, rooms }
}

/// One call: the picture holds wh words, or a few where the sides are past the limit.
#[derive(Clone)]
pub struct Case {
    pub times: Screen,
    pub w: u32,
    pub h: u32,
    pub setting: Setting,
    pub picture: Vec<u32>,
    kind: &'static str,
    rooms: [Room; 5],
    pub seed: u64,
}

impl Case {
    /// A call at the standard on exact buffers.
    pub fn exact(times: Screen, w: usize, h: usize, picture: &[u32]) -> Case {
        let (w, h, picture) = (w as u32, h as u32, picture.to_vec());
        Case { times, w, h, setting: STANDARD, picture, kind: "given", rooms: ALL_EXACT, seed: 1 }
    }

    /// The same call on another picture of the same sides.
    pub fn on(&self, picture: Vec<u32>) -> Case {
        Case { picture, ..self.clone() }
    }

    /// Whether both sides are within the limit.
    pub fn lawful(&self) -> bool {
        self.w.max(self.h) <= self.times.limit()
    }

    /// The lengths lent. Past the limit of the sides they are small: the call may not look at them.
    pub fn lengths(&self) -> [usize; 5] {
        let needed = self.times.needed(self.w, self.h);
        std::array::from_fn(|i| {
            let n = if self.lawful() { needed[i] as usize } else { 24 };
            self.rooms[i].length(n, self.seed as usize + i)
        })
    }

    /// The refusal that is due: sides, then picture, output, the rest together, and last the setting.
    pub fn refusal(&self) -> u32 {
        if !self.lawful() {
            return 1;
        }
        let (needed, lengths) = (self.times.needed(self.w, self.h), self.lengths());
        let short = |i: usize| (lengths[i] as u128) < needed[i];
        match (short(0), short(1), short(2) || short(3) || short(4)) {
            (true, _, _) => 2,
            (_, true, _) => 3,
            (_, _, true) => 4,
            _ if meant(self.setting).is_none() => 13,
            _ => 0,
        }
    }

    fn without(&self, columns: (u32, u32), rows: (u32, u32)) -> Case {
        let outside = |run: (u32, u32), at: u32| at < run.0 || run.0 + run.1 <= at;
        let places =
            (0..self.picture.len() as u32).filter(|i| outside(columns, i % self.w) && outside(rows, i / self.w));
        let picture = places.map(|i| self.picture[i as usize]).collect();
        Case { w: self.w - columns.1, h: self.h - rows.1, picture, ..self.clone() }
    }

    fn with(&self, at: usize, word: u32) -> Case {
        let mut case = self.clone();
        case.picture[at] = word;
        case
    }
}

/// What a smaller reproduction is sought of.
pub trait Simpler: Sized {
    /// Cases that are a little simpler, those that leave out most first.
    fn simpler(&self) -> Box<dyn Iterator<Item = Self> + '_>;
}

impl Simpler for Case {
    /// Runs of columns or rows taken out, the longest first, and words made black or white.
    fn simpler(&self) -> Box<dyn Iterator<Item = Case> + '_> {
        let lawful = self.lawful();
        let columns = runs(if lawful { self.w } else { 0 }).map(|run| self.without(run, (0, 0)));
        let rows = runs(if lawful { self.h } else { 0 }).map(|run| self.without((0, 0), run));
        let words = (0..self.picture.len()).flat_map(move |i| {
            let plainer = [0, 0x00ff_ffff].into_iter().take_while(move |&word| word != self.picture[i]);
            plainer.map(move |word| self.with(i, word))
        });
        Box::new(columns.chain(rows).chain(words))
    }
}

/// The runs of half the places on an axis, of a quarter of them, and so on to single places: (first, length).
pub fn runs(places: u32) -> impl Iterator<Item = (u32, u32)> {
    let lengths = std::iter::successors(Some(places / 2), |n| Some(n / 2)).take_while(|&n| n > 0);
    let lengths = lengths.chain((places == 1).then_some(1));
    lengths.flat_map(move |n| (0..places).step_by(n as usize).map(move |first| (first, n.min(places - first))))
}

impl fmt::Display for Case {
    fn fmt(&self, f: &mut fmt::Formatter) -> fmt::Result {
        write!(
            f,
            "{:?} times, {} by {} ({}), setting {} {:08x}, seed {:016x}, buffers",
            self.times, self.w, self.h, self.kind, self.setting.kind, self.setting.bits, self.seed
        )?;
        for (name, room) in BUFFERS.iter().zip(self.rooms) {
            write!(f, " {name} {room:?}")?;
        }
        let rows = if self.lawful() { self.picture.as_slice() } else { &[] };
        for row in rows.chunks(self.w.max(1) as usize) {
            let row: Vec<String> = row.iter().map(|word| format!("{word:08x}")).collect();
            write!(f, "\n  {}", row.join(" "))?;
        }
        Ok(())
    }
}
