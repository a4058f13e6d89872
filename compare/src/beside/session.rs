//! Lists of session calls on either screen, at every setting, beside the plain machine: every answer and every element of
//! every buffer after each call, and after a list that blocks which are not stale show the present picture. Between the
//! calls of a list, calls with any header, any marks and any lengths run on copies of the buffers, beside what the rules
//! say of one call alone. To some lists a second one is made that ends with the same picture. On the nine-times screen,
//! sessions of each screen are lent to calls of the other too.

use super::alone::{call_alone, opening, Buffers};
use super::items::any_items;
use super::largest;
use super::lent::Lent;
use super::machine::{header, lock_of, setting_of, Call, Rectangle, NONE};
use super::pair::Pair;
use super::pictures::KINDS;
use super::random::Random;
use super::session_tally::Tally;
use super::setting::{self, meant};
use super::twin;
use crate::panel::{Header, Screen, Setting};

// ---- random lists

/// Blocks up to which a second list is made: the machine redraws whole at each of its refreshes.
const SECOND: usize = 1600;

/// What a list starts with: the sides, and the kind of picture by its place.
struct Start {
    w: usize,
    h: usize,
    kind: usize,
}

impl Start {
    /// Of the i-th list. Three times: any sides, and the kinds in turn. Nine times: the sides in turn, and the kinds too, so
    /// that each size meets each of them.
    fn of(screen: Screen, i: usize, random: &mut Random) -> Start {
        let ((w, h), kind) = match screen {
            Screen::Three => (any_size(random), i),
            Screen::Nine => (size_in_turn(random, i), i + i / (SMALL * SMALL)),
        };
        Start { w, h, kind: kind % KINDS.len() }
    }
}

/// The sides from 0 on that are tried in all pairs, by their number.
pub const SMALL: usize = 13;

/// The small sizes in turn, and one list in 16 on a larger picture, of which half have a side of 60 and more.
fn size_in_turn(random: &mut Random, i: usize) -> (usize, usize) {
    let (long, short) = (random.between(60, Screen::Nine.longest() as usize), random.between(1, 24));
    match i % 64 {
        15 => (random.between(SMALL, 40), random.between(SMALL, 40)),
        31 => (long, short),
        47 => (short, long),
        63 if random.one_in(8) => (long, random.between(60, 80)),
        63 => (random.between(SMALL, 40), short),
        _ => (i % SMALL, i / SMALL % SMALL),
    }
}

fn any_size(random: &mut Random) -> (usize, usize) {
    match random.below(32) {
        0 => (0, random.between(0, 40)),
        1 => (random.between(0, 40), 0),
        2 => (1, random.between(1, 60)),
        3 => (random.between(1, 60), 1),
        4 | 5 => (random.between(14, 40), random.between(14, 40)),
        _ => (random.between(1, 15), random.between(1, 15)),
    }
}

/// A position on a side: mostly inside, sometimes just outside or far away.
fn any_place(random: &mut Random, screen: Screen, side: usize) -> u32 {
    match random.below(24) {
        0 => side as u32,
        1 => random.pick(&[u32::MAX, u32::MAX - 5, 1 << 16, 1 << 31, screen.limit()]),
        _ => random.below(side.max(1)) as u32,
    }
}

/// A start and a length on a side: inside, from or to a border, one past it, of length 0, or near 2 to the 32nd.
fn any_stretch(random: &mut Random, side: usize) -> (u32, u32) {
    let start = random.below(side + 1) as u32;
    let room = side as u32 - start;
    match random.below(12) {
        0 => (start, 0),
        1 => (0, side as u32),
        2 => (0, random.between(0, side) as u32),
        3 | 4 => (start, room),
        5 => (start, room + 1),
        6 => (u32::MAX - random.below(3) as u32, random.between(0, 4) as u32),
        7 => (start, u32::MAX - random.below(2 * side + 2) as u32),
        8 => (random.word(), random.word()),
        _ => (start, random.between(0, room as usize) as u32),
    }
}

/// A stretch of one or more inside a side.
fn inner_stretch(random: &mut Random, side: usize) -> (u32, u32) {
    let start = random.below(side);
    (start as u32, random.between(1, side - start) as u32)
}

/// Nothing, a rectangle inside the picture, or any stretch of each side.
fn any_rectangle(random: &mut Random, w: usize, h: usize) -> Rectangle {
    let stretch = match random.below(10) {
        0 => return NONE,
        1..=5 if w > 0 && h > 0 => inner_stretch,
        _ => any_stretch,
    };
    let ((left, width), (top, height)) = (stretch(random, w), stretch(random, h));
    [left, top, width, height]
}

/// A position on a side: mostly any, sometimes of the lock's stretch there: its first or its last, inside it, or just
/// outside.
pub fn any_position(random: &mut Random, screen: Screen, side: usize, start: u32, length: u32) -> u32 {
    if length == 0 || random.one_in(2) {
        return any_place(random, screen, side);
    }
    let inside = start.wrapping_add(random.below(length as usize) as u32);
    let beyond = start.wrapping_add(length);
    random.pick(&[start.wrapping_sub(1), start, inside, inside, beyond.wrapping_sub(1), beyond])
}

/// The sides in a header, far ones cut to what a list's picture has at most.
pub fn near(screen: Screen, [w, h, ..]: Header) -> (usize, usize) {
    (w.min(screen.longest()) as usize, h.min(screen.longest()) as usize)
}

fn any_call(random: &mut Random, screen: Screen, header: Header, picture: &[u32]) -> Call {
    let (w, h) = near(screen, header);
    let [left, top, width, height] = lock_of(header);
    let x = any_position(random, screen, w, left, width);
    let y = any_position(random, screen, h, top, height);
    match random.below(10) {
        0..=2 => Call::Paint { column: x, row: y, word: any_word(random, picture, w, x, y) },
        3 => Call::PaintList { items: any_items(random, screen, header, picture) },
        4 | 5 => Call::Refresh { n: any_number(random, w * h) },
        6 => Call::Lock { lock: any_rectangle(random, w, h) },
        _ => Call::Show { bx: x, by: y },
    }
}

/// The word that stands there, that word with another top byte, one of the picture's, or any.
pub fn any_word(random: &mut Random, picture: &[u32], w: usize, x: u32, y: u32) -> u32 {
    let here = (y as usize).checked_mul(w).and_then(|row| picture.get(row + x as usize)).copied();
    match (random.below(6), here) {
        (0, Some(word)) => word,
        (1, Some(word)) => word ^ (1 << random.between(24, 31)),
        (2, Some(word)) => word ^ (1 << random.below(24)),
        (3 | 4, _) if !picture.is_empty() => random.pick(picture),
        _ => random.word(),
    }
}

fn any_number(random: &mut Random, blocks: usize) -> u32 {
    match random.below(10) {
        0 => 0,
        1 => 1,
        2 => u32::MAX,
        3 => blocks as u32,
        _ => random.between(0, blocks + 1) as u32,
    }
}

fn any_length(random: &mut Random, exact: usize) -> usize {
    if random.one_in(3) {
        exact + random.between(1, 40)
    } else {
        exact
    }
}

/// A header that no opening and no lock answered; in some only the setting is another.
fn wild_header(random: &mut Random, screen: Screen, lent: Header, picture: &[u32]) -> Header {
    let ([w, h, ..], lock, setting) = (lent, lock_of(lent), setting_of(lent));
    let setting = if random.one_in(2) { wild_setting(random, setting, picture) } else { setting };
    if random.one_in(3) {
        return header([w, h], lock, setting);
    }
    let (n, past) = (screen.limit(), screen.limit() + 1);
    let far = random.pick(&[n, past, u32::MAX, 1 << 16, 1 << 31]);
    let [w, h] = match random.below(7) {
        0 => [far, h],
        1 => [w, far],
        2 => random.pick(&[[65536, 65536], [u32::MAX, u32::MAX], [0, past], [past, 0], [0, 0], [n, n]]),
        3 => [h, w],
        4 => [random.below(24) as u32, random.below(24) as u32],
        _ => [w, h],
    };
    let (columns, rows) = near(screen, header([w, h], lock, setting));
    let lock = if random.one_in(2) { any_rectangle(random, columns, rows) } else { lock };
    header([w, h], lock, setting)
}

/// Any setting, or the one given with a bit turned.
fn wild_setting(random: &mut Random, setting: Setting, picture: &[u32]) -> Setting {
    match random.below(5) {
        0 => Setting { kind: setting.kind ^ (1 << random.below(32)), ..setting },
        1 => Setting { bits: setting.bits ^ (1 << random.below(32)), ..setting },
        2 => setting::lawful(random, picture),
        _ => setting::refused(random),
    }
}

/// A header, lengths and marks that no call left.
fn wild(random: &mut Random, screen: Screen, header: Header, buffers: &Buffers) -> (Header, Buffers) {
    let header = wild_header(random, screen, header, buffers.picture.part());
    let mut copy = buffers.clone();
    if random.one_in(2) {
        for mark in copy.marks.part_mut() {
            *mark = random.pick(&[0, 0, 1, 2, 128, 255]);
        }
    }
    let cut =
        |random: &mut Random, len: usize| if random.one_in(5) { len - random.between(0, len.min(3)) } else { len };
    let (p, o, m) = (copy.picture.part(), copy.output.part(), copy.marks.part());
    let picture = Lent::with(p, cut(random, p.len()), random);
    let output = Lent::with(o, cut(random, o.len()), random);
    let marks = Lent::with(m, cut(random, m.len()), random);
    (header, Buffers { picture, output, marks })
}

/// A call with a wild header.
fn any_alone(random: &mut Random, pair: &Pair, tally: &mut Tally) -> Result<(), String> {
    let (header, got) = wild(random, pair.screen, pair.header, &pair.got);
    let call = any_call(random, pair.screen, header, got.picture.part());
    let answer = call_alone(pair.screen, header, got, &call)?;
    tally.add_alone(&call, &answer, meant(setting_of(header)).is_some());
    Ok(())
}

/// A session of the other screen on the same picture, with room for its own output or for this screen's.
fn stranger(random: &mut Random, pair: &Pair) -> Result<Pair, String> {
    let ([w, h], screen) = ([pair.header[0] as usize, pair.header[1] as usize], pair.screen.other());
    let room = if random.one_in(2) { screen } else { pair.screen };
    let lengths = [0, 1, 2].map(|i| screen.lengths(w * h)[i].max(room.lengths(w * h)[i]));
    let (setting, title) = (setting_of(pair.header), format!("the other screen's session to {}", pair.title()));
    let mut other = Pair::open(screen, title, [w, h], setting, &pair.machine.picture, lengths, random)?;
    other.call(&Call::Refresh { n: any_number(random, w * h) })?;
    other.same()?;
    Ok(other)
}

/// A header tells no screen: lent to the other screen's calls, it is refused or taken as that of a session there, and
/// nothing outside the buffers is touched.
fn any_across(random: &mut Random, pair: &Pair, tally: &mut Tally) -> Result<(), String> {
    let other = stranger(random, pair)?;
    for (lender, screen) in [(pair, other.screen), (&other, pair.screen)] {
        for _ in 0..2 {
            let call = any_call(random, screen, lender.header, &lender.machine.picture);
            let answer = call_alone(screen, lender.header, lender.got.clone(), &call)?;
            tally.add_across(screen, &answer);
        }
    }
    Ok(())
}

// ---- opening

/// An opening of any sizes on any lengths, at any setting.
fn any_opening(random: &mut Random, screen: Screen) -> Result<(), String> {
    let (n, past) = (screen.limit(), screen.limit() + 1);
    let side = |random: &mut Random| random.pick(&[0, 1, 2, 3, 5, n, past, 65536, u32::MAX]);
    let [w, h] = [side(random), side(random)];
    let wh = (u64::from(w) * u64::from(h)).min(40) as usize;
    let cut = |random: &mut Random, len: usize| if random.one_in(3) { len.saturating_sub(1) } else { len };
    let got = Buffers {
        picture: Lent::new(cut(random, wh), random),
        output: Lent::new(cut(random, screen.block() * wh), random),
        marks: Lent::new(cut(random, wh), random),
    };
    let setting = setting::any(random, got.picture.part());
    opening(screen, [w, h], setting, got)
}

/// An opening on buffers that are long enough, at a setting that is refused.
fn refused_opening(random: &mut Random, screen: Screen, [w, h]: [usize; 2], first: &[u32]) -> Result<(), String> {
    let got = Buffers::on(first, screen.lengths(w * h), random);
    opening(screen, [w as u32, h as u32], setting::refused(random), got)
}

// ---- the run

/// The call of a turn: one turn of every list is a lock, one a list of paints, and the first of some draws everything.
fn turn(random: &mut Random, turn: usize, [lock_at, items_at]: [usize; 2], drawn_first: bool, pair: &Pair) -> Call {
    let ([w, h, ..], screen, picture) = (pair.header, pair.screen, &pair.machine.picture);
    match turn {
        0 if drawn_first => Call::Refresh { n: u32::MAX },
        _ if turn == lock_at => Call::Lock { lock: any_rectangle(random, w as usize, h as usize) },
        _ if turn == items_at => Call::PaintList { items: any_items(random, screen, pair.header, picture) },
        _ => any_call(random, screen, pair.header, picture),
    }
}

/// Opens the session of a list on any picture at any lawful setting, in some lists after an opening that is refused.
fn any_start(random: &mut Random, screen: Screen, i: usize, tally: &mut Tally) -> Result<Pair, String> {
    let Start { w, h, kind } = Start::of(screen, i, random);
    let first = KINDS[kind].picture(random, w, h);
    if random.one_in(4) {
        refused_opening(random, screen, [w, h], &first)?;
        tally.add_refused_opening();
    }
    let lengths = screen.lengths(w * h).map(|exact| any_length(random, exact));
    let setting = setting::lawful(random, &first);
    let title = format!("{w} by {h}, {setting:x?}, lengths {lengths:?}, picture {first:08x?}");
    let pair = Pair::open(screen, title, [w, h], setting, &first, lengths, random)?;
    tally.add_list([w, h], &pair.machine);
    Ok(pair)
}

fn any_list(random: &mut Random, screen: Screen, i: usize, tally: &mut Tally) -> Result<(), String> {
    let mut pair = any_start(random, screen, i, tally)?;
    let turns = random.between(3, 24);
    let (lock_at, drawn_first) = (random.between(1, turns - 1), random.one_in(2));
    let items_at = 1 + (lock_at + random.below(turns - 2)) % (turns - 1);
    for i in 0..turns {
        let call = turn(random, i, [lock_at, items_at], drawn_first, &pair);
        let answer = pair.call(&call)?;
        pair.same()?;
        tally.add(&call, &answer, &pair.machine);
        if random.one_in(4) {
            any_alone(random, &pair, tally)?;
        }
    }
    pair.up_to_date()?;
    if random.one_in(4) && pair.machine.picture.len() <= SECOND {
        tally.add_twin(twin::compare(random, &mut pair)?);
    }
    if screen == Screen::Nine && random.one_in(2) {
        any_across(random, &pair, tally)?;
    }
    Ok(())
}

/// The largest sides; true where nothing differs.
fn run_largest(screen: Screen, seed: u64) -> bool {
    let (ran, name, past) = (largest::run(screen, &mut Random::new(seed)), screen.name(), screen.limit() + 1);
    let sizes = largest::sizes(screen);
    match &ran {
        Ok(calls) => println!("{name}: {sizes} in {calls} calls, sides of {past} refused: 0 differences"),
        Err(text) => println!("{text}\n{name}: a difference at the largest sides, and the run of these stopped there"),
    }
    ran.is_ok()
}

/// Lists on the three-times screen.
pub fn run_three(count: usize, seed: u64) -> bool {
    run(Screen::Three, count, seed)
}

/// Lists on the nine-times screen.
pub fn run_nine(count: usize, seed: u64) -> bool {
    run(Screen::Nine, count, seed)
}

/// The largest sides and a count of lists; true where nothing differs. The reproduction printed is the shortest list of
/// those that differ.
fn run(screen: Screen, count: usize, seed: u64) -> bool {
    let largest = run_largest(screen, seed);
    let mut tally = Tally::default();
    let mut found: Vec<String> = Vec::new();
    for i in 0..count {
        let random = &mut Random::new(seed ^ (i as u64) << 20);
        let ran = any_opening(random, screen).and_then(|()| any_list(random, screen, i, &mut tally));
        found.extend(ran.err().map(|text| format!("list {i}: {text}")));
        if found.len() == 200 {
            break;
        }
    }
    if let Some(text) = found.iter().min_by_key(|text| text.len()) {
        println!("{text}");
    }
    tally.print(screen, found.len());
    largest && found.is_empty()
}
