//! One session call alone: what it answers and leaves by the rules, whatever header, marks and lengths it is lent.

use super::drawing;
use super::lent::{Bits, Lent};
use super::machine::{header, lock_of, past, setting_of, Answer, Call, Rectangle, ITEMS, NONE};
use super::plain::Clarity;
use super::random::Random;
use super::setting::{answered, meant};
use crate::panel::{self, Header, Item, Screen, Setting};

/// The buffers of a session, as they are lent or as they are left.
#[derive(Clone)]
pub struct Buffers {
    pub picture: Lent<u32>,
    pub output: Lent<u32>,
    pub marks: Lent<u8>,
}

impl Buffers {
    /// A picture buffer that starts with these words, and the others of any contents, with these lengths: picture, output,
    /// marks.
    pub fn on(first: &[u32], [picture, output, marks]: [usize; 3], random: &mut Random) -> Buffers {
        Buffers {
            picture: Lent::with(first, picture, random),
            output: Lent::new(output, random),
            marks: Lent::new(marks, random),
        }
    }

    /// What the library answers to an opening.
    pub fn open(&mut self, screen: Screen, sides: [u32; 2], setting: Setting) -> panel::Opened {
        let (picture, output, marks) = (self.picture.part(), self.output.part_mut(), self.marks.part_mut());
        panel::open(screen, sides, setting, picture, output, marks)
    }

    /// A line on the first element that is not as expected.
    pub fn difference(&self, expected: &Buffers) -> Option<String> {
        place("picture", &self.picture, &expected.picture)
            .or_else(|| place("output", &self.output, &expected.output))
            .or_else(|| place("marks", &self.marks, &expected.marks))
    }

    /// What the library answers, as the machine would say it; numbers beside a refusal must be 0.
    pub fn call(&mut self, screen: Screen, header: Header, call: &Call) -> Result<Answer, String> {
        let (picture, output, marks) = (&mut self.picture, &mut self.output, &mut self.marks);
        let (refusal, beside, answer) = match *call {
            Call::Paint { column, row, word } => {
                let item = Item { column, row, word };
                let a = panel::paint(screen, header, picture.part_mut(), marks.part_mut(), item);
                let answer = match a.changed {
                    0 => Answer::Unchanged { stale: a.stale },
                    1 => Answer::Painted { stale: a.stale },
                    other => return Err(format!("changed is {other}")),
                };
                (a.refusal, a.changed | a.stale, answer)
            }
            Call::PaintList { ref items } => {
                let a = panel::paint_list(screen, header, picture.part_mut(), marks.part_mut(), items);
                (a.refusal, a.stale, Answer::PaintedList { stale: a.stale })
            }
            Call::Refresh { n } => {
                let a = panel::refresh(screen, header, picture.part(), output.part_mut(), marks.part_mut(), n);
                (a.refusal, a.drawn | a.left, Answer::Refreshed { drawn: a.drawn, left: a.left })
            }
            Call::Show { bx, by } => {
                let a = panel::show(screen, header, output.part(), marks.part(), bx, by);
                (a.refusal, any_bit(&a.words), Answer::Shown(a.words))
            }
            Call::Lock { lock } => {
                let a = panel::lock(screen, header, lock);
                (a.refusal, any_bit(&a.header), Answer::Locked(a.header))
            }
        };
        match (refusal, beside) {
            (0, _) => Ok(answer),
            (number, 0) => Ok(Answer::Refused(number)),
            (number, _) => Err(format!("numbers that are not 0 beside refusal {number}")),
        }
    }

    fn lengths(&self) -> Lengths {
        let (picture, output, marks) = (self.picture.part().len(), self.output.part().len(), self.marks.part().len());
        Lengths { picture: Some(picture), output: Some(output), marks: Some(marks) }
    }
}

/// 0 where every number is.
fn any_bit(numbers: &[u32]) -> u32 {
    numbers.iter().fold(0, |sum, number| sum | number)
}

fn place<T: Bits>(name: &str, got: &Lent<T>, expected: &Lent<T>) -> Option<String> {
    let (at, a, b) = got.difference(expected)?;
    Some(format!("{name} element {at}: {a:08x}, expected {b:08x}"))
}

/// The lengths of the buffers that a call is lent.
#[derive(Clone, Copy, Debug, Default)]
struct Lengths {
    picture: Option<usize>,
    output: Option<usize>,
    marks: Option<usize>,
}

/// The refusal of a header and of sizes: sides, the header's lock and the one given, then the buffers that the call is
/// lent, then the setting.
fn sizes(screen: Screen, header: Header, given: Rectangle, lengths: Lengths) -> u32 {
    let [w, h, ..] = header;
    let wh = u64::from(w) * u64::from(h);
    let short = |len: Option<usize>, each: usize| len.is_some_and(|len| (len as u64) < each as u64 * wh);
    if w > screen.limit() || h > screen.limit() {
        1
    } else if past(lock_of(header), w, h) || past(given, w, h) {
        10
    } else if short(lengths.picture, 1) {
        2
    } else if short(lengths.output, screen.block()) {
        3
    } else if short(lengths.marks, 1) {
        4
    } else if meant(setting_of(header)).is_none() {
        13
    } else {
        0
    }
}

/// What a call is lent, and the position that it names.
fn asked(buffers: &Buffers, call: &Call) -> (Lengths, Option<(u32, u32)>) {
    let Lengths { picture, output, marks } = buffers.lengths();
    let painted = Lengths { picture, output: None, marks };
    match *call {
        Call::Paint { column, row, .. } => (painted, Some((column, row))),
        Call::PaintList { .. } => (painted, None),
        Call::Refresh { .. } => (buffers.lengths(), None),
        Call::Show { bx, by } => (Lengths { picture: None, output, marks }, Some((bx, by))),
        Call::Lock { .. } => (Lengths::default(), None),
    }
}

/// What one call answers, and what it leaves in the buffers.
fn alone(screen: Screen, header: Header, buffers: &mut Buffers, call: &Call) -> Answer {
    let (lengths, at) = asked(buffers, call);
    let given = if let Call::Lock { lock } = *call { lock } else { NONE };
    let refusal = sizes(screen, header, given, lengths);
    if refusal != 0 {
        return Answer::Refused(refusal);
    }
    if at.is_some_and(|(x, y)| x >= header[0] || y >= header[1]) {
        return Answer::Refused(5);
    }
    let (w, h) = (header[0] as usize, header[1] as usize);
    let clarity = meant(setting_of(header)).expect("a setting that was not refused");
    match *call {
        Call::Paint { column, row, word } => paint(screen, header, buffers, Item { column, row, word }),
        Call::PaintList { ref items } => paint_list(screen, header, buffers, items),
        Call::Refresh { n } => refresh(screen, clarity, [w, h], buffers, n),
        Call::Show { bx, by } => show(screen, w, buffers, (bx as usize, by as usize)),
        Call::Lock { lock } => locked(header, lock),
    }
}

/// Stale blocks: any mark but 0.
fn count(marks: &[u8]) -> u32 {
    marks.iter().filter(|&&mark| mark != 0).count() as u32
}

fn paint(screen: Screen, header: Header, buffers: &mut Buffers, item: Item) -> Answer {
    let ([w, h, left, top, width, height, ..], Item { column: x, row: y, word }) = (header, item);
    let (columns, position) = (w as usize, (x as usize, y as usize));
    let marks = &mut buffers.marks.part_mut()[..columns * h as usize];
    let here = &mut buffers.picture.part_mut()[position.1 * columns + position.0];
    if *here == word {
        return Answer::Unchanged { stale: count(marks) };
    }
    let beyond = |start: u32, length: u32| u64::from(start) + u64::from(length);
    if x >= left && y >= top && u64::from(x) < beyond(left, width) && u64::from(y) < beyond(top, height) {
        return Answer::Refused(11);
    }
    *here = word;
    for (at, mark) in marks.iter_mut().enumerate() {
        if screen.names(position, (at % columns, at / columns)) {
            *mark = 1;
        }
    }
    Answer::Painted { stale: count(marks) }
}

/// On a copy, which takes the buffers' place only where every item was taken.
fn paint_list(screen: Screen, header: Header, buffers: &mut Buffers, items: &[Item]) -> Answer {
    if items.len() > ITEMS {
        return Answer::Refused(12);
    }
    let mut copy = buffers.clone();
    for &item in items {
        if item.column >= header[0] || item.row >= header[1] {
            return Answer::Refused(5);
        }
        if let Answer::Refused(number) = paint(screen, header, &mut copy, item) {
            return Answer::Refused(number);
        }
    }
    *buffers = copy;
    Answer::PaintedList { stale: count(&buffers.marks.part()[..header[0] as usize * header[1] as usize]) }
}

fn locked(lent: Header, lock: Rectangle) -> Answer {
    Answer::Locked(header([lent[0], lent[1]], lock, answered(setting_of(lent))))
}

fn refresh(screen: Screen, clarity: Clarity, [w, h]: [usize; 2], buffers: &mut Buffers, n: u32) -> Answer {
    let whole = drawing::words(screen, clarity, &buffers.picture.part()[..w * h], w, h);
    let (output, marks, side) = (buffers.output.part_mut(), &mut buffers.marks.part_mut()[..w * h], screen.side());
    let mut drawn = 0;
    for (at, mark) in marks.iter_mut().enumerate().filter(|(_, mark)| **mark != 0).take(n as usize) {
        *mark = 0;
        drawn += 1;
        for row in 0..side {
            let from = (side * (at / w) + row) * (side * w) + side * (at % w);
            output[from..from + side].copy_from_slice(&whole[from..from + side]);
        }
    }
    Answer::Refreshed { drawn, left: count(marks) }
}

fn show(screen: Screen, w: usize, buffers: &Buffers, (bx, by): (usize, usize)) -> Answer {
    if buffers.marks.part()[by * w + bx] != 0 {
        return Answer::Refused(7);
    }
    Answer::Shown(screen.places(w, (bx, by)).map(|i| buffers.output.part()[i]).collect())
}

/// One call of a screen on these buffers, beside the rules; what both answer.
pub fn call_alone(screen: Screen, header: Header, mut got: Buffers, call: &Call) -> Result<Answer, String> {
    let mut expected = got.clone();
    let said = got.call(screen, header, call);
    let should = alone(screen, header, &mut expected, call);
    let text = if said.as_ref() == Ok(&should) {
        got.difference(&expected)
    } else {
        Some(format!("answered {said:?}, expected {should:?}"))
    };
    text.map_or(Ok(should), |text| Err(format!("alone, {screen:?} times, header {header:?}, {call:?}: {text}")))
}

/// One opening of a screen on these buffers, beside the rules.
pub fn opening(screen: Screen, sides: [u32; 2], setting: Setting, mut got: Buffers) -> Result<(), String> {
    let mut expected = got.clone();
    let opened = got.open(screen, sides, setting);
    let refusal = sizes(screen, header(sides, NONE, setting), NONE, got.lengths());
    let mut should = panel::Opened { refusal, header: [0; 8], stale: 0 };
    if refusal == 0 {
        let wh = sides[0] as usize * sides[1] as usize;
        should = panel::Opened { refusal, header: header(sides, NONE, answered(setting)), stale: wh as u32 };
        expected.output.put(&vec![0; screen.block() * wh]);
        expected.marks.put(&vec![1; wh]);
    }
    let text =
        if opened == should { got.difference(&expected) } else { Some(format!("{opened:?}, expected {should:?}")) };
    let lengths = got.lengths();
    text.map_or(Ok(()), |text| {
        Err(format!("opening {screen:?} times, {sides:?} at {setting:?} with {lengths:?}: {text}"))
    })
}
