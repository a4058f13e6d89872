//! A session of the library and one of the plain machine, given the same calls.

use super::alone::Buffers;
use super::machine::{Answer, Call, Machine};
use super::random::Random;
use crate::panel::{self, Header, Screen, Setting};

pub struct Pair {
    pub screen: Screen,
    /// The header last answered without a refusal.
    pub header: Header,
    /// The library's buffers.
    pub got: Buffers,
    /// The machine's state at the front, the rest as it was lent.
    expected: Buffers,
    pub machine: Machine,
    /// What was done so far.
    list: String,
}

impl Pair {
    /// Opens both on a picture of w by h words at a lawful setting, the library on buffers of any contents and of these
    /// lengths: picture, output, marks. A difference, here as below, is a text that starts with the title and the calls so
    /// far.
    pub fn open(
        screen: Screen,
        title: String,
        [w, h]: [usize; 2],
        setting: Setting,
        first: &[u32],
        lengths: [usize; 3],
        random: &mut Random,
    ) -> Result<Pair, String> {
        let mut got = Buffers::on(first, lengths, random);
        let expected = got.clone();
        let sides = [w as u32, h as u32];
        let opened = got.open(screen, sides, setting);
        let machine = Machine::open(screen, [w, h], setting, first);
        let should = panel::Opened { refusal: 0, header: machine.header(), stale: machine.stale_count() };
        if opened != should {
            return Err(format!("{title}: opening answered {opened:?}, expected {should:?}"));
        }
        let mut pair = Pair { screen, header: opened.header, got, expected, machine, list: title };
        pair.same()?;
        Ok(pair)
    }

    /// The title, and what was done so far.
    pub fn title(&self) -> &str {
        &self.list
    }

    /// Makes a call of both; their answers are alike.
    pub fn call(&mut self, call: &Call) -> Result<Answer, String> {
        self.list += &format!("\n  {call:?}");
        let (said, should) = (self.got.call(self.screen, self.header, call), self.machine.call(call));
        if said.as_ref() != Ok(&should) {
            return Err(format!("{}: answered {said:?}, expected {should:?}", self.list));
        }
        if let Answer::Locked(header) = should {
            self.header = header;
        }
        Ok(should)
    }

    /// Every element of every buffer is as the machine has it, or as it was lent.
    pub fn same(&mut self) -> Result<(), String> {
        self.expected.picture.put(&self.machine.picture);
        self.expected.output.put(&self.machine.output);
        let marks: Vec<u8> = self.machine.stale.iter().map(|&stale| u8::from(stale)).collect();
        self.expected.marks.put(&marks);
        match self.got.difference(&self.expected) {
            Some(text) => Err(format!("{}: afterwards {text}", self.list)),
            None => Ok(()),
        }
    }

    /// Every block that is not stale has the words of the present picture enlarged whole.
    pub fn up_to_date(&mut self) -> Result<(), String> {
        match self.machine.outdated(self.got.output.part()) {
            Some(at) => Err(format!("{}: block {at} is not stale, and not as the whole enlargement has it", self.list)),
            None => Ok(()),
        }
    }
}
