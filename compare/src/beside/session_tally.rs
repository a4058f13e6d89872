//! What a run of session lists counts, and the lines that say it.

use super::machine::{Answer, Call, Machine};
use super::session::SMALL;
use super::setting::sort;
use crate::panel::Screen;
use std::collections::BTreeSet;

#[derive(Default)]
pub struct Tally {
    lists: usize,
    calls: usize,
    refused: usize,
    locks: usize,
    past: usize,
    locked: usize,
    alone: usize,
    paint_lists: PaintLists,
    settings: Settings,
    sizes: Sizes,
    across: [Across; 2],
}

/// The lists of paints: how many, with how many items, and how they ended.
#[derive(Default)]
struct PaintLists {
    calls: usize,
    items: usize,
    taken: usize,
    long: usize,
    /// Refused for the first item, for one between, for the last.
    refused: [usize; 3],
}

impl PaintLists {
    fn add(&mut self, items: usize, answer: &Answer, refused_at: Option<usize>) {
        self.calls += 1;
        self.items += items;
        match answer {
            Answer::Refused(12) => self.long += 1,
            Answer::Refused(_) => {
                let at = refused_at.expect("the item that was refused");
                self.refused[if at == 0 { 0 } else { 1 + usize::from(at + 1 == items) }] += 1;
            }
            _ => self.taken += 1,
        }
    }
}

/// The settings: the lists at each, what was refused for them, and the second lists.
#[derive(Default)]
struct Settings {
    /// Lists at the standard, at threshold 0.5, at another threshold, at a gated one.
    lists: [usize; 4],
    /// Openings on good buffers that were refused.
    openings: usize,
    /// Calls alone that were refused for their header's setting: paints, lists of paints, refreshes, shows, locks.
    headers: [usize; 5],
    /// Calls alone with such a header that were refused by a number before it.
    before: usize,
    /// Pairs of lists with one last picture and setting; those of them at the standard beside threshold 0.5.
    twins: usize,
    halves: usize,
}

/// The sizes of the lists' pictures: those with two small sides, each once, and the lists with a larger side, and with one
/// of 60 and more.
#[derive(Default)]
struct Sizes {
    small: BTreeSet<(usize, usize)>,
    larger: usize,
    long: usize,
}

impl Sizes {
    fn add(&mut self, w: usize, h: usize) {
        if w.max(h) < SMALL {
            self.small.insert((w, h));
        } else {
            self.larger += 1;
            self.long += usize::from(w.max(h) >= 60);
        }
    }
}

/// Calls of one screen that were lent a session of the other.
#[derive(Default)]
struct Across {
    calls: usize,
    taken: usize,
}

impl Tally {
    pub fn add(&mut self, call: &Call, answer: &Answer, machine: &Machine) {
        if let Call::PaintList { items } = call {
            self.paint_lists.add(items.len(), answer, machine.refused_at);
        }
        self.calls += 1;
        self.refused += usize::from(matches!(answer, Answer::Refused(_)));
        self.locks += usize::from(matches!(call, Call::Lock { .. }));
        self.past += usize::from(*answer == Answer::Refused(10));
        self.locked += usize::from(*answer == Answer::Refused(11));
    }

    pub fn add_list(&mut self, [w, h]: [usize; 2], machine: &Machine) {
        self.lists += 1;
        self.sizes.add(w, h);
        self.settings.lists[sort(machine.clarity)] += 1;
    }

    /// A call alone, and whether its header's setting is lawful.
    pub fn add_alone(&mut self, call: &Call, answer: &Answer, lawful: bool) {
        self.alone += 1;
        let place = match call {
            Call::Paint { .. } => 0,
            Call::PaintList { .. } => 1,
            Call::Refresh { .. } => 2,
            Call::Show { .. } => 3,
            Call::Lock { .. } => 4,
        };
        let refused = *answer == Answer::Refused(13);
        self.settings.headers[place] += usize::from(refused);
        self.settings.before += usize::from(!lawful && !refused);
    }

    pub fn add_refused_opening(&mut self) {
        self.settings.openings += 1;
    }

    pub fn add_twin(&mut self, standard_beside_half: bool) {
        self.settings.twins += 1;
        self.settings.halves += usize::from(standard_beside_half);
    }

    /// A call of a screen that was lent a session of the other one.
    pub fn add_across(&mut self, screen: Screen, answer: &Answer) {
        let across = &mut self.across[usize::from(screen == Screen::Nine)];
        across.calls += 1;
        across.taken += usize::from(!matches!(answer, Answer::Refused(_)));
    }

    pub fn print(&self, screen: Screen, differences: usize) {
        let name = screen.name();
        let Tally { lists, calls, refused, locks, past, locked, alone, .. } = self;
        println!(
            "{name}: {lists} lists of {calls} calls ({refused} of them refused), a lock in every list ({locks} locks, {past} \
             refused; {locked} paints refused in a lock), and {alone} calls alone with any header and marks: {differences} \
             differences"
        );
        let PaintLists { calls, items, taken, long, refused: [first, between, last] } = &self.paint_lists;
        println!(
            "{name}: a list of paints in every list of calls, {calls} of {items} items: {taken} taken, {long} refused for \
             more than 64, {first} for their first item, {between} for one between, {last} for the last"
        );
        self.settings.print(name);
        if screen == Screen::Nine {
            self.print_sizes(name);
        }
    }

    /// Sizes, and sessions lent to the other screen's calls, which the three-times lists do not count.
    fn print_sizes(&self, name: &str) {
        let Sizes { small, larger, long } = &self.sizes;
        let (small, most) = (small.len(), SMALL - 1);
        println!(
            "{name}: {small} sizes with sides of 0 to {most}; {larger} lists on larger pictures, {long} of them with a side of \
             60 and more"
        );
        let [three, nine] = &self.across;
        println!(
            "{name}: lent a session of the other screen: {} three-times calls, {} of them taken, and {} nine-times calls, {} \
             taken",
            three.calls, three.taken, nine.calls, nine.taken
        );
    }
}

impl Settings {
    fn print(&self, name: &str) {
        let Settings { lists: [standard, half, threshold, gated], openings, before, twins, halves, .. } = self;
        println!(
            "{name}: {standard} lists at the standard, {half} at threshold 0.5, {threshold} at others, {gated} gated; {twins} \
             second lists with the same last picture and setting, {halves} of them at the standard beside threshold 0.5"
        );
        let [paint, list, refresh, show, lock] = self.headers;
        println!(
            "{name}: refused for their setting: {openings} openings, and of the calls alone {paint} paints, {list} lists of \
             paints, {refresh} refreshes, {show} shows, {lock} locks; {before} more by a number before it"
        );
    }
}
