//! What the rules have different for the two screens of a session, and how long its lists' sides are.

use crate::panel::Screen;

/// How far from its pixel a changing paint makes blocks stale: columns on either side, rows above, rows below.
#[derive(Clone, Copy)]
pub struct Reach {
    pub beside: usize,
    pub above: usize,
    pub below: usize,
}

impl Reach {
    fn holds(self, (column, row): (usize, usize), (bx, by): (usize, usize)) -> bool {
        bx.abs_diff(column) <= self.beside && by + self.above >= row && by <= row + self.below
    }
}

/// The two boxes of the three-times cross, and the one box of nine times.
const CROSS: [Reach; 2] = [Reach { beside: 6, above: 2, below: 3 }, Reach { beside: 3, above: 5, below: 6 }];
const BOX: [Reach; 1] = [Reach { beside: 8, above: 7, below: 8 }];

impl Screen {
    /// The subcommand that compares its sessions.
    pub fn name(self) -> &'static str {
        match self {
            Screen::Three => "session",
            Screen::Nine => "session9",
        }
    }

    pub fn other(self) -> Screen {
        match self {
            Screen::Three => Screen::Nine,
            Screen::Nine => Screen::Three,
        }
    }

    /// The largest side of a picture.
    pub fn limit(self) -> u32 {
        match self {
            Screen::Three => 2048,
            Screen::Nine => 682,
        }
    }

    /// The largest side of a picture in a random list.
    pub fn longest(self) -> u32 {
        match self {
            Screen::Three => 60,
            Screen::Nine => 100,
        }
    }

    fn boxes(self) -> &'static [Reach] {
        match self {
            Screen::Three => &CROSS,
            Screen::Nine => &BOX,
        }
    }

    /// Whether a changing paint at a pixel makes a block stale.
    pub fn names(self, pixel: (usize, usize), block: (usize, usize)) -> bool {
        self.boxes().iter().any(|reach| reach.holds(pixel, block))
    }

    /// The farthest that a changing paint reaches in each direction.
    pub fn reach(self) -> Reach {
        let most = |part: fn(&Reach) -> usize| self.boxes().iter().map(part).max().expect("a box");
        Reach { beside: most(|r| r.beside), above: most(|r| r.above), below: most(|r| r.below) }
    }

    /// The length of each buffer of a session on a number of blocks: picture, output, marks.
    pub fn lengths(self, blocks: usize) -> [usize; 3] {
        [blocks, self.block() * blocks, blocks]
    }

    /// The places in the output of a block's words, row by row, in a picture of w columns.
    pub fn places(self, w: usize, (bx, by): (usize, usize)) -> impl Iterator<Item = usize> {
        let side = self.side();
        (0..self.block()).map(move |k| (side * by + k / side) * (side * w) + side * bx + k % side)
    }
}
