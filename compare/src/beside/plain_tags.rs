//! The tag numbers of section 5, for the plain enlargement: how far an edge runs from a corner, along the row and along the
//! column, and which neighbour's word each corner and each middle of an edge takes for it.

use super::plain::{Field, Pair, STEPS};

/// The bits of a junction number.
const ACTIVE: u8 = 1;
const HORIZONTAL: u8 = 2;
const VERTICAL: u8 = 4;
const ORIENTATION: u8 = 8;

#[derive(Clone, Copy, PartialEq, Eq)]
enum Axis {
    Row,
    Column,
}

/// The junction numbers round a pixel, seen from one of its corners along an axis. Steps count from the pixel to the
/// corner's side, so that below 0 they lead to the other side.
#[derive(Clone, Copy)]
struct Run<'a> {
    numbers: &'a Field<'a, [u8; 4]>,
    at: Pair,
    corner: usize,
    axis: Axis,
}

impl Run<'_> {
    /// The same from another corner.
    fn from(self, corner: usize) -> Self {
        Run { corner, ..self }
    }

    /// The pixel's corner at the other end of the axis.
    fn along(self) -> usize {
        match self.axis {
            Axis::Row => self.corner ^ 1,
            Axis::Column => 3 - self.corner,
        }
    }

    fn opposite(self) -> usize {
        (self.corner + 2) % 4
    }

    /// The corner beside it that is not along.
    fn across(self) -> usize {
        (self.along() + 2) % 4
    }

    fn step(self, steps: i32) -> Pair {
        let left = self.corner == 0 || self.corner == 3;
        match self.axis {
            Axis::Row => (if left { -steps } else { steps }, 0),
            Axis::Column => (0, if self.corner < 2 { -steps } else { steps }),
        }
    }

    fn bit(self, bit: u8, steps: i32, corner: usize) -> bool {
        self.numbers.read(self.at, self.step(steps))[corner] & bit != 0
    }

    fn active(self, steps: i32, corner: usize) -> bool {
        self.bit(ACTIVE, steps, corner)
    }

    /// Whether the edge at a corner lies along the axis.
    fn edge(self, steps: i32, corner: usize) -> bool {
        self.bit(if self.axis == Axis::Row { HORIZONTAL } else { VERTICAL }, steps, corner)
    }

    fn edges(self, steps: i32, corners: [usize; 2]) -> bool {
        corners.into_iter().all(|corner| self.edge(steps, corner))
    }

    /// Whether the orientation at a corner crosses the axis.
    fn crosses(self, steps: i32, corner: usize) -> bool {
        self.bit(ORIENTATION, steps, corner) == (self.axis == Axis::Row)
    }

    /// The tag of the pixel so many steps away.
    fn tag(self, steps: i32) -> u8 {
        let step = self.step(steps);
        STEPS.iter().position(|known| *known == step).expect("a step of one or two") as u8
    }

    // ---- how far the edge runs: levels 2 to 6

    fn two(self) -> bool {
        self.active(0, self.corner) && self.edge(0, self.along()) && self.active(1, self.opposite())
    }

    fn three(self) -> bool {
        self.from(self.along()).two() && self.edges(1, [self.along(), self.corner]) && self.edge(-1, self.opposite())
    }

    fn four(self) -> bool {
        let pair = [self.corner, self.along()];
        self.active(1, self.corner)
            && self.edge(1, self.along())
            && self.edges(0, pair)
            && self.edges(-1, pair)
            && self.active(2, self.opposite())
            && self.edge(2, self.across())
    }

    fn five(self) -> bool {
        self.four() && self.edges(-2, [self.corner, self.along()]) && self.edges(3, [self.opposite(), self.across()])
    }

    fn six(self) -> bool {
        self.from(self.along()).five() && self.edges(3, [self.along(), self.corner])
    }

    /// Level 1, and an edge that runs on, with an orientation that crosses the axis: the word comes from across.
    fn leads_across(self, one: bool) -> bool {
        let (corner, along) = (self.corner, self.along());
        one || (self.three() && self.crosses(0, along))
            || (self.four() && self.crosses(1, corner))
            || (self.six() && self.crosses(-1, along))
    }
}

fn corner_tag(row: Run, column: Run) -> u8 {
    let one = row.active(0, row.corner);
    if row.leads_across(one && row.crosses(0, row.corner)) {
        return column.tag(1);
    }
    if column.leads_across(one) {
        return row.tag(1);
    }
    if row.three() {
        row.tag(-1)
    } else if column.three() {
        column.tag(-1)
    } else if row.four() {
        row.tag(2)
    } else if column.four() {
        column.tag(2)
    } else if row.six() {
        row.tag(-2)
    } else if column.six() {
        column.tag(-2)
    } else {
        0
    }
}

/// The corners at the ends of an edge, from the left or from the top; edges are top, right, bottom, left.
const ENDS: [[usize; 2]; 4] = [[0, 1], [1, 2], [3, 2], [0, 3]];

/// The middle of an edge, seen along it; outward is the tag of the pixel beyond the edge.
fn middle_tag(run: Run, edge: usize, outward: u8) -> u8 {
    let [p, q] = ENDS[edge].map(|corner| run.from(corner));
    let runs = [(p.two(), p, 0, 1), (q.two(), q, 0, 1), (p.five(), p, 1, 2), (q.five(), q, 1, 2)];
    if runs.iter().any(|&(holds, from, steps, _)| holds && from.crosses(steps, from.corner)) {
        return outward;
    }
    if let Some((_, from, _, away)) = runs.into_iter().find(|run| run.0) {
        return from.tag(away);
    }
    let meets = |from: Run| from.active(0, from.corner) && from.active(1, from.opposite());
    if !meets(p) || !meets(q) {
        return 0;
    }
    let clockwise = [edge, (edge + 1) % 4].map(|corner| run.from(corner));
    clockwise.into_iter().find(|from| !from.crosses(0, from.corner)).map_or(outward, |from| from.tag(1))
}

/// The numbers 0 to 80 of a pixel: its corner's tag and nine times its edge's.
pub fn tags_at(numbers: &Field<[u8; 4]>, at: Pair) -> [u8; 4] {
    [0, 1, 2, 3].map(|i| {
        let row = Run { numbers, at, corner: i, axis: Axis::Row };
        let column = Run { axis: Axis::Column, ..row };
        // top and bottom lie along the row, right and left along the column
        let (within, beyond) = if i % 2 == 0 { (row, column) } else { (column, row) };
        corner_tag(row, column) + 9 * middle_tag(within, i, beyond.tag(1))
    })
}
