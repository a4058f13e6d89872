//! A picture enlarged three times at a setting of clarity, written from the rules: sections 1 to 6, and the request that
//! brought the settings. It takes no function from the original and none from the library. `compare/run clarity` holds it to
//! the original at the standard and at threshold 0.5, and then the library to it at every setting.
//!
//! The original spells out each of the four corners. Here one expression serves all four, by the places of the six
//! distances at a corner and by the corners' mirror images: whoever writes twice the same way errs twice the same way.

use super::plain_tags::tags_at;

/// A lawful setting of clarity.
#[derive(Clone, Copy, Debug, PartialEq)]
pub enum Clarity {
    Standard,
    Threshold(f32),
    Gated(f32),
}

/// What the stages leave, a record of four a pixel in row order, and the words of the output.
#[derive(Clone)]
pub struct Drawn {
    pub metrics: Vec<[f32; 4]>,
    pub weights: Vec<[f32; 4]>,
    pub junctions: Vec<[u8; 4]>,
    pub tags: Vec<[u8; 4]>,
    pub output: Vec<u32>,
}

/// A signed step from a position, or a position: columns, rows.
pub type Pair = (i32, i32);

/// A record a pixel, in row order.
pub struct Field<'a, T> {
    w: i32,
    h: i32,
    records: &'a [T],
}

impl<T: Copy> Field<'_, T> {
    fn new(w: usize, h: usize, records: &[T]) -> Field<'_, T> {
        Field { w: w as i32, h: h as i32, records: &records[..w * h] }
    }

    /// The record at a step from a position, clamped to the picture.
    #[inline(always)]
    pub fn read(&self, (x, y): Pair, (dx, dy): Pair) -> T {
        let (column, row) = ((x + dx).clamp(0, self.w - 1), (y + dy).clamp(0, self.h - 1));
        self.records[(row * self.w + column) as usize]
    }

    /// What is made at each position, in row order.
    fn each<U>(&self, make: impl Fn(Pair) -> U) -> Vec<U> {
        let mut made = Vec::with_capacity(self.records.len());
        for y in 0..self.h {
            for x in 0..self.w {
                made.push(make((x, y)));
            }
        }
        made
    }
}

/// All five stages.
pub fn draw(clarity: Clarity, picture: &[u32], w: usize, h: usize) -> Drawn {
    let words = Field::new(w, h, picture);
    let metrics = words.each(|at| metric(&words, at));
    let distances = Field::new(w, h, &metrics);
    let weights = distances.each(|at| CORNERS.map(|corner| weight(clarity, &Square::at(&distances, at, corner))));
    let strengths = Field::new(w, h, &weights);
    let junctions = words.each(|at| junction_numbers(&distances, &strengths, at));
    let numbers = Field::new(w, h, &junctions);
    let tags = numbers.each(|at| tags_at(&numbers, at));
    let output = assemble(&words, &tags);
    Drawn { metrics, weights, junctions, tags, output }
}

// ---- metrics

/// Red, green and blue, each from 0 to 1.
fn channels(word: u32) -> [f32; 3] {
    [word >> 16, word >> 8, word].map(|bits| (bits & 0xff) as f32 / 255.0)
}

/// How different two words look; their top bytes do not count.
pub fn distance(p: u32, q: u32) -> f32 {
    let (p, q) = (channels(p), channels(q));
    let mean = 0.5 * (p[0] + q[0]);
    let [red, green, blue] = [p[0] - q[0], p[1] - q[1], p[2] - q[2]];
    let sum = (2.0 + mean) * red * red + 4.0 * green * green + (3.0 - mean) * blue * blue;
    sum.max(0.0).sqrt() / 3.0
}

/// The distances to top-left, top, top-right and right.
fn metric(words: &Field<u32>, at: Pair) -> [f32; 4] {
    let here = words.read(at, (0, 0));
    [(-1, -1), (0, -1), (1, -1), (1, 0)].map(|step| distance(here, words.read(at, step)))
}

// ---- weights

/// Top-left, top-right, bottom-right, bottom-left.
const CORNERS: [usize; 4] = [0, 1, 2, 3];

/// The six distances among the four pixels that meet at a corner of a pixel, as the records have them.
struct Square {
    /// Between the two pixels beside the pixel.
    edge: f32,
    /// Between the pixel and the one that it meets at the corner alone.
    other: f32,
    /// From the pixel to the one beside it in its row, and to the one in its column.
    primary: [f32; 2],
    /// The two that lie opposite to these.
    secondary: [f32; 2],
}

/// Where these six stand, corner by corner, in the order edge, other, primary, secondary: the step to the record, and the
/// distance's place in it.
const SQUARES: [[(Pair, usize); 6]; 4] = [
    [((-1, 0), 2), ((0, 0), 0), ((-1, 0), 3), ((0, 0), 1), ((-1, -1), 3), ((-1, 0), 1)],
    [((1, 0), 0), ((0, 0), 2), ((0, 0), 3), ((0, 0), 1), ((0, -1), 3), ((1, 0), 1)],
    [((0, 1), 2), ((1, 1), 0), ((0, 0), 3), ((0, 1), 1), ((0, 1), 3), ((1, 1), 1)],
    [((0, 1), 0), ((-1, 1), 2), ((-1, 0), 3), ((0, 1), 1), ((-1, 1), 3), ((-1, 1), 1)],
];

impl Square {
    fn at(distances: &Field<[f32; 4]>, at: Pair, corner: usize) -> Square {
        let [edge, other, a, b, c, d] = SQUARES[corner].map(|(step, place)| distances.read(at, step)[place]);
        Square { edge, other, primary: [a, b], secondary: [c, d] }
    }

    /// The lesser of the two distances along the rows, and of the two along the columns.
    fn least(&self) -> [f32; 2] {
        [0, 1].map(|axis| self.primary[axis].min(self.secondary[axis]))
    }

    /// Whether there is more contrast along the row than along the column.
    fn turned(&self) -> bool {
        let [row, column] = self.least();
        row + self.primary[0] > column + self.primary[1]
    }

    /// Whether both diagonals are at least as strong as what they cross.
    fn crossed(&self) -> bool {
        let ([a, b], [c, d]) = (self.primary, self.secondary);
        self.edge >= a.min(b).max(c.min(d)) && self.other >= a.min(d).max(c.min(b))
    }
}

/// A corner's weight: at 0.5, at T, or at T behind the gate.
fn weight(clarity: Clarity, square: &Square) -> f32 {
    let [row, column] = square.primary;
    let open = 2.0 * square.edge < row + column;
    match clarity {
        Clarity::Standard => weight_at(0.5, square),
        Clarity::Threshold(threshold) => weight_at(threshold, square),
        Clarity::Gated(threshold) if open => weight_at(threshold, square),
        Clarity::Gated(_) => 0.0,
    }
}

fn weight_at(threshold: f32, square: &Square) -> f32 {
    let [row, column] = square.primary;
    let proximity = (threshold - square.edge).max(0.0) / threshold;
    let bias = row - column;
    let direction = (1.0 - square.edge + if square.turned() { bias } else { -bias }).clamp(0.0, 1.0);
    proximity * direction * row * column
}

// ---- junctions

/// The steps to the four pixels round a pixel's corner, clockwise from the one at the top left.
const MEETING: [[Pair; 4]; 4] = [
    [(-1, -1), (0, -1), (0, 0), (-1, 0)],
    [(0, -1), (1, -1), (1, 0), (0, 0)],
    [(0, 0), (1, 0), (1, 1), (0, 1)],
    [(-1, 0), (0, 0), (0, 1), (-1, 1)],
];

/// A corner of a pixel where it meets three others.
struct Junction {
    /// The four corners' weights, in the order of `MEETING`, and whether each wins the vote.
    strength: [f32; 4],
    vote: [bool; 4],
    /// The pixel's own place among the four.
    own: usize,
}

impl Junction {
    /// The k-th of the four pixels lends its corner k + 2, which is the one that looks at the junction.
    fn at(strengths: &Field<[f32; 4]>, at: Pair, corner: usize) -> Junction {
        let records = MEETING[corner].map(|step| strengths.read(at, step));
        let lent = |k: usize, further: usize| records[k][(k + 2 + further) % 4];
        let strength = CORNERS.map(|k| lent(k, 0));
        let dominance = CORNERS.map(|k| 2.0 * lent(k, 0) - (lent(k, 3) + lent(k, 1)));
        Junction { strength, vote: CORNERS.map(|k| wins(dominance, k)), own: (corner + 2) % 4 }
    }

    /// The pixel's corner has won, or has strength and nothing stands against it.
    fn active(&self) -> bool {
        let (strength, vote) = (self.strength, self.vote);
        let [own, next, opposite, before] = CORNERS.map(|k| (self.own + k) % 4);
        let stronger = strength[opposite] + strength[own] > strength[next] + strength[before];
        let unopposed = !vote[next] && !vote[before] && strength[own] > 0.0;
        vote[own] || (unopposed && (vote[opposite] || stronger))
    }
}

/// The vote among four corners: one wins that dominates and whose neighbours do not, or that with its opposite outweighs
/// them.
fn wins(dominance: [f32; 4], k: usize) -> bool {
    let [own, next, opposite, before] = CORNERS.map(|i| dominance[(k + i) % 4]);
    own > 0.0 && ((next <= 0.0 && before <= 0.0) || own + opposite > next + before)
}

/// The numbers 0 to 15: 1 active, 2 horizontal, 4 vertical, 8 orientation.
fn junction_numbers(distances: &Field<[f32; 4]>, strengths: &Field<[f32; 4]>, at: Pair) -> [u8; 4] {
    let junctions = CORNERS.map(|corner| Junction::at(strengths, at, corner));
    let active = CORNERS.map(|corner| junctions[corner].active());
    CORNERS.map(|corner| {
        let junction = &junctions[corner];
        // the end of a line: both corners beside it are active, as they were before any was put out
        let ends = active[(corner + 3) % 4] && active[(corner + 1) % 4] && !junction.vote[junction.own];
        let square = Square::at(distances, at, corner);
        let ([row, column], crossed) = (square.least(), square.crossed());
        u8::from(active[corner] && !ends)
            + 2 * u8::from(row < column && crossed)
            + 4 * u8::from(row > column && crossed)
            + 8 * u8::from(square.turned())
    })
}

// ---- assembly

/// The steps by tag number.
pub const STEPS: [Pair; 9] = [(0, 0), (-1, 0), (-2, 0), (1, 0), (2, 0), (0, -1), (0, -2), (0, 1), (0, 2)];

/// The nine words of each pixel's block: corners at the corners, the middles of the edges between them, the pixel within.
fn assemble(words: &Field<u32>, tags: &[[u8; 4]]) -> Vec<u32> {
    let (w, h) = (words.w as usize, words.h as usize);
    let mut output = vec![0; 9 * w * h];
    for (i, tags) in tags.iter().enumerate() {
        let (x, y) = (i % w, i / w);
        let ([a, b, c, d], [up, right, down, left]) = (tags.map(|tag| tag % 9), tags.map(|tag| tag / 9));
        for (k, tag) in [a, up, b, left, 0, right, d, down, c].into_iter().enumerate() {
            let word = words.read((x as i32, y as i32), STEPS[usize::from(tag)]);
            output[(3 * y + k / 3) * 3 * w + 3 * x + k % 3] = word;
        }
    }
    output
}
