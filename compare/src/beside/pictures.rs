//! Pictures of every kind, made from a seed.

use super::font;
use super::random::Random;

/// A kind of picture; each has its maker in `KINDS`.
pub struct Kind {
    pub name: &'static str,
    make: fn(&mut Random, usize, usize) -> Vec<u32>,
}

impl Kind {
    pub fn picture(&self, random: &mut Random, w: usize, h: usize) -> Vec<u32> {
        (self.make)(random, w, h)
    }
}

pub const KINDS: [Kind; 13] = [
    Kind { name: "noise", make: noise },
    Kind { name: "two colours", make: |r, w, h| few(r, w, h, 2) },
    Kind { name: "few colours", make: |r, w, h| few(r, w, h, 5) },
    Kind { name: "near colours", make: near },
    Kind { name: "line", make: line },
    Kind { name: "rectangles", make: rectangles },
    Kind { name: "discs", make: discs },
    Kind { name: "text", make: text },
    Kind { name: "gradient", make: gradient },
    Kind { name: "checkers", make: checkers },
    Kind { name: "top bytes", make: top_bytes },
    Kind { name: "one colour", make: one_colour },
    Kind { name: "one pixel", make: one_pixel },
];

fn each(w: usize, h: usize, mut word: impl FnMut(usize, usize) -> u32) -> Vec<u32> {
    (0..w * h).map(|i| word(i % w, i / w)).collect()
}

fn noise(random: &mut Random, w: usize, h: usize) -> Vec<u32> {
    each(w, h, |_, _| random.word())
}

/// Words of a small palette, some of them black or white.
fn palette(random: &mut Random, n: usize) -> Vec<u32> {
    (0..n)
        .map(|_| match random.below(4) {
            0 => 0,
            1 => 0x00ff_ffff,
            _ => random.word() & 0x00ff_ffff,
        })
        .collect()
}

fn few(random: &mut Random, w: usize, h: usize, n: usize) -> Vec<u32> {
    let colours = palette(random, n);
    each(w, h, |_, _| random.pick(&colours))
}

/// Colours that differ by one or two in a channel: distances near 0, ties and near ties.
fn near(random: &mut Random, w: usize, h: usize) -> Vec<u32> {
    let base = random.word() & 0x00fc_fcfc;
    let mask = random.pick(&[0x0000_0001, 0x0001_0101, 0x0003_0303, 0x0001_0000]);
    each(w, h, |_, _| base | (random.word() & mask))
}

/// A straight edge or stroke; over many pictures every slope occurs.
fn line(random: &mut Random, w: usize, h: usize) -> Vec<u32> {
    let (dx, dy) = (random.between(0, 16) as i64 - 8, random.between(0, 16) as i64 - 8);
    let (x0, y0) = (random.below(w.max(1)) as i64, random.below(h.max(1)) as i64);
    let width = random.pick(&[1, 2, 3, 1 << 32]) * dx.abs().max(dy.abs()).max(1) / 2;
    let colours = palette(random, 2);
    each(w, h, |x, y| {
        let side = (x as i64 - x0) * dy - (y as i64 - y0) * dx;
        colours[usize::from((0..=width).contains(&side))]
    })
}

fn rectangles(random: &mut Random, w: usize, h: usize) -> Vec<u32> {
    let mut picture = vec![palette(random, 1)[0]; w * h];
    for colour in palette(random, 4) {
        let (x0, y0) = (random.between(0, w), random.between(0, h));
        let (x1, y1) = (random.between(x0, w), random.between(y0, h));
        for y in y0..y1 {
            picture[y * w + x0..y * w + x1].fill(colour);
        }
    }
    picture
}

fn discs(random: &mut Random, w: usize, h: usize) -> Vec<u32> {
    let colours = palette(random, 3);
    let reach = w.max(h) + 1;
    let (x0, y0, r) = (random.below(reach) as i64, random.below(reach) as i64, random.between(1, reach) as i64);
    each(w, h, |x, y| {
        let d = (x as i64 - x0).pow(2) + (y as i64 - y0).pow(2);
        colours[usize::from(d <= r * r) + usize::from(4 * d <= r * r)]
    })
}

fn text(random: &mut Random, w: usize, h: usize) -> Vec<u32> {
    font::page(w, h, random.below(252), random.below(108))
}

fn gradient(random: &mut Random, w: usize, h: usize) -> Vec<u32> {
    let (base, across, down) = (random.word(), random.below(1 << 20) as u32, random.below(1 << 20) as u32);
    let grey = random.one_in(2);
    each(w, h, |x, y| {
        let word = base.wrapping_add(across.wrapping_mul(x as u32)).wrapping_add(down.wrapping_mul(y as u32));
        if grey {
            (word & 0xff) * 0x0001_0101
        } else {
            word
        }
    })
}

fn checkers(random: &mut Random, w: usize, h: usize) -> Vec<u32> {
    let (side, skew) = (random.between(1, 4), random.below(3));
    let colours = palette(random, 3);
    each(w, h, |x, y| colours[((x + skew * y) / side + y / side) % (2 + skew % 2)])
}

/// Few colours, and any top byte.
fn top_bytes(random: &mut Random, w: usize, h: usize) -> Vec<u32> {
    let colours = palette(random, 3);
    each(w, h, |_, _| random.pick(&colours) ^ (random.word() & 0xff00_0000))
}

fn one_colour(random: &mut Random, w: usize, h: usize) -> Vec<u32> {
    let word = random.word();
    each(w, h, |_, _| word)
}

/// One pixel, or a few, that differ from the rest.
fn one_pixel(random: &mut Random, w: usize, h: usize) -> Vec<u32> {
    let mut picture = one_colour(random, w, h);
    for _ in 0..random.between(1, 3) {
        if !picture.is_empty() {
            let at = random.below(picture.len());
            picture[at] = palette(random, 1)[0];
        }
    }
    picture
}
