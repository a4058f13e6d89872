//! Times of whole pictures with a palette, beside the library's own without one: the two by turns, on one picture. A row's
//! ratio is to that here, not to the original.

use super::bench::{picture, Buffers, PICTURES};
use super::times::{best, time, Form};
use crate::panel::STANDARD;
use std::hint::black_box;

const SIDE: usize = 256;

/// The sixteen colours of an EGA screen.
const SIXTEEN: [u32; 16] = [
    0x000000, 0x0000aa, 0x00aa00, 0x00aaaa, 0xaa0000, 0xaa00aa, 0xaa5500, 0xaaaaaa, 0x555555, 0x5555ff, 0x55ff55,
    0x55ffff, 0xff5555, 0xff55ff, 0xffff55, 0xffffff,
];

/// Palettes by name: one entry, sixteen, and 256 of eight levels of red and green and four of blue.
fn palettes() -> [(&'static str, Vec<u32>); 3] {
    let level = |n: u32, of: u32| n * 255 / (of - 1);
    let colour = |i: u32| level(i >> 5, 8) << 16 | level(i >> 2 & 7, 8) << 8 | level(i & 3, 4);
    [("1 entry", vec![0x00808080]), ("16 entries", SIXTEEN.to_vec()), ("256 entries", (0..256).map(colour).collect())]
}

/// One row: the same without a palette and with one, in microseconds, and how many times as long.
fn row(form: Form, call: &str, picture: &str, name: &str, (without, with): (f64, f64)) {
    let ratio = with / without;
    let line = format!(
        "{call:<8} {picture:<6} {SIDE:>5}   {name:<12} {:>9.1}   without {:>9.1}   ratio {ratio:>6.3}",
        with / 1e3,
        without / 1e3
    );
    form.row(&line, &format!("palette {call} {picture} {SIDE}: {name}"), ratio, with);
}

fn scale(picture: &[u32], palette: &[u32], repetitions: usize) -> (f64, f64) {
    let (mut first, mut second) = (Buffers::three(SIDE * SIDE), Buffers::three(SIDE * SIDE));
    let mut replaced = vec![1; SIDE * SIDE];
    best(
        repetitions,
        || time(|| first.scale(STANDARD, black_box(picture), SIDE)),
        || time(|| second.scale_palette(black_box(picture), palette, &mut replaced, SIDE)),
    )
}

fn scale9x(picture: &[u32], palette: &[u32], repetitions: usize) -> (f64, f64) {
    let (mut first, mut second) = (Buffers::nine(SIDE * SIDE), Buffers::nine(SIDE * SIDE));
    let mut replaced = vec![1; SIDE * SIDE];
    best(
        repetitions,
        || time(|| first.scale9x(STANDARD, black_box(picture), SIDE)),
        || time(|| second.scale9x_palette(black_box(picture), palette, &mut replaced, SIDE)),
    )
}

/// The page and the noise, and two colours by turns that the library looks for at one place first, their difference being
/// the number of places.
fn pictures() -> Vec<(&'static str, Vec<u32>)> {
    let turns = (0..SIDE * SIDE).map(|i| 0x0010_1820 + 251 * (i as u32 % 2)).collect();
    PICTURES.into_iter().map(|name| (name, picture(name, SIDE))).chain([("turns", turns)]).collect()
}

/// Prints the rows of every picture and palette.
pub fn run(form: Form) {
    form.note("palettes: microseconds, beside the library's own without one");
    for (picture_name, picture) in pictures() {
        for (name, palette) in palettes() {
            row(form, "scale", picture_name, name, scale(&picture, &palette, 20));
            row(form, "scale9x", picture_name, name, scale9x(&picture, &palette, 3));
        }
    }
}
