//! The page files that are compared: good ones, damaged ones, and what the rules turn on.

use super::page::PROGRAM_LIMIT;
use super::pictures::KINDS;
use super::random::Random;

fn trailer(w: u16, h: u16, back: u32) -> Vec<u8> {
    let mut bytes = Vec::new();
    bytes.extend(w.to_le_bytes());
    bytes.extend(h.to_le_bytes());
    bytes.extend(back.to_le_bytes());
    bytes.extend([0x50, 0x41, 0x47, 0x45]);
    bytes
}

fn any_bytes(random: &mut Random, len: usize) -> Vec<u8> {
    (0..len).map(|_| random.next() as u8).collect()
}

/// A good file.
pub fn page(random: &mut Random, w: u16, h: u16) -> Vec<u8> {
    let kind = random.below(KINDS.len());
    let words = KINDS[kind].picture(random, usize::from(w), usize::from(h));
    let mut file: Vec<u8> = words.iter().flat_map(|word| word.to_le_bytes()).collect();
    file.extend(trailer(w, h, (12 + 4 * words.len()) as u32));
    file
}

/// A page after bytes that are none of its own.
fn page_after(random: &mut Random, before: usize, w: u16, h: u16) -> Vec<u8> {
    [any_bytes(random, before), page(random, w, h)].concat()
}

/// A file whose back is its length, whatever the sides say.
fn back_as_long(random: &mut Random, w: u16, h: u16, len: usize) -> Vec<u8> {
    [any_bytes(random, len - 12), trailer(w, h, len as u32)].concat()
}

/// Each bit of the trailer flipped, each end and each front cut off, and a byte more at either end.
fn damaged(file: &[u8]) -> Vec<Vec<u8>> {
    let mut files = Vec::new();
    for bit in 0..96 {
        let mut copy = file.to_vec();
        let at = file.len() - 12 + bit / 8;
        copy[at] ^= 1 << (bit % 8);
        files.push(copy);
    }
    for cut in 0..=file.len() {
        files.push(file[..cut].to_vec());
        files.push(file[cut..].to_vec());
    }
    files.push([file, &[0x45]].concat());
    files.push([&[0x45], file].concat());
    files
}

/// Pages back to back: two alike, two of other sizes, one of no pixel at either place, three.
fn glued(random: &mut Random) -> Vec<Vec<u8>> {
    let mut files = Vec::new();
    for (w, h) in [(0, 0), (0, 7), (7, 0), (1, 1), (2, 3), (16, 16), (0, 2049)] {
        let first = page(random, w, h);
        files.push([first.as_slice(), &first].concat());
        for (w, h) in [(0, 0), (0, 2048), (2049, 0), (1, 1), (3, 2), (9, 9)] {
            files.push([first.clone(), page(random, w, h)].concat());
        }
        files.push([first, page(random, 2, 2), page(random, 1, 1)].concat());
    }
    // 4,108 bytes in all, then more
    files.push([page(random, 1, 1), page(random, 30, 34)].concat());
    files.push([page(random, 30, 34), page(random, 1, 1)].concat());
    files.push([page(random, 1, 1), page(random, 1021, 1)].concat());
    files.push([page(random, 32, 32), page(random, 32, 32)].concat());
    files
}

/// Bytes before a page: 1 to 40 of them, before pages with and without pixels, with the page's back and with one that
/// counts them too.
fn led(random: &mut Random) -> Vec<Vec<u8>> {
    let mut files = Vec::new();
    for before in 1..=40 {
        for (w, h) in [(1, 1), (4, 3), (0, 0), (0, 9), (9, 0), (0, 2049)] {
            files.push(page_after(random, before, w, h));
            let pixels = 4 * usize::from(w) * usize::from(h);
            files.push(back_as_long(random, w, h, before + pixels + 12));
        }
    }
    files
}

/// Backs near 2^32, and those that sides of a large product give in 32 bits.
fn far_backs(random: &mut Random) -> Vec<Vec<u8>> {
    let mut files = Vec::new();
    for less in 0..=20 {
        for before in [0, 4, 16] {
            let file = [any_bytes(random, before), trailer(1, (before / 4) as u16, u32::MAX - less)];
            files.push(file.concat());
        }
    }
    // back is the low 32 bits of 12 + 4wh, which are all of it for the last two
    for (w, h) in [(32768, 32768), (65535, 65535), (65535, 16385), (40000, 30000), (65535, 16383), (16384, 65535)] {
        let back = 12u32.wrapping_add((4 * u64::from(w) * u64::from(h)) as u32);
        files.push(trailer(w, h, back));
        files.push([any_bytes(random, 8), trailer(w, h, back)].concat());
    }
    files
}

/// Sides, backs and lengths at their borders, most without pixels.
fn borders(random: &mut Random) -> Vec<Vec<u8>> {
    let mut files = Vec::new();
    for side in [0, 1, 2, 2047, 2048, 2049, 4096, 65535] {
        for (w, h) in [(side, 0), (0, side), (side, 1), (1, side)] {
            files.push(page(random, w, h));
            files.push(page_after(random, 5, w, h));
            files.push(page(random, w, h)[1..].to_vec());
        }
    }
    for back in [0, 8, 11, 12, 13, 16, 20, 27, 28, 29, u32::MAX, 1 << 31] {
        files.push([any_bytes(random, 16), trailer(2, 2, back)].concat());
    }
    // the longest that the program takes, and one byte more
    for before in [0, 1] {
        files.push(page_after(random, before, 32, 32));
        files.push(page_after(random, before, 1024, 1));
        files.push(page_after(random, before, 1, 1024));
        files.push(page_after(random, PROGRAM_LIMIT - 16 + before, 1, 1));
        files.push(any_bytes(random, PROGRAM_LIMIT + before));
        files.push(page_after(random, PROGRAM_LIMIT - 12 + before, 2049, 0));
    }
    for len in 0..=24 {
        files.push(any_bytes(random, len));
        files.push(vec![0x50; len]);
    }
    files.push(page(random, 33, 33));
    files.push(page(random, 300, 200));
    files.push(page_after(random, 7, 300, 200));
    files
}

fn any_file(random: &mut Random) -> Vec<u8> {
    let (w, h) = (random.below(20) as u16, random.below(20) as u16);
    let before = random.between(1, 40);
    let good = page(random, w, h);
    match random.below(8) {
        0 => any_bytes(random, before + 12),
        1 => {
            let (w, h, back) = (random.word() as u16, random.word() as u16, random.word());
            [any_bytes(random, before), trailer(w, h, back)].concat()
        }
        2 => {
            let mut file = good;
            let at = random.below(file.len());
            file[at] ^= 1 << random.below(8);
            file
        }
        3 => [good, page(random, h, w)].concat(),
        4 => {
            let long = w.max(h) * 4 + 1;
            page(random, long, (1024 / long).max(1))
        }
        5 => [any_bytes(random, before), good].concat(),
        _ => good,
    }
}

/// At least a count of files: first those at every border, then any.
pub fn files(random: &mut Random, count: usize) -> Vec<Vec<u8>> {
    let mut files = borders(random);
    files.extend(glued(random));
    files.extend(led(random));
    files.extend(far_backs(random));
    for (w, h) in [(1, 1), (2, 3), (5, 4), (0, 7), (7, 0)] {
        files.extend(damaged(&page(random, w, h)));
    }
    files.extend(damaged(&page_after(random, 5, 3, 2)));
    while files.len() < count {
        files.push(any_file(random));
    }
    files
}
