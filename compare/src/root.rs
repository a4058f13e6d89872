//! The root of every single, beside the machine's own instruction.

use crate::panel;
use std::thread;

/// Patterns from here on are infinite, not a number, or have the sign bit set.
const FIRST_REFUSED: u64 = 0x7f80_0000;
const ALL: u64 = 1 << 32;
const THREADS: u64 = 2;

/// Whether the library answers rightly for one pattern: the nearest root, or refusal 6 with +0.0 beside it.
fn agrees(pattern: u32) -> bool {
    let x = f32::from_bits(pattern);
    let (refusal, root) = panel::root(x);
    let expected = if u64::from(pattern) < FIRST_REFUSED { (0, x.sqrt().to_bits()) } else { (6, 0) };
    (refusal, root.to_bits()) == expected
}

/// The patterns from first below end, a step apart, on which the library differs, and the lowest of them.
fn differences(first: u64, end: u64, step: u64) -> (u64, Option<u32>) {
    let (mut count, mut lowest) = (0, None);
    let mut pattern = first;
    while pattern < end {
        if !agrees(pattern as u32) {
            count += 1;
            lowest = lowest.or(Some(pattern as u32));
        }
        pattern += step;
    }
    (count, lowest)
}

/// Runs over a range in equal parts, one a thread.
fn in_parts(first: u64, end: u64, step: u64) -> (u64, Option<u32>) {
    let part = (end - first).div_ceil(THREADS).next_multiple_of(step);
    let threads: Vec<_> = (0..THREADS)
        .map(|i| {
            let begin = first + i * part;
            thread::spawn(move || differences(begin, end.min(begin + part), step))
        })
        .collect();
    let parts = threads.into_iter().map(|t| t.join().expect("a thread of the run"));
    parts.fold((0, None), |sum, part| (sum.0 + part.0, sum.1.or(part.1)))
}

/// Patterns around each power of two, each border of the refused ones, and several payloads of each kind.
fn edges() -> Vec<u32> {
    let mut patterns = Vec::new();
    for exponent in 0..512u32 {
        for offset in [0, 1, 2, 0x3f_ffff, 0x40_0000, 0x40_0001, 0x7f_fffe, 0x7f_ffff] {
            patterns.push(exponent << 23 | offset);
        }
    }
    patterns
}

/// Every pattern, or with a number a spread of so many of them; true where nothing differs.
pub fn run(spread: Option<u64>) -> bool {
    let step = spread.map_or(1, |n| (ALL / n.clamp(1, ALL)) | 1);
    let (mut count, mut lowest) = in_parts(0, FIRST_REFUSED, step);
    let (refused_count, refused_lowest) = in_parts(FIRST_REFUSED, ALL, step);
    let edges = edges();
    for &pattern in edges.iter().filter(|&&pattern| !agrees(pattern)) {
        count += 1;
        lowest = lowest.or(Some(pattern));
    }
    if let Some(pattern) = lowest.or(refused_lowest) {
        let (refusal, root) = panel::root(f32::from_bits(pattern));
        let machine = f32::from_bits(pattern).sqrt().to_bits();
        println!(
            "root of {pattern:08x}: refusal {refusal}, root {:08x}; the machine's root is {machine:08x}",
            root.to_bits()
        );
    }
    let (roots, refused) = (FIRST_REFUSED.div_ceil(step), (ALL - FIRST_REFUSED).div_ceil(step));
    println!(
        "root: {roots} patterns from 00000000 to 7f7fffff beside the machine's root, {refused} that are refused, and {} edges: {} differences",
        edges.len(),
        count + refused_count,
    );
    count + refused_count == 0
}
