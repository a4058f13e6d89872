//! Page files: the page reader and the program page3x beside an independent reading of the file's rules.

use super::lent::Lent;
use super::original;
use super::page_files::{self, page};
use super::random::Random;
use crate::panel;
use std::io::Write;
use std::path::{Path, PathBuf};
use std::process::{Command, Stdio};

/// The longest file that the program takes.
pub const PROGRAM_LIMIT: usize = 4_108;

// ---- the rules, read on their own

struct Page {
    w: usize,
    h: usize,
    words: Vec<u32>,
}

/// The page that a file holds, or the number of its refusal. Back has to be 12 + 4wh and the file's length, so what
/// stands before the trailer is the page's pixels and nothing else.
fn read(file: &[u8]) -> Result<Page, u32> {
    let Some((pixels, trailer)) = file.split_last_chunk::<12>() else {
        return Err(8);
    };
    let [w0, w1, h0, h1, b0, b1, b2, b3, magic @ ..] = *trailer;
    let (w, h) = (u16::from_le_bytes([w0, w1]), u16::from_le_bytes([h0, h1]));
    let back = u128::from(u32::from_le_bytes([b0, b1, b2, b3]));
    let right = 12 + 4 * u128::from(w) * u128::from(h);
    if magic != [0x50, 0x41, 0x47, 0x45] || back != right || back != file.len() as u128 {
        return Err(8);
    }
    if w > 2048 || h > 2048 {
        return Err(1);
    }
    let words = pixels.chunks_exact(4).map(|b| u32::from_le_bytes([b[0], b[1], b[2], b[3]])).collect();
    Ok(Page { w: usize::from(w), h: usize::from(h), words })
}

/// What the program prints for a file.
fn text(file: &[u8]) -> String {
    let page = if file.len() > PROGRAM_LIMIT { Err(9) } else { read(file) };
    match page {
        Err(number) => format!("refused {number}\n"),
        Ok(page) => {
            let output = original::scale(&page.words, page.w, page.h);
            let (columns, rows) = (3 * page.w, 3 * page.h);
            let mut text = format!("{columns} {rows}\n");
            for row in 0..rows {
                let words = output[row * columns..(row + 1) * columns].iter();
                let words: Vec<String> = words.map(|word| format!("{word:08x}")).collect();
                text += &(words.join(" ") + "\n");
            }
            text
        }
    }
}

// ---- the comparison

/// The reader on a buffer of a length.
fn wrong_reader(random: &mut Random, file: &[u8], len: usize) -> Option<String> {
    let mut got: Lent<u32> = Lent::new(len, random);
    let mut expected = got.clone();
    let said = panel::read_page(file, got.part_mut());
    let page = read(file).and_then(|page| if len < page.words.len() { Err(2) } else { Ok(page) });
    let should = match page {
        Ok(page) => {
            expected.put(&page.words);
            panel::Page { refusal: 0, w: page.w as u32, h: page.h as u32 }
        }
        Err(refusal) => panel::Page { refusal, w: 0, h: 0 },
    };
    if said != should {
        return Some(format!("reader, buffer of {len}: {said:?}, expected {should:?}"));
    }
    let (at, a, b) = got.difference(&expected)?;
    Some(format!("reader, buffer of {len}: word {at} is {a:08x}, expected {b:08x}"))
}

fn wrong_program(program: &Path, file: &[u8]) -> Option<String> {
    let mut child = Command::new(program)
        .stdin(Stdio::piped())
        .stdout(Stdio::piped())
        .stderr(Stdio::piped())
        .spawn()
        .expect("page3x runs");
    // a program that refuses a long file may leave before it has read all of it
    let _ = child.stdin.take().expect("its input").write_all(file);
    let ran = child.wait_with_output().expect("page3x ends");
    let expected = text(file);
    if !ran.status.success() || !ran.stderr.is_empty() {
        return Some(format!("page3x ended with {}", ran.status));
    }
    if ran.stdout == expected.as_bytes() {
        return None;
    }
    let at = ran.stdout.iter().zip(expected.as_bytes()).take_while(|(a, b)| a == b).count();
    Some(format!("page3x: byte {at} of its {} is not as in the {} expected", ran.stdout.len(), expected.len()))
}

/// What is wrong with one file, on buffers of several lengths and through the program.
fn wrong(random: &mut Random, program: &Path, file: &[u8]) -> Option<String> {
    let n = read(file).map_or(8, |page| page.words.len());
    let lengths = [n, n.saturating_sub(1), n + 1 + random.below(20), 0];
    let reader = lengths.into_iter().find_map(|len| wrong_reader(random, file, len));
    reader.or_else(|| wrong_program(program, file))
}

/// The built program: `PANEL_PAGE3X`, or the repository's crates/page3x/out/page3x.
fn program() -> PathBuf {
    let built = concat!(env!("CARGO_MANIFEST_DIR"), "/../crates/page3x/out/page3x");
    std::env::var("PANEL_PAGE3X").unwrap_or_else(|_| built.to_string()).into()
}

/// At least a count of files; true where nothing differs. The reproduction printed is the shortest file that differs.
pub fn run(count: usize, seed: u64) -> bool {
    let mut random = Random::new(seed);
    let files = page_files::files(&mut random, count);
    let program = program();
    let mut found: Vec<(&[u8], String)> = Vec::new();
    for file in &files {
        found.extend(wrong(&mut random, &program, file).map(|text| (file.as_slice(), text)));
    }
    let largest = page(&mut random, 2048, 2048);
    let largest = [largest.as_slice(), &largest[1..]].map(|file| wrong_reader(&mut random, file, 2048 * 2048));
    for text in largest.iter().flatten() {
        println!("2048 by 2048: {text}");
    }
    if let Some((file, text)) = found.iter().min_by_key(|(file, _)| file.len()) {
        let bytes: Vec<String> = file.iter().map(|byte| format!("{byte:02x}")).collect();
        println!("{}\n{text}", bytes.join(" "));
    }
    let differences = found.len() + largest.iter().flatten().count();
    let good = files.iter().filter(|file| read(file).is_ok()).count();
    println!(
        "page: {} files by reader and program, {good} of them good, and 2048 by 2048 whole and cut: {differences} differences",
        files.len()
    );
    differences == 0
}
