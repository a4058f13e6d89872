//! Times at settings of clarity, beside the library's own at the standard: the two by turns, on one picture. A row's ratio
//! is to the standard here, not to the original.

use super::bench::{picture, Buffers, PICTURES};
use super::bench_session::Session;
use super::setting::HALF;
use super::times::{best, median, time, Form};
use crate::panel::{Screen, Setting, STANDARD};
use std::hint::black_box;

const SIDE: usize = 256;
const REPETITIONS: usize = 20;
const REPETITIONS_9X: usize = 3;
const CHANGES: usize = 200;

/// The settings by name; those at 0.5 come first, and the others stand for thresholds that let more and fewer edges weigh.
const AT_HALF: usize = 2;
const SETTINGS: [(&str, Setting); 6] = [
    ("threshold 0.5", Setting { kind: 1, bits: HALF }),
    ("gated 0.5", Setting { kind: 2, bits: HALF }),
    ("threshold 0.125", Setting { kind: 1, bits: 0x3e00_0000 }),
    ("gated 0.125", Setting { kind: 2, bits: 0x3e00_0000 }),
    ("threshold 1", Setting { kind: 1, bits: 0x3f80_0000 }),
    ("gated 1", Setting { kind: 2, bits: 0x3f80_0000 }),
];

/// One row: the same at the standard and at a setting, in microseconds, and how many times as long.
fn row(form: Form, what: &str, picture: &str, name: &str, (standard, ours): (f64, f64)) {
    let ratio = ours / standard;
    let line = format!(
        "{what:<14} {picture:<6} {SIDE:>5}   {name:<16} {:>9.1}   standard {:>9.1}   ratio {ratio:>6.3}",
        ours / 1e3,
        standard / 1e3
    );
    form.row(&line, &format!("clarity {what} {picture} {SIDE}: {name}"), ratio, ours);
}

fn scale(picture: &[u32], setting: Setting) -> (f64, f64) {
    let (mut first, mut second) = (Buffers::three(SIDE * SIDE), Buffers::three(SIDE * SIDE));
    best(
        REPETITIONS,
        || time(|| first.scale(STANDARD, black_box(picture), SIDE)),
        || time(|| second.scale(setting, black_box(picture), SIDE)),
    )
}

fn scale9x(picture: &[u32], setting: Setting) -> (f64, f64) {
    let (mut first, mut second) = (Buffers::nine(SIDE * SIDE), Buffers::nine(SIDE * SIDE));
    best(
        REPETITIONS_9X,
        || time(|| first.scale9x(STANDARD, black_box(picture), SIDE)),
        || time(|| second.scale9x(setting, black_box(picture), SIDE)),
    )
}

/// The first refresh of everything after opening.
fn refresh(picture: &[u32], setting: Setting) -> (f64, f64) {
    let drawn = |setting: Setting| {
        let mut session = Session::open_at(Screen::Three, setting, picture, SIDE);
        time(|| assert_eq!(session.refresh_all().left, 0))
    };
    best(REPETITIONS, || drawn(STANDARD), || drawn(setting))
}

/// One changed pixel, its paint and its refresh. The two sessions change the same pixels, but not after each other: the one
/// that comes second to a pixel would find the processor trained to it.
fn change(picture: &[u32], setting: Setting) -> (f64, f64) {
    let mut sessions = [STANDARD, setting].map(|setting| Session::open_at(Screen::Three, setting, picture, SIDE));
    sessions.iter_mut().for_each(|session| assert_eq!(session.refresh_all().left, 0));
    let mut times = [Vec::new(), Vec::new()];
    for i in 0..CHANGES {
        for (which, session) in sessions.iter_mut().enumerate() {
            times[which].push(session.time_change(SIDE, (i + which * CHANGES / 2) % CHANGES));
        }
    }
    let [standard, ours] = times.map(|times| median(times.into_iter()));
    (standard, ours)
}

/// Prints the rows of every picture and setting.
pub fn run(form: Form) {
    form.note("settings of clarity: microseconds, beside the library's own at the standard");
    for picture_name in PICTURES {
        let picture = picture(picture_name, SIDE);
        for (name, setting) in SETTINGS {
            row(form, "scale", picture_name, name, scale(&picture, setting));
            row(form, "first refresh", picture_name, name, refresh(&picture, setting));
            row(form, "changed pixel", picture_name, name, change(&picture, setting));
        }
        for (name, setting) in &SETTINGS[..AT_HALF] {
            row(form, "scale9x", picture_name, name, scale9x(&picture, *setting));
        }
    }
}
