//! The comparisons that need the original.

mod alone;
mod bench;
mod bench_clarity;
mod bench_palette;
mod bench_session;
mod case;
mod clarity;
mod distance;
mod drawing;
mod font;
mod items;
mod largest;
mod lent;
mod machine;
mod original;
mod page;
mod page_files;
mod pair;
mod palette;
mod palettes;
mod pictures;
mod plain;
mod plain_tags;
mod random;
mod record;
mod screen;
mod session;
mod session_tally;
mod setting;
mod times;
mod twin;
mod whole;

use times::Form;

/// Runs a subcommand: whether nothing differs, or nothing where the words are not understood.
pub fn run(name: &str, rest: &[&str]) -> Option<bool> {
    match (name, rest) {
        ("distance", _) => counted(distance::run, 2_000_000, rest),
        ("whole", _) => counted(whole::run, 20_000, rest),
        ("clarity", _) => counted(clarity::run, 40_000, rest),
        ("palette", _) => counted(palette::run, 20_000, rest),
        ("session", _) => counted(session::run_three, 40_000, rest),
        ("session9", _) => counted(session::run_nine, 10_000, rest),
        ("page", _) => counted(page::run, 4_000, rest),
        ("record", []) => Some(record::run()),
        ("record", ["--write"]) => Some(record::write()),
        ("bench", ["--calls", calls @ ..]) => bench::calls(calls),
        ("bench", ["--rows", parts @ ..]) => bench::run(Form::Rows, parts),
        ("bench", parts) => bench::run(Form::Lines, parts),
        _ => None,
    }
}

/// A comparison that takes a count and a seed.
fn counted(compare: fn(usize, u64) -> bool, count: usize, rest: &[&str]) -> Option<bool> {
    match rest {
        [] => Some(compare(count, 1)),
        [count] => Some(compare(count.parse().ok()?, 1)),
        [count, seed] => Some(compare(count.parse().ok()?, seed.parse().ok()?)),
        _ => None,
    }
}
