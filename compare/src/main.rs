//! Compares the proved library with the original ScaleFX, with an independent plain machine and with an independent
//! reading of the page file. Each comparison ends with a line that counts and says how many differences there were.

#[cfg(original)]
mod beside;
#[cfg_attr(not(original), allow(dead_code))]
mod panel;
mod root;

use std::process::ExitCode;

const USAGE: &str = "usage: compare root [--spread N] | distance [PAIRS] [SEED] | whole [COUNT] [SEED]
       | clarity [COUNT] [SEED] | palette [COUNT] [SEED] | session [LISTS] [SEED] | session9 [LISTS] [SEED]
       | page [FILES] [SEED] | record [--write]
       | bench [--rows] [scale] [scale9x] [session] [session9] [clarity] [palette]
       | bench --calls scale|scale9x page|noise SIDE [original]";

fn main() -> ExitCode {
    let words: Vec<String> = std::env::args().skip(1).collect();
    let words: Vec<&str> = words.iter().map(String::as_str).collect();
    let same = match words.as_slice() {
        ["root"] => Some(root::run(None)),
        ["root", "--spread", n] => n.parse().ok().map(|n| root::run(Some(n))),
        [name, rest @ ..] => beside_the_original(name, rest),
        [] => None,
    };
    match same {
        Some(true) => ExitCode::SUCCESS,
        Some(false) => ExitCode::FAILURE,
        None => {
            eprintln!("{USAGE}");
            ExitCode::from(2)
        }
    }
}

#[cfg(original)]
fn beside_the_original(name: &str, rest: &[&str]) -> Option<bool> {
    beside::run(name, rest)
}

/// The subcommands that need the original are not made without it: in the gate that is a failure.
#[cfg(not(original))]
fn beside_the_original(name: &str, _: &[&str]) -> Option<bool> {
    if !["distance", "whole", "clarity", "palette", "session", "session9", "page", "record", "bench"].contains(&name) {
        return None;
    }
    println!("NOT COMPARED: {}: THE ORIGINAL SCALEFX WAS NOT FOUND", name.to_uppercase());
    eprintln!("compare: {} was sought; PANEL_ORIGINAL names the folder above src/scaling", env!("PANEL_SOUGHT"));
    let gate = std::env::var_os("CI").is_some_and(|value| !value.is_empty());
    if gate {
        eprintln!("compare: CI is set, so a comparison that is not made is a failure");
    }
    Some(!gate)
}
