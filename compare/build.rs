//! Finds the original ScaleFX and the proved library, and makes both ready to link.
//!
//! `PANEL_ORIGINAL` names the folder that holds `src/scaling/scalefx.rs` and `src/scaling/mod.rs`; without
//! it `../shared/docs/src` beside the repository is tried. Where both files are found, the cfg `original` is set. Where one
//! is not, the program is built all the same, without the subcommands that need the original: it says so when it is asked
//! for one of them, with the folder in which the original was sought, and fails where `CI` is set and not empty.
//! `PANEL_LIBRARY` names the folder of `libpanel.a`; without it the repository's `target/staticlib`.

use std::env;
use std::fs;
use std::path::{Path, PathBuf};

/// Appended to a copy of scalefx.rs: a child module sees its parent's private functions.
const STAGES: &str = include_str!("src/stages.in");

fn main() {
    let compare = PathBuf::from(env::var("CARGO_MANIFEST_DIR").unwrap());
    let repository = compare.parent().unwrap();
    let named = |name: &str, default: &str| {
        println!("cargo:rerun-if-env-changed={name}");
        env::var(name).map_or_else(|_| repository.join(default), PathBuf::from)
    };
    println!("cargo:rerun-if-changed=src/stages.in");
    link(&named("PANEL_LIBRARY", "target/staticlib"));
    println!("cargo:rustc-check-cfg=cfg(original)");
    let scaling = named("PANEL_ORIGINAL", "../shared/docs/src").join("src/scaling");
    // these two are looked at again at the next build, also where they are not there yet
    let files = ["scalefx.rs", "mod.rs"].map(|name| scaling.join(name));
    files.iter().for_each(|file| println!("cargo:rerun-if-changed={}", file.display()));
    if files.iter().all(|file| file.is_file()) {
        let scaling = scaling.canonicalize().unwrap();
        generate(&scaling, &PathBuf::from(env::var("OUT_DIR").unwrap()));
        println!("cargo:rustc-cfg=original");
    } else {
        println!("cargo:rustc-env=PANEL_SOUGHT={}", scaling.display());
    }
}

fn link(folder: &Path) {
    println!("cargo:rerun-if-changed={}", folder.join("libpanel.a").display());
    println!("cargo:rustc-link-search=native={}", folder.display());
    println!("cargo:rustc-link-lib=static=panel");
}

/// Writes a module with `get` of mod.rs, scalefx.rs itself, unchanged, and the copy with its stages exposed.
fn generate(scaling: &Path, out: &Path) {
    let (file, module) = (scaling.join("scalefx.rs"), scaling.join("mod.rs"));
    let text = fs::read_to_string(&file).expect("scalefx.rs");
    let get = function(&fs::read_to_string(&module).expect("mod.rs"), "get");
    let stages = out.join("stages.rs");
    fs::write(&stages, format!("{text}\n{STAGES}")).unwrap();
    let whole = format!(
        "{get}\n#[path = {file:?}]\npub mod scalefx;\n\n#[allow(dead_code)]\n#[path = {stages:?}]\npub mod scalefx_stages;\n",
    );
    fs::write(out.join("original.rs"), whole).unwrap();
}

/// The text of a function of the outermost level, with its attributes.
fn function(text: &str, name: &str) -> String {
    let lines: Vec<&str> = text.lines().collect();
    let head = format!("fn {name}(");
    let at = lines.iter().position(|l| l.starts_with(&head)).expect("a function of mod.rs");
    let first = (0..at).rev().take_while(|&i| lines[i].starts_with("#[")).last().unwrap_or(at);
    let last = at + lines[at..].iter().position(|l| *l == "}").expect("its end");
    lines[first..=last].join("\n") + "\n"
}
