//! Copies the published source into OUT_DIR as it stands and adds one line at the end of `arguments/mod.rs`: a child
//! module of ours, which sees what is private there. What the source keeps inside `function_arguments` (what comes
//! before and after its loop) is cut out by its own lines. On demand one mutant is applied, or counters are put in.
//!
//! A source that is missing, or another one, is passed over with a warning; it is an error if it was asked for, by
//! ARGCOL_RUST_SRC, by a mutant or by counters.

mod counters;
mod edits;

use counters::{Point, count};
use std::{
    env, fs, io,
    path::{Path, PathBuf},
    process::exit,
};

const FILES: [&str; 11] = [
    "arguments/mod.rs",
    "arguments/calldata.rs",
    "collections.rs",
    "utils.rs",
    "evm/mod.rs",
    "evm/calldata.rs",
    "evm/element.rs",
    "evm/memory.rs",
    "evm/op.rs",
    "evm/stack.rs",
    "evm/vm.rs",
];

const ASKING: [&str; 3] = ["ARGCOL_RUST_SRC", "ARGCOL_MUTANT", "ARGCOL_COUNTERS"];

/// A variable that is set, and not to nothing.
fn set(name: &str) -> Option<String> {
    env::var(name).ok().filter(|value| !value.is_empty())
}

fn main() {
    ASKING.iter().for_each(|name| println!("cargo::rerun-if-env-changed={name}"));
    ["build", "mutants.txt", "src/probe.rs"].iter().for_each(|file| println!("cargo::rerun-if-changed={file}"));
    println!("cargo::rustc-check-cfg=cfg(have_source)");
    let from = folder().join("src");
    match copied(&from) {
        Ok(()) => {
            println!("cargo::rustc-cfg=have_source");
            println!("cargo::rerun-if-changed={}", from.display());
        }
        Err(reason) => {
            let asked = ASKING.iter().any(|name| set(name).is_some());
            let level = if asked { "error" } else { "warning" };
            println!("cargo::{level}=this is not the published source: {}: {reason}", from.display());
            if asked {
                println!("cargo::error=ARGCOL_RUST_SRC names the folder of the source; without it none is needed");
                exit(1);
            }
            println!("cargo::warning=what needs it is passed over; ARGCOL_RUST_SRC names its folder");
        }
    }
}

/// A relative path begins in the folder in which cargo was started.
fn folder() -> PathBuf {
    let here = Path::new(env!("CARGO_MANIFEST_DIR"));
    match set("ARGCOL_RUST_SRC") {
        None => here.join("../../../shared/docs/src"),
        Some(named) => set("PWD").map_or_else(|| here.to_path_buf(), PathBuf::from).join(named),
    }
}

fn copied(from: &Path) -> Result<(), String> {
    let read = |file: &str| fs::read_to_string(from.join(file)).map_err(|error| format!("{file}: {error}"));
    let mut texts = Vec::new();
    for file in FILES {
        texts.push((file, read(file)?));
    }
    if let Some(number) = set("ARGCOL_MUTANT") {
        edits::mutate(&mut texts, include_str!("../mutants.txt"), &number)?;
    }
    let mut points = Vec::new();
    if set("ARGCOL_COUNTERS").is_some_and(|value| value == "1") {
        count(&mut texts[0].1, "impl Info {", "/// Extracts function arguments", &mut points)?;
        count(&mut texts[0].1, "    // A single array without decoded elements", "\u{0}", &mut points)?;
        count(&mut texts[3].1, "pub fn and_mask_to_type", "#[allow(dead_code)]", &mut points)?;
    }
    let pieces = edits::cut(&texts[0].1)?;
    let out = PathBuf::from(env::var_os("OUT_DIR").ok_or("there is no OUT_DIR")?).join("source");
    put(&out, &mut texts, &pieces, &points).map_err(|error| format!("{}: {error}", out.display()))
}

fn put(out: &Path, texts: &mut [(&str, String)], pieces: &str, points: &[Point]) -> io::Result<()> {
    write(&out.join("arguments/pieces.rs"), pieces)?;
    let probe = Path::new(env!("CARGO_MANIFEST_DIR")).join("src/probe.rs");
    texts[0].1 += &format!("\n#[path = {probe:?}]\npub mod probe;\n");
    for (file, text) in texts {
        write(&out.join(file), text)?;
    }
    // The one file that the source names and that is not published with it; nothing that is compiled here uses it.
    write(&out.join("evm/code_iterator.rs"), "")?;
    let root = |(name, file): (&str, &str)| format!("#[path = {:?}]\npub mod {name};\n", out.join(file));
    let roots = [
        ("arguments", "arguments/mod.rs"),
        ("collections", "collections.rs"),
        ("evm", "evm/mod.rs"),
        ("utils", "utils.rs"),
    ];
    write(&out.join("modules.rs"), &roots.map(root).concat())?;
    write(&out.join("points.rs"), &format!("pub const POINTS: &[(&str, u32, &str)] = &{points:?};\n"))
}

fn write(path: &Path, text: &str) -> io::Result<()> {
    path.parent().map_or(Ok(()), fs::create_dir_all)?;
    fs::write(path, text)
}
