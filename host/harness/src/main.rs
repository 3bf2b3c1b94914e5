//! Compares the proved core, a plain reading of document 01 and the published source, call by call.

mod calls;
mod command;
mod compare;
mod core;
mod counters;
mod generate;
#[cfg(test)]
mod listed;
mod machine;
mod plain;
mod proved;
#[cfg_attr(not(have_archive), allow(dead_code))]
#[path = "../../argcol/src/raw.rs"]
mod raw;
mod report;
mod sides;

use command::Asked;
use sides::Sides;
use std::{io::Write, process::ExitCode};

fn main() -> ExitCode {
    let words: Vec<_> = std::env::args_os().skip(1).collect();
    let words: Vec<_> = words.iter().map(|word| word.to_str().unwrap_or("?")).collect();
    let (run, seed, count, needs) = match command::asked(&words) {
        Some(Asked::Help) => {
            // whoever reads no further has read enough
            let _ = std::io::stdout().write_all(command::HELP.as_bytes());
            return ExitCode::SUCCESS;
        }
        Some(Asked::Run { run, seed, count, needs }) => (run, seed, count, needs.or(Sides::named())),
        None => {
            eprint!("{}", command::HELP);
            return ExitCode::from(2);
        }
    };
    let missing = needs.missing(Sides::at_hand());
    missing.iter().for_each(|text| eprintln!("{text}"));
    if let Some(text) = sides::other_version() {
        eprintln!("{text}");
        return ExitCode::from(3);
    }
    if !missing.is_empty() {
        return ExitCode::from(3);
    }
    // the published source and the core call themselves once for each level of the facts
    let thread = std::thread::Builder::new().stack_size(1 << 30).spawn(move || run(seed, count));
    let good = thread.expect("there is room for a thread").join().unwrap_or(false);
    if good { ExitCode::SUCCESS } else { ExitCode::FAILURE }
}
