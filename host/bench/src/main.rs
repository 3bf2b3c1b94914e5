//! Times the proved core, the published source and plain reads of the same numbers, and prints the tables of
//! docs/PERFORMANCE.md.

mod agreed;
mod calls;
mod clock;
mod moves;
mod only;
mod printed;
mod reads;
mod scenes;
mod tables;
mod terms;

use std::{io::Write, process::ExitCode};

const HELP: &str = "\
Times the proved core, the published source and plain reads of the same numbers; docs/PERFORMANCE.md has the tables.

    bench                  everything
    bench table NAME       one table: steps, closings, texts, soundness, growth or library
    bench only NAME N      one call 200 times, for a profiler: step, closing, text or sound, on N facts of a wide table,
                           1 to 16,383; or scattered, the soundness alone

Exit status: 0; 2 for other arguments than these.
";

/// What the words of the command line ask for.
fn asked(words: &[&str]) -> Option<Box<dyn FnOnce() + Send>> {
    match *words {
        ["--help" | "-h"] => Some(Box::new(|| drop(std::io::stdout().write_all(HELP.as_bytes())))),
        [] => Some(Box::new(|| rounds(&tables::ALL))),
        ["table", name] => {
            let table = tables::ALL.into_iter().find(|table| table.0 == name)?;
            Some(Box::new(move || rounds(&[table])))
        }
        ["only", name, facts] => {
            let facts = facts.parse().ok().filter(|facts| (1..16_384).contains(facts))?;
            let call = only::NAMES.into_iter().find(|known| *known == name)?;
            Some(Box::new(move || only::only(call, facts)))
        }
        _ => None,
    }
}

fn rounds(tables: &[(&str, fn())]) {
    if !published::AT_HAND {
        println!("the published source is not at hand: its times are left out");
    }
    for round in 0..clock::ROUNDS {
        clock::begin(round);
        tables.iter().for_each(|(_, table)| table());
    }
}

fn main() -> ExitCode {
    let words: Vec<_> = std::env::args_os().skip(1).collect();
    let words: Vec<_> = words.iter().map(|word| word.to_str().unwrap_or("?")).collect();
    let Some(run) = asked(&words) else {
        eprint!("{HELP}");
        return ExitCode::from(2);
    };
    // the published source calls itself once for each level of the facts
    let thread = std::thread::Builder::new().stack_size(1 << 30).spawn(run).expect("there is room for a thread");
    if thread.join().is_ok() { ExitCode::SUCCESS } else { ExitCode::FAILURE }
}

#[cfg(test)]
mod tests {
    use super::*;

    #[test]
    fn words_that_are_understood_and_others() {
        let read = |words: &str| asked(&words.split_whitespace().collect::<Vec<_>>()).is_some();
        for words in ["", "--help", "-h", "table library", "table steps", "only step 1", "only scattered 16383"] {
            assert!(read(words), "{words}");
        }
        for words in ["x", "table", "table x", "only step", "only x 5", "only step x", "only step 0", "only step 16384"]
        {
            assert!(!read(words), "{words}");
        }
        assert!(
            tables::ALL.iter().all(|(name, _)| HELP.contains(name))
                && only::NAMES.iter().all(|name| HELP.contains(name))
        );
    }
}
