//! The command line.

use crate::{calls, counters, machine, report, sides::Sides};

pub const HELP: &str = "\
Compares the proved core, a plain reading of document 01 and the published source, call by call.

    harness run SEED STEPS         generated lists of calls until so many steps
    harness damaged SEED STEPS     only calls with one or two numbers or lengths wrong
    harness scattered SEED STEPS   large tables whose chains jump about, full and nearly so
    harness large SEED STEPS       tables, stacks, memories and codes at their limits, full and one too large
    harness machine SEED RUNS      whole runs of the published machine on generated contracts
    harness sample SEED RUNS       such runs as traces for the program `replay`, with the published lists:
                                   sample.stdin and sample.stdout
    harness speed SEED RUNS        time for each step of such runs: the source's `analyze`, and the core on tables of
                                   64 and 1,480 records
    harness counters SEED STEPS    as run, then the counts of the source's branches (a build with ARGCOL_COUNTERS=1)
    harness mutant SEED STEPS      as run, in silence and until the first difference, which a mutated source has to give

SEED is 1 and the count 100,000 if they are left out. --all ahead of them asks for all three sides; so do
ARGCOL_RUST_SRC for the source and ARGCOL_ARCHIVE for the archive, when this is built or run, and the commands from
machine on for the source. A side that nobody asked for is passed over with a message, but not both.

Exit status: 0 no difference (mutant: one was found); 1 a difference, or what is wanted was not found; 2 other arguments
than these; 3 a side that was asked for is not at hand.
";

type Run = fn(u64, u64) -> bool;

/// Each with the sides that it needs.
const COMMANDS: [(&str, Sides, Run); 9] = [
    ("run", Sides::NONE, |seed, steps| report::run(seed, steps, calls::any)),
    ("damaged", Sides::NONE, |seed, steps| report::run(seed, steps, calls::damaged)),
    ("scattered", Sides::NONE, |seed, steps| report::run(seed, steps, calls::scattered)),
    ("large", Sides::NONE, |seed, steps| report::run(seed, steps, calls::at_limits)),
    ("machine", Sides::SOURCE, report::machines),
    ("sample", Sides::SOURCE, machine::write_sample),
    ("speed", Sides::ALL, machine::speed),
    ("counters", Sides::SOURCE, |seed, steps| {
        let good = report::run(seed, steps, calls::any);
        counters::report() && good
    }),
    ("mutant", Sides::SOURCE, report::mutant),
];

/// What is to be done.
pub enum Asked {
    Help,
    Run { run: Run, seed: u64, count: u64, needs: Sides },
}

/// None for other words than those of the help.
pub fn asked(words: &[&str]) -> Option<Asked> {
    let (all, words) = match words {
        ["--help" | "-h"] => return Some(Asked::Help),
        ["--all", words @ ..] => (true, words),
        words => (false, words),
    };
    let (name, numbers) = words.split_first()?;
    let (_, needs, run) = *COMMANDS.iter().find(|command| command.0 == *name)?;
    let numbers: Vec<u64> = numbers.iter().map(|text| text.parse().ok()).collect::<Option<_>>()?;
    let (seed, count) = match numbers[..] {
        [] => (1, 100_000),
        [seed] => (seed, 100_000),
        [seed, count] => (seed, count),
        _ => return None,
    };
    Some(Asked::Run { run, seed, count, needs: if all { Sides::ALL } else { needs } })
}

#[cfg(test)]
mod tests {
    use super::*;

    fn read(words: &str) -> Option<(u64, u64, Sides)> {
        match asked(&words.split(' ').collect::<Vec<_>>())? {
            Asked::Help => None,
            Asked::Run { seed, count, needs, .. } => Some((seed, count, needs)),
        }
    }

    #[test]
    fn words_that_are_understood() {
        assert_eq!(read("run"), Some((1, 100_000, Sides::NONE)));
        assert_eq!(read("run 7"), Some((7, 100_000, Sides::NONE)));
        assert_eq!(read("damaged 7 9"), Some((7, 9, Sides::NONE)));
        assert_eq!(read("machine 7 9"), Some((7, 9, Sides::SOURCE)));
        assert_eq!(read("--all large 18446744073709551615 0"), Some((u64::MAX, 0, Sides::ALL)));
        for word in ["--help", "-h"] {
            assert!(matches!(asked(&[word]), Some(Asked::Help)));
        }
        for (name, ..) in COMMANDS {
            assert!(read(name).is_some() && HELP.contains(&format!("\n    harness {name} SEED ")), "{name}");
        }
    }

    #[test]
    fn words_that_are_not() {
        assert!(asked(&[]).is_none());
        for words in [
            "",
            "runs",
            "RUN",
            "run x",
            "run -1",
            "run 1 2 3",
            "run 1 1.5",
            "run 18446744073709551616",
            "--all",
            "--all --help",
            "run --all",
            "--help run",
            "run 1 ",
        ] {
            assert!(asked(&words.split(' ').collect::<Vec<_>>()).is_none(), "{words}");
        }
    }
}
