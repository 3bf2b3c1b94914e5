//! The program's command line. What it needs of the three sides is tested in `src/sides.rs` and `src/command.rs`.

use std::{
    ffi::OsStr,
    os::unix::ffi::OsStrExt,
    process::{Command, Output},
};

fn harness(words: &[&OsStr]) -> Output {
    Command::new(env!("CARGO_BIN_EXE_harness")).args(words).output().unwrap()
}

fn words(text: &str) -> Output {
    harness(&text.split_whitespace().map(OsStr::new).collect::<Vec<_>>())
}

#[test]
fn help() {
    for word in ["--help", "-h"] {
        let output = words(word);
        let text = String::from_utf8(output.stdout).unwrap();
        assert_eq!((output.status.code(), &output.stderr[..]), (Some(0), &b""[..]));
        assert!(text.contains("harness run SEED STEPS") && text.contains("Exit status: 0"));
    }
}

/// The same lines, to the other place, and nothing that panics.
#[test]
fn other_arguments() {
    let help = words("--help").stdout;
    for text in ["", "nothing", "run x", "run 1 x", "run -1", "run 1 2 3", "--all", "run --help"] {
        let output = words(text);
        assert_eq!((output.status.code(), output.stderr == help), (Some(2), true), "{text}");
        assert!(output.stdout.is_empty());
    }
    assert_eq!(harness(&[OsStr::from_bytes(b"\xff")]).status.code(), Some(2));
}

#[test]
fn a_run_says_what_it_compared() {
    let output = words("run 1 50");
    let text = String::from_utf8(output.stdout).unwrap();
    if output.stderr.ends_with(b"there is nothing to compare\n") {
        return assert_eq!((output.status.code(), text), (Some(3), String::new()));
    }
    assert!(text.starts_with("sides: plain reading") && text.ends_with("differences 0\n"), "{text}");
    assert_eq!(output.status.code(), Some(0));
}
