//! The program `trace_text`.

use argcol::trace::Trace;
use std::{
    ffi::OsStr,
    fs::File,
    io::Write,
    os::unix::ffi::OsStrExt,
    process::{Command, Output, Stdio},
};

const P1: &str = include_str!("../traces/p1.trace");
const PROGRAM: &str = env!("CARGO_BIN_EXE_trace_text");
const USAGE: &str = "trace_text bytes | text | run, from standard input to standard output; trace_text --help\n";

fn program_to(stdout: Stdio, words: &[&OsStr], input: &[u8]) -> Output {
    let mut command = Command::new(PROGRAM);
    let mut child = command.args(words).stdin(Stdio::piped()).stdout(stdout).stderr(Stdio::piped()).spawn().unwrap();
    // without a command it doesn't read
    let _ = child.stdin.take().unwrap().write_all(input);
    child.wait_with_output().unwrap()
}

fn program(words: &[&str], input: &[u8]) -> Output {
    let words: Vec<&OsStr> = words.iter().map(OsStr::new).collect();
    program_to(Stdio::piped(), &words, input)
}

/// What it says as it fails with this exit status.
fn failed(status: i32, output: Output) -> String {
    assert_eq!((output.status.code(), &output.stdout[..]), (Some(status), &b""[..]));
    String::from_utf8(output.stderr).unwrap()
}

#[test]
fn there_and_back() {
    let trace = Trace::from_text(P1).unwrap();
    let bytes = program(&["bytes"], P1.as_bytes());
    assert!(bytes.status.success() && bytes.stdout == trace.to_bytes());
    assert_eq!(program(&["text"], &bytes.stdout).stdout, trace.to_text().as_bytes());
    assert_eq!(program(&["run"], P1.as_bytes()).stdout, b"args 1 left 8189 head 32\n0 uint256[]\n");
}

#[test]
fn help() {
    for word in ["--help", "-h"] {
        let output = program(&[word], b"");
        let text = String::from_utf8(output.stdout).unwrap();
        assert!(output.status.success() && output.stderr.is_empty());
        assert!(
            ["trace_text bytes", "trace_text text", "trace_text run", "Exit status"]
                .iter()
                .all(|part| text.contains(part))
        );
    }
}

#[test]
fn what_it_refuses() {
    let said = failed(1, program(&["bytes"], b"step MUL\nfirst x"));
    assert_eq!(said, "line 2: `x`: a word is decimal digits, or hex digits behind 0x\n");
    for words in [&[][..], &["trace"], &["run", "p1.trace"], &["bytes", "text"], &["bytes", "--help"], &[""]] {
        assert_eq!(failed(2, program(words, P1.as_bytes())), USAGE);
    }
    // no text
    assert_eq!(failed(2, program_to(Stdio::piped(), &[OsStr::from_bytes(b"\xff")], b"")), USAGE);
}

#[test]
fn bytes_where_text_is_due() {
    for code in [vec![0; 0x23], vec![0xff; 0x23]] {
        let bytes = Trace { code, ..Trace::default() }.to_bytes();
        for command in ["bytes", "run"] {
            let said = failed(1, program(&[command], &bytes));
            assert!(said.contains("the printer's bytes are read by `trace_text text`"));
        }
        assert!(program(&["text"], &bytes).status.success());
    }
}

/// 48 zeros: no end of a line among them, at which they would be written at once.
#[test]
fn lost_output_is_an_error() {
    let full = || File::options().write(true).open("/dev/full").unwrap().into();
    assert!(failed(1, program_to(full(), &[OsStr::new("bytes")], b"")).contains("os error 28"));
    assert!(failed(1, program_to(full(), &[OsStr::new("--help")], b"")).contains("os error 28"));
}

/// Input without an end, with 500 MB of memory to eat.
#[test]
fn input_without_an_end() {
    let fed = |from: &str, command: &str| {
        let script = format!("{from} | (ulimit -v 500000; exec \"$0\" {command})");
        failed(1, Command::new("sh").args(["-c", &script, PROGRAM]).output().unwrap())
    };
    for command in ["bytes", "text", "run"] {
        for from in ["cat /dev/zero", "yes 'step 0'", "yes"] {
            assert_eq!(fed(from, command), "the input has more than 67108864 bytes\n", "{from} | {command}");
        }
        for from in
            ["head -c 60000000 /dev/zero", "yes 'step 0' | head -c 60000000", "yes 1 | tr '\\n' ' ' | head -c 60000000"]
        {
            assert!(!fed(from, command).contains("memory"), "{from} | {command}");
        }
    }
    let said = fed("yes 'step 0' | head -c 60000000", "run");
    assert_eq!(said, "line 284360: the trace has more than 16,777,216 numbers\n");
}
