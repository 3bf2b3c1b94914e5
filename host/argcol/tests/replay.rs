//! The stored traces of the program `replay`, those of the published Rust's runs among them, with the lines that the
//! trace printer prints for each.

use argcol::trace::Trace;

/// Cut off or too large behind a step that is refused: the printer meets the step first, and `from_bytes` takes no such
/// trace.
const REFUSED_BEFORE: [&str; 3] =
    ["order: a bad op, then a cut-off step", "order: a bad op, then 257 slots", "order: a bad op, then bytes"];

fn read(file: &str) -> Vec<u8> {
    std::fs::read(format!("{}/../../{file}", env!("CARGO_MANIFEST_DIR"))).unwrap()
}

fn take<'a>(from: &mut &'a [u8], count: usize) -> &'a [u8] {
    let (taken, rest) = from.split_at(count);
    *from = rest;
    taken
}

fn number(from: &mut &[u8]) -> usize {
    u32::from_le_bytes(take(from, 4).try_into().unwrap()) as usize
}

/// The next trace, as tools/replay.py writes it: a name in 40 bytes, its length, how many bytes the trace has, and
/// these in runs: how many zeros, how many other bytes, and these.
fn next_trace(from: &mut &[u8]) -> (String, Vec<u8>) {
    let name = take(from, 40);
    let (name_length, length) = (number(from), number(from));
    let mut bytes = Vec::new();
    while bytes.len() < length {
        let [zeros, others] = *take(from, 2) else { unreachable!() };
        bytes.resize(bytes.len() + usize::from(zeros), 0);
        bytes.extend(take(from, others.into()));
    }
    assert_eq!(bytes.len(), length);
    (str::from_utf8(&name[..name_length]).unwrap().into(), bytes)
}

/// What the printer prints, as far as this library says it.
fn lines(name: &str, bytes: &[u8]) -> String {
    let Ok(trace) = Trace::from_bytes(bytes) else {
        return if REFUSED_BEFORE.contains(&name) { "refused 6 at 1\n" } else { "input refused\n" }.into();
    };
    assert!(!REFUSED_BEFORE.contains(&name));
    assert_eq!(Trace::from_text(&trace.to_text()).as_ref(), Ok(&trace), "{name}");
    assert!(trace.to_bytes() == bytes, "{name}");
    trace.run().unwrap()
}

/// Runs all traces of a file, and tells how many there are.
fn replay(stdin: &str, stdout: &str) -> usize {
    let (input, output) = (read(stdin), String::from_utf8(read(stdout)).unwrap());
    let (mut from, mut expected, mut count) = (&input[..], &output[..], 0);
    while !from.is_empty() {
        let (name, bytes) = next_trace(&mut from);
        let lines = format!("{name}\n{}", lines(&name, &bytes));
        let Some(rest) = expected.strip_prefix(&lines) else {
            let stored: String = expected.lines().take(9).map(|line| line.to_string() + "\n").collect();
            panic!("{stdin}, got\n{lines}\nbut stored is\n{stored}");
        };
        (expected, count) = (rest, count + 1);
    }
    assert_eq!(expected, "");
    count
}

#[test]
fn the_stored_traces() {
    assert!(replay("crates/replay/stdin", "crates/replay/stdout") > 240);
}

#[test]
fn the_published_runs() {
    assert_eq!(replay("tools/published.stdin", "tools/published.stdout"), 240);
}
