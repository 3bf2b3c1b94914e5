//! Traces as text and as the trace printer's bytes.

use argcol::{
    Arg, ENTRY, Entry, Label, SLOT, STEP, Slot, Step, Word, op,
    trace::{CODE_LIMIT, COUNT_LIMIT, NUMBERS_LIMIT, Trace, TraceStep},
};

const P1: &str = include_str!("../traces/p1.trace");

#[test]
fn p1_is_the_printers_own_input() {
    let trace = Trace::from_text(P1).unwrap();
    let printer = concat!(env!("CARGO_MANIFEST_DIR"), "/../../crates/trace_printer");
    assert_eq!(trace.to_bytes(), std::fs::read(format!("{printer}/stdin")).unwrap());
    assert_eq!(trace.run().unwrap(), std::fs::read_to_string(format!("{printer}/stdout")).unwrap());
}

/// A generator of any numbers, small ones often.
struct Random(u64);

impl Random {
    fn next(&mut self) -> u32 {
        self.0 = self.0.wrapping_mul(6_364_136_223_846_793_005).wrapping_add(1_442_695_040_888_963_407);
        let value = (self.0 >> 33) as u32;
        match value % 5 {
            0 => 0,
            1 => value / 5 % 4,
            2 => value / 5 % 256,
            3 => value / 5 % 20_000,
            _ => value.rotate_left(9),
        }
    }

    fn numbers<const N: usize>(&mut self) -> [u32; N] {
        let label = N.saturating_sub(13);
        let mut out = std::array::from_fn(|_| self.next());
        // labels of every kind, well formed half of the time
        if self.next().is_multiple_of(2) {
            out[label] %= 4;
            let first = match out[label] {
                0 | 1 => 1,
                _ => 5 - (out[label + 4] % 2) as usize,
            };
            if first == 4 {
                out[label + 4] = 1;
            } else {
                out[label + first..].fill(0);
            }
        }
        out
    }
}

#[test]
fn there_and_back() {
    let mut r = Random(7);
    for round in 0..500u32 {
        let code = (0..r.next() % 100).map(|_| r.next() as u8).collect();
        let steps = (0..round % 5).map(|_| TraceStep {
            numbers: r.numbers(),
            slots: (0..r.next() % 4).map(|_| r.numbers()).collect(),
            entries: (0..r.next() % 4).map(|_| r.numbers()).collect(),
        });
        let steps = steps.collect();
        let trace = Trace { code, start: r.next(), packed: round.is_multiple_of(3), word: Word(r.numbers()), steps };
        assert_eq!(Trace::from_bytes(&trace.to_bytes()).as_ref(), Ok(&trace));
        assert_eq!(Trace::from_text(&trace.to_text()).as_ref(), Ok(&trace), "{}", trace.to_text());
    }
}

#[test]
fn text_is_plain() {
    let trace = Trace::from_text(P1).unwrap();
    let lines: Vec<&str> =
        P1.lines().map(|line| line.split('#').next().unwrap().trim_end()).filter(|line| !line.is_empty()).collect();
    assert_eq!(trace.to_text(), lines.join("\n") + "\n");
    let text = "code 0x6080\nstart 12\npacked 10\nstep 0x100 pc 7\n  first 0 arg 0 path 2 add 4 mask 0xffffffffff\n  pick 1\n  load calldata\n  slot 5 zero-test 4 path 1\n  entry 64 replaced 1 calldata\n";
    assert_eq!(Trace::from_text(text).unwrap().to_text(), text);
}

/// The sample in the module's comment.
#[test]
fn the_documented_form() {
    let source = include_str!("../src/trace/mod.rs");
    let lines = source.lines().skip_while(|line| *line != "//! ```text").skip(1).take_while(|line| *line != "//! ```");
    let text: String = lines.map(|line| line.strip_prefix("//! ").unwrap().to_string() + "\n").collect();
    let trace = Trace::from_text(&text).unwrap();
    let first = Slot::plain(0).with_label(Arg::at(0, 2).with_added(4).masked(Word::new(0xff)));
    let step = Step::new(op::MUL).at(7).on_both(first, Slot::plain(32)).picking(0).loading(Label::CallData);
    let slots = vec![Slot::plain(5).with_label(Label::ZeroTest(Arg::at(4, 1))).into()];
    let entries = vec![Entry { offset: 64, replaced: true, label: Label::CallData }.into()];
    let steps = vec![TraceStep { numbers: (&step).into(), slots, entries }];
    assert_eq!(trace, Trace { code: vec![0x60, 0x80], start: 12, packed: true, word: Word::new(10), steps });
}

#[test]
fn what_is_no_text() {
    for (text, line) in [
        ("slot 5", 1),
        ("step MUL\n\nfirst", 3),
        ("step MULL", 1),
        ("step +2", 1),
        ("step MUL pc 4294967296", 1),
        ("step MUL pc +1", 1),
        ("step MUL\nfirst 1 arg 2", 2),
        ("step MUL\nslot 1 numbers 2 3", 2),
        ("step MUL\nslot 1 none 2", 2),
        ("code 0x123", 1),
        ("code 0x+1", 1),
        ("code 0x-1", 1),
        ("code 0x6080\ncode 0x 60", 2),
        ("code 6080", 1),
        ("start 1 2", 1),
        ("start +1", 1),
        ("packed 0x+1", 1),
        ("stop", 1),
    ] {
        assert_eq!(Trace::from_text(text).unwrap_err().line, Some(line), "{text}");
    }
    let long = "code 0x".to_string() + &"00".repeat(CODE_LIMIT);
    assert_eq!(Trace::from_text(&long).unwrap().code.len(), CODE_LIMIT);
    assert_eq!(Trace::from_text(&(long + "\ncode 0x00")).unwrap_err().line, Some(2));
    for line in ["slot 0\n", "entry 0\n"] {
        let lines = |count| "step MUL\n".to_string() + &line.repeat(count);
        assert!(Trace::from_text(&lines(COUNT_LIMIT)).is_ok());
        assert_eq!(Trace::from_text(&lines(COUNT_LIMIT + 1)).unwrap_err().line, Some(COUNT_LIMIT + 2));
    }
}

/// The last line is the first that is too much.
#[test]
fn more_numbers_than_a_text_has() {
    let steps = NUMBERS_LIMIT / STEP;
    let text = "step 0\n".repeat(steps);
    assert_eq!(Trace::from_text(&text).unwrap().steps.len(), steps);
    for line in ["step 0", "slot 0\nslot 0\nslot 0", "entry 0\nentry 0\nentry 0\nentry 0"] {
        let bad = Trace::from_text(&(text.clone() + line)).unwrap_err();
        assert_eq!(bad.reason, "the trace has more than 16,777,216 numbers");
        assert!(bad.line.is_some_and(|at| at > steps), "{bad}");
    }
}

#[test]
fn why_it_is_no_text() {
    for (text, reason) in [
        (
            "stop",
            "`stop` begins no line; code, start, packed, unpacked, step, first, second, pick, load, load-flag, slot, entry do",
        ),
        (
            "step MUL\nstop",
            "`stop` begins no line; code, start, packed, unpacked, step, first, second, pick, load, load-flag, slot, entry do",
        ),
        ("pick x", "no step stands before this line"),
        ("step MUL\npick x", "`x` is no number below 2^32, in decimal or in hex behind 0x"),
        ("start 4294967296", "`4294967296` is no number below 2^32, in decimal or in hex behind 0x"),
        ("packed x", "`x`: a word is decimal digits, or hex digits behind 0x"),
        ("step MUL\nslot 5 6", "`6`: a label is none, calldata, arg, zero-test or numbers"),
    ] {
        assert_eq!(Trace::from_text(text).unwrap_err().reason, reason);
    }
}

/// The printer's bytes for so much code begin with `#`, with the end of a line, and with a letter and the end of a
/// line.
#[test]
fn bytes_are_no_text() {
    for (length, line) in [(0x23, 1), (0x0a, 2), (0x0a41, 2)] {
        let bytes = Trace { code: vec![b'x'; length], ..Trace::default() }.to_bytes();
        let bad = Trace::from_text(str::from_utf8(&bytes).unwrap()).unwrap_err();
        assert_eq!(bad.line, Some(line));
        assert_eq!(bad.reason, "there is a control character; the printer's bytes are read by `trace_text text`");
    }
    for control in ['\0', '\x0b', '\x1b', '\x7f', '\u{85}'] {
        assert_eq!(Trace::from_text(&format!("start 1\n# {control}")).unwrap_err().line, Some(2));
    }
    assert_eq!(Trace::from_text("start\t1\r\n").unwrap().start, 1);
}

#[test]
fn lines_that_stand_once() {
    for (first, second, name) in [
        ("start 0", "start 0", "start"),
        ("packed 1", "packed 1", "packed or unpacked"),
        ("packed 1", "unpacked 1", "packed or unpacked"),
        ("unpacked 0", "packed 0", "packed or unpacked"),
        ("first 0", "first 1", "first"),
        ("second 0", "second 1", "second"),
        ("pick 0", "pick 0", "pick"),
        ("load calldata", "load calldata", "load or load-flag"),
        ("load-flag 0", "load calldata", "load or load-flag"),
    ] {
        let bad = Trace::from_text(&format!("step MUL\n{first}\nslot 0\n{second}\n")).unwrap_err();
        assert_eq!((bad.line, bad.reason), (Some(4), format!("a second line of {name}")));
        let other = Trace::from_text(&format!("step MUL\n{first}\nstep MUL\n{second}\n"));
        assert_eq!(other.is_ok(), !["start", "packed or unpacked"].contains(&name), "each step has its own lines");
    }
    let joined = Trace::from_text("code 0x60\nstep MUL\ncode 0x80\nslot 1\nslot 1\nentry 0\nentry 0").unwrap();
    assert_eq!(
        (&joined.code[..], joined.steps[0].slots.len(), joined.steps[0].entries.len()),
        (&[0x60, 0x80][..], 2, 2)
    );
}

#[test]
fn what_are_no_bytes() {
    let bytes = Trace::from_text(P1).unwrap().to_bytes();
    for length in 0..bytes.len() {
        assert!(Trace::from_bytes(&bytes[..length]).is_err());
    }
    assert!(Trace::from_bytes(&[&bytes[..], &[0]].concat()).is_err());
    let mut flagged = bytes.clone();
    flagged[8] = 2;
    assert_eq!(Trace::from_bytes(&flagged).unwrap_err().reason, "the packed flag is above 1");
    let code = |length| Trace { code: vec![0; length], ..Trace::default() };
    let slots = |count| TraceStep { numbers: [0; STEP], slots: vec![[0; SLOT]; count], entries: vec![] };
    let entries = |count| TraceStep { numbers: [0; STEP], slots: vec![], entries: vec![[0; ENTRY]; count] };
    let steps = |step| Trace { steps: vec![step], ..Trace::default() };
    for most in [code(CODE_LIMIT), steps(slots(COUNT_LIMIT)), steps(entries(COUNT_LIMIT))] {
        assert_eq!(Trace::from_bytes(&most.to_bytes()), Ok(most));
    }
    let reason = |trace: Trace| Trace::from_bytes(&trace.to_bytes()).unwrap_err().reason;
    assert_eq!(reason(code(24_577)), "the code has more than 24,576 bytes");
    for step in [slots(257), entries(257)] {
        assert_eq!(reason(steps(step)), "a step has more than 256 slots or entries");
    }
}

#[test]
fn refused_traces_run_as_the_printer_says() {
    let run = |text| Trace::from_text(text).unwrap().run().unwrap();
    assert_eq!(run(""), "none\n");
    assert_eq!(run("step STOP\nstep CALLDATALOAD\n first 4"), "refused 7 at 2\n");
    assert_eq!(run("step 256"), "refused 6 at 1\n");
    // PUSH3 01f404 CALLDATASIZE LT: more words than the table has records
    assert_eq!(run("code 0x6201f4043610"), "refused 8 at 0\n");
}

/// A trace made by hand may be larger than the printer takes: it says so when it would read that.
#[test]
fn traces_over_the_sizes_run_as_the_printer_says() {
    let step = |op, slots, entries| {
        let numbers = (&Step::default().on(Slot::plain(4))).into();
        let mut step = TraceStep { numbers, slots: vec![[0; SLOT]; slots], entries: vec![[0; ENTRY]; entries] };
        step.numbers[0] = op;
        step
    };
    let run = |length, steps| Trace { code: vec![0; length], steps, ..Trace::default() }.run().unwrap();
    let (load, bad) = (0x35, 256);
    assert_eq!(run(CODE_LIMIT, vec![step(load, COUNT_LIMIT, COUNT_LIMIT)]), "args 1 left 8190 head 32\n0 uint256\n");
    for steps in [vec![], vec![step(load, 1, 0)], vec![step(bad, 1, 0)]] {
        assert_eq!(run(CODE_LIMIT + 1, steps), "input refused\n", "long code is met first");
    }
    for (slots, entries) in [(COUNT_LIMIT + 1, 0), (1, COUNT_LIMIT + 1)] {
        assert_eq!(run(0, vec![step(load, 1, 0), step(bad, slots, entries)]), "input refused\n", "before its call");
        assert_eq!(
            run(0, vec![step(bad, 1, 0), step(load, slots, entries)]),
            "refused 6 at 1\n",
            "after the calls before it"
        );
    }
}
