//! A sample of runs as traces, with the lines that the trace printer has to write for them.

use super::{
    SELECTOR,
    contracts::contract,
    runs::holds,
    watched::{Call, Ours},
};
use crate::{
    compare::{self, Tally},
    core::*,
    generate::Random,
};

/// Writes the two files.
pub fn write_sample(seed: u64, runs: u64) -> bool {
    let mut r = Random(seed);
    let (mut stdin, mut stdout, mut found, mut passed) = (Vec::new(), String::new(), 0, 0);
    while found < runs {
        let Some((data, lines)) = sample(&contract(&mut r)) else {
            passed += 1;
            continue;
        };
        found += 1;
        let name = format!("published: seed {seed} run {found}");
        put_named(&mut stdin, &name, &data);
        stdout += &format!("{name}\n{lines}");
    }
    println!(
        "{found} runs, {} and {} bytes; {passed} passed over: no function found, or larger than the printer takes",
        stdin.len(),
        stdout.len()
    );
    let written = std::fs::write("sample.stdin", stdin).and_then(|()| std::fs::write("sample.stdout", stdout));
    written.inspect_err(|error| eprintln!("sample.stdin or sample.stdout: {error}")).is_ok()
}

/// One trace as the program `replay` reads it: the name in 40 bytes, its length and the trace's, and the trace.
fn put_named(stdin: &mut Vec<u8>, name: &str, data: &[u8]) {
    let mut field = name.as_bytes().to_vec();
    field.resize(40, 0);
    stdin.extend(field);
    stdin.extend(bytes(&[name.len() as u32, data.len() as u32]));
    stdin.extend(runs_of(data));
}

/// Zeros counted: how many zeros, how many other bytes, and these.
fn runs_of(data: &[u8]) -> Vec<u8> {
    let (mut out, mut at) = (Vec::new(), 0);
    while at < data.len() {
        let zeros = data[at..].iter().take(255).take_while(|byte| **byte == 0).count();
        let start = at + zeros;
        let plain = data[start..].iter().take(255).take_while(|byte| **byte != 0).count();
        out.extend([zeros as u8, plain as u8]);
        out.extend(&data[start..start + plain]);
        at = start + plain;
    }
    out
}

/// A run as the trace printer's input, and its lines: the types are the published list's own; which of none and over,
/// and what is left, are our closing's, since the published program tells neither. None if no function was found or the
/// run does not fit the printer's sizes. A difference between the sides ends the program.
fn sample(code: &[u8]) -> Option<(Vec<u8>, String)> {
    let mut tally = Tally::new();
    let mut ours = Ours::begin(&mut tally, code, 0);
    published::watch(code, SELECTOR, 0, &mut ours);
    let published = published::arguments(code, SELECTOR, 0);
    let Ours { tally, mut scene, start, calls, .. } = ours;
    let (pc, packed) = start?;
    let packed = packed.map(|word| word_numbers(&word));
    let mut types = vec![0; TYPES];
    let verdict = compare::close(tally, &mut scene, &Closing { start: pc as u32, packed }, &mut types);
    let fits = calls.iter().all(|(_, stack, memory)| stack.len() <= 256 * SLOT && memory.len() <= 256 * ENTRY);
    let same = match verdict {
        Verdict::Granted { .. } => holds(&types, &published),
        _ => published.is_empty(),
    };
    assert!(tally.differences == 0 && same, "the sides differ: {verdict:?}, published {published:?}, code {code:02x?}");
    if !fits || code.len() > 24_576 {
        return None;
    }
    Some((trace(code, pc as u32, packed, &calls), lines(verdict, &published)))
}

/// The printer's input: the code's length, the start, the packed word, the code, and the steps with their slots and
/// entries.
fn trace(code: &[u8], start: u32, packed: Option<[u32; 8]>, calls: &[Call]) -> Vec<u8> {
    let mut data = bytes(&[code.len() as u32, start, u32::from(packed.is_some())]);
    data.extend(bytes(&packed.unwrap_or([0; 8])));
    data.extend(code);
    data.extend(bytes(&[calls.len() as u32]));
    for (step, stack, memory) in calls {
        data.extend(bytes(step));
        data.extend(bytes(&[(stack.len() / SLOT) as u32, (memory.len() / ENTRY) as u32]));
        data.extend(bytes(stack));
        data.extend(bytes(memory));
    }
    data
}

fn bytes(numbers: &[u32]) -> Vec<u8> {
    numbers.iter().flat_map(|n| n.to_le_bytes()).collect()
}

/// The printer's lines for the published codes; left is the closing's, which the comparison holds against the published
/// budget.
fn lines(verdict: Verdict, codes: &[u16]) -> String {
    match verdict {
        Verdict::None => "none\n".into(),
        Verdict::Over => "over\n".into(),
        Verdict::Granted { left, .. } => {
            let (mut out, mut at, mut k) = (String::new(), 0, 0);
            while at < codes.len() {
                out += &format!("{k} {}\n", text(codes, &mut at));
                k += 1;
            }
            format!("args {k} left {left} head {}\n{out}", 32 * k)
        }
        Verdict::Refused(number) => format!("refused {number} at 0\n"),
    }
}

/// The text of the type that begins at a place, which goes behind it.
fn text(codes: &[u16], at: &mut usize) -> String {
    let code = codes[*at];
    *at += 1;
    match code {
        1 => "bool".into(),
        2 => "address".into(),
        3 => "bytes".into(),
        4 => "string".into(),
        5 => text(codes, at) + "[]",
        1000..2000 => format!("uint{}", code - 1000),
        2000..3000 => format!("int{}", code - 2000),
        3000..16384 => format!("bytes{}", code - 3000),
        _ => format!("({})", (16384..code).map(|_| text(codes, at)).collect::<Vec<_>>().join(",")),
    }
}
