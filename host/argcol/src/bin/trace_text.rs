//! Turns traces from text to the trace printer's bytes and back, from standard input to standard output.

use argcol::trace::Trace;
use std::{
    error::Error,
    io::{Read, Write, stdin, stdout},
    process::ExitCode,
};

const HELP: &str = "\
Turns a trace from text to the trace printer's bytes and back, and runs it.

    trace_text bytes < p1.trace > p1.bin     the printer's input
    trace_text text  < p1.bin                as text again
    trace_text run   < p1.trace              the lines that the printer prints for it

It reads standard input, 64 MiB at most, and writes to standard output. A trace may have 16,777,216 numbers.
Exit status: 0; 1 if the input is no trace, or too large, or the output is lost; 2 for other arguments than these.
";

const USAGE: &str = "trace_text bytes | text | run, from standard input to standard output; trace_text --help";

/// The most bytes that are read.
const INPUT_LIMIT: u64 = 64 << 20;

fn input() -> Result<Vec<u8>, Box<dyn Error>> {
    let mut input = Vec::new();
    stdin().take(INPUT_LIMIT + 1).read_to_end(&mut input)?;
    if input.len() as u64 > INPUT_LIMIT {
        return Err(format!("the input has more than {INPUT_LIMIT} bytes").into());
    }
    Ok(input)
}

fn read_text(input: &[u8]) -> Result<Trace, Box<dyn Error>> {
    let text =
        str::from_utf8(input).map_err(|error| format!("{error}; the printer's bytes are read by `trace_text text`"))?;
    Ok(Trace::from_text(text)?)
}

fn bytes(input: &[u8]) -> Result<Vec<u8>, Box<dyn Error>> {
    Ok(read_text(input)?.to_bytes())
}

fn text(input: &[u8]) -> Result<Vec<u8>, Box<dyn Error>> {
    Ok(Trace::from_bytes(input)?.to_text().into_bytes())
}

fn run(input: &[u8]) -> Result<Vec<u8>, Box<dyn Error>> {
    Ok(read_text(input)?.run()?.into_bytes())
}

fn print(output: &[u8]) -> Result<(), Box<dyn Error>> {
    let mut out = stdout();
    out.write_all(output)?;
    // the end of the program would flush too, but tell nobody if that fails
    Ok(out.flush()?)
}

fn main() -> ExitCode {
    let words: Vec<_> = std::env::args_os().skip(1).collect();
    let words: Vec<_> = words.iter().map(|word| word.to_str().unwrap_or_default()).collect();
    let turn = match words[..] {
        ["--help" | "-h"] => return ended(print(HELP.as_bytes())),
        ["bytes"] => bytes,
        ["text"] => text,
        ["run"] => run,
        _ => {
            eprintln!("{USAGE}");
            return ExitCode::from(2);
        }
    };
    ended(input().and_then(|input| print(&turn(&input)?)))
}

fn ended(result: Result<(), Box<dyn Error>>) -> ExitCode {
    match result {
        Ok(()) => ExitCode::SUCCESS,
        Err(error) => {
            eprintln!("{error}");
            ExitCode::FAILURE
        }
    }
}
