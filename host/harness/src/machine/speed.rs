//! Time for each step, of the source and of the core.

use super::{SELECTOR, contracts::contract, watched::Ours};
use crate::{compare::Tally, core::*, generate::Random, proved, sides};
use std::time::{Duration, Instant};

pub fn speed(seed: u64, runs: u64) -> bool {
    sides::say();
    for records in [64, 1480] {
        let mut r = Random(seed);
        let (mut steps, mut source, mut core) = (0, Duration::ZERO, Duration::ZERO);
        for _ in 0..runs {
            if let Some((n, a, b)) = times(&contract(&mut r), &proved::Proved, records) {
                (steps, source, core) = (steps + n, source + a, core + b);
            }
        }
        let each = |time: Duration| time.as_nanos() / u128::from(steps.max(1));
        println!(
            "{steps} steps, {records} records: analyze {} ns, the core's step {} ns for each",
            each(source),
            each(core)
        );
    }
    true
}

/// Times for one contract's steps: the source's `analyze`, and the core on a table of so many records. The core's part
/// asks the questions each time, soundness of the whole table among them; the source's asks none. Conversions are not
/// counted on either side.
fn times(code: &[u8], core: &dyn Core, records: usize) -> Option<(u64, Duration, Duration)> {
    let mut tally = Tally::new();
    let mut ours = Ours::begin(&mut tally, code, 0);
    published::watch(code, SELECTOR, 0, &mut ours);
    ours.start?;
    let (mut calls, steps, source) = (ours.calls, ours.steps, ours.spent);
    let (mut head, mut table) = (Head::default(), vec![0; records * RECORD]);
    core.fresh(&mut head, &mut table);
    let begun = Instant::now();
    for (numbers, stack, memory) in &mut calls {
        core.step(&mut head, &mut table, code, stack, memory, numbers);
    }
    Some((steps, source, begun.elapsed()))
}
