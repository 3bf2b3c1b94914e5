//! Lists of calls and runs until there are enough, and what is said of them.

use crate::{calls, compare::Tally, generate::Random, machine, sides};

pub fn run(seed: u64, steps: u64, calls: fn(&mut Random, &mut Tally)) -> bool {
    sides::say();
    let mut tally = Tally::new();
    let mut r = Random(seed);
    while tally.steps < steps {
        calls(&mut r, &mut tally);
    }
    println!("seed {seed}");
    println!("fresh calls {}", tally.fresh);
    println!("steps {} (compared with the published source {})", tally.steps, tally.steps_published);
    println!("  refused by number {:?}", &tally.step_numbers[1..9]);
    println!("closings {} (compared with the published source {})", tally.closings, tally.closings_published);
    println!("  none, over, granted {:?}, refused by number {:?}", tally.verdicts, &tally.closing_numbers[1..10]);
    println!("text calls {}, refused by 10 and 11 {:?}", tally.texts, &tally.text_numbers[10..12]);
    println!("differences {}", tally.differences);
    tally.differences == 0
}

pub fn machines(seed: u64, runs: u64) -> bool {
    sides::say();
    let mut tally = Tally::new();
    let mut r = Random(seed);
    let (mut found, mut empty, mut codes, mut longest) = (0, 0, 0, 0);
    for _ in 0..runs {
        let code = machine::contract(&mut r);
        if let Some((steps, length)) = machine::run(&code, &mut tally) {
            found += 1;
            empty += u64::from(length == 0);
            codes += length;
            longest = longest.max(steps);
        }
    }
    let points = published::points();
    if !points.is_empty() {
        println!("{} of {} points of the source met", points.iter().filter(|point| point.3 > 0).count(), points.len());
    }
    println!("seed {seed}");
    println!("runs {runs}, with the function found {found}, empty lists {empty}, codes in all lists {codes}");
    println!(
        "steps {}, at most {longest} in one run; closings {}: none, over, granted {:?}",
        tally.steps, tally.closings, tally.verdicts
    );
    println!("differences {}", tally.differences);
    tally.differences == 0
}

/// In silence, until the first difference.
pub fn mutant(seed: u64, steps: u64) -> bool {
    let mut tally = Tally { silent: true, ..Tally::new() };
    let mut r = Random(seed);
    while tally.steps < steps && tally.differences == 0 {
        calls::any(&mut r, &mut tally);
    }
    match tally.first {
        Some(what) => println!("caught within {} steps by {what}", tally.steps),
        None => println!("not caught in {} steps", tally.steps),
    }
    tally.differences > 0
}
