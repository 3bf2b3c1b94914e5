//! The least time of a call, over all rounds so far.

use std::{
    cell::RefCell,
    hint::black_box,
    time::{Duration, Instant},
};

/// All is timed so many times over; the last time through prints.
pub const ROUNDS: usize = 12;

#[derive(Default)]
struct Rounds {
    round: usize,
    /// The least times so far, in the order of their taking.
    best: Vec<f64>,
    next: usize,
}

thread_local!(static ROUND: RefCell<Rounds> = RefCell::default());

/// The least time of a call in ns, over many short batches of this round and of those before.
pub fn least(mut batch: impl FnMut(usize) -> Duration) -> f64 {
    let mut calls = 1;
    while calls < 1 << 16 && batch(calls) < Duration::from_micros(60) {
        calls *= 2;
    }
    let (start, mut best, mut count) = (Instant::now(), f64::MAX, 0);
    while count < 20 || start.elapsed() < Duration::from_millis(30) {
        best = best.min(batch(calls).as_nanos() as f64 / calls as f64);
        count += 1;
    }
    ROUND.with_borrow_mut(|rounds| {
        if rounds.best.len() == rounds.next {
            rounds.best.push(f64::MAX);
        }
        let held = &mut rounds.best[rounds.next];
        *held = held.min(best);
        rounds.next += 1;
        *held
    })
}

pub fn repeated<T>(mut call: impl FnMut() -> T) -> f64 {
    least(|calls| {
        let start = Instant::now();
        for _ in 0..calls {
            black_box(call());
        }
        start.elapsed()
    })
}

pub fn begin(round: usize) {
    ROUND.with_borrow_mut(|rounds| (rounds.round, rounds.next) = (round, 0));
}

pub fn in_last_round() -> bool {
    ROUND.with_borrow(|rounds| rounds.round + 1 == ROUNDS)
}
