//! Measures events on a queue by both versions, in turns, and a sweep of its numbers.

use crate::queues::{Case, Event};
use harness::capi::{self, Answer};
use harness::fast;
use std::hint::black_box;
use std::time::Instant;

/// Many short rounds in turns, so that what else the machine does falls on all alike and the median passes over it.
const ROUNDS: usize = 151;
const ROUND_NANOS: f64 = 3e5;

type Apply = fn(&mut [u64], &[u64]) -> Answer;

/// What an event costs by both versions, and a sweep of the same queue, in nanoseconds.
#[derive(Clone, Copy)]
pub struct Costs {
    pub proved: f64,
    pub rust: f64,
    pub sweep: f64,
}

/// The medians of the rounds; or how the two versions differ.
pub fn measure(case: &Case) -> Result<Costs, String> {
    let mut queue = case.queue.clone();
    let undo = undo(case)?;
    let first = round(capi::apply, &mut queue, &case.event, &undo, 3);
    let turns = (ROUND_NANOS / first.max(1.0)).clamp(1.0, 1000.0) as usize;
    let mut rounds = [const { Vec::new() }; 3];
    for _ in 0..ROUNDS {
        rounds[0].push(round(capi::apply, &mut queue, &case.event, &undo, turns));
        rounds[1].push(round(fast::apply, &mut queue, &case.event, &undo, turns));
        rounds[2].push(round(sweep, &mut queue, &case.event, &[], 20));
    }
    let [proved, rust, sweep] = rounds.map(median);
    Ok(Costs {
        proved,
        rust,
        sweep,
    })
}

/// Adds up all numbers of a queue, in the shape of an event: sixteen sums side by side, so that no addition waits for the one before.
fn sweep(queue: &mut [u64], _: &[u64]) -> Answer {
    let (rows, rest) = queue.as_chunks::<16>();
    let mut sums = [0u64; 16];
    for row in rows {
        for (sum, number) in sums.iter_mut().zip(row) {
            *sum = sum.wrapping_add(*number);
        }
    }
    let value = sums
        .iter()
        .chain(rest)
        .fold(0, |sum: u64, n| sum.wrapping_add(*n));
    Answer { refusal: 0, value }
}

/// What the event changes, as it was: so the queue is made what it was without a copy of all of it.
fn undo(case: &Case) -> Result<Vec<(usize, u64)>, String> {
    let mut proved = case.queue.clone();
    let mut rust = case.queue.clone();
    let answers = (
        capi::apply(&mut proved, &case.event),
        fast::apply(&mut rust, &case.event),
    );
    if answers.0 != answers.1 || proved != rust {
        return Err(format!("{}: the two versions differ", case.name));
    }
    let changed = (0..proved.len()).filter(|&i| proved[i] != case.queue[i]);
    Ok(changed.map(|i| (i, case.queue[i])).collect())
}

/// The mean cost of the event; bringing the queue back is not counted.
fn round(
    apply: Apply,
    queue: &mut [u64],
    event: &Event,
    undo: &[(usize, u64)],
    turns: usize,
) -> f64 {
    let mut spent = 0;
    for _ in 0..turns {
        let start = Instant::now();
        black_box(apply(black_box(queue), black_box(event)));
        spent += start.elapsed().as_nanos();
        for &(i, number) in undo {
            queue[i] = number;
        }
    }
    spent as f64 / turns as f64
}

fn median(mut values: Vec<f64>) -> f64 {
    values.sort_by(f64::total_cmp);
    values[values.len() / 2]
}

/// Applies the event by this version and brings the queue back, so often.
pub fn repeat(case: &Case, version: &str, turns: usize) -> Result<(), String> {
    let mut queue = case.queue.clone();
    let undo = undo(case)?;
    let apply: Apply = match version {
        "proved" => capi::apply,
        "rust" => fast::apply,
        "none" => |_, _| Answer {
            refusal: 0,
            value: 0,
        },
        _ => return Err(format!("no version is called {version}")),
    };
    round(apply, &mut queue, &case.event, &undo, turns);
    Ok(())
}
