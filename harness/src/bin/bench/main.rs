//! Measures the proved queue beside the Rust version written for speed: same inputs, same run.

mod check;
mod queues;
mod timing;

use queues::{Case, Shape, FULL, TYPICAL};
use std::io::{self, BufWriter, Write};
use std::process::ExitCode;
use timing::Costs;

const HELP: &str = "Usage: bench [--check [SEED] | --loop QUEUE EVENT VERSION TURNS]

Prints what an event costs by the proved queue and by the Rust version written for speed (src/fast.rs),
on an empty queue, a typical one (200 landed, 20 waiting, 6 benches, depth 6) and a full one (4,000 landed
over 9 parts, 60 waiting of 8 parts, 16 benches, depth 16), all benches busy; `idle` is the full one with
every useful run running or known, and 8 benches idle; then how the cost grows.
A sweep is the time in which all 54,712 numbers of that queue are added up. The proved version, the Rust
version and the sweep are measured in turns of 0.3 ms; each figure is the median of 151. A ratio above 1
says that the proved queue is faster.

  --check [SEED]   plays 100,000 random events through both and compares every number
  --loop           applies one event again and again, for a profiler: QUEUE is a name as printed,
                   EVENT a name as printed, VERSION proved or rust, or none to bring the queue back only";

fn main() -> ExitCode {
    let words: Vec<String> = std::env::args().skip(1).collect();
    let words: Vec<&str> = words.iter().map(String::as_str).collect();
    let mut out = BufWriter::new(io::stdout().lock());
    let done = match words[..] {
        [] => tables(&mut out),
        ["--help"] => writeln!(out, "{HELP}").map_err(|e| e.to_string()),
        ["--check"] => compare(&mut out, "1"),
        ["--check", seed] => compare(&mut out, seed),
        ["--loop", queue, event, version, turns] => profile(queue, event, version, turns),
        _ => Err(format!("{words:?} is not understood; see bench --help")),
    };
    match done.and_then(|()| out.flush().map_err(|e| e.to_string())) {
        Ok(()) => ExitCode::SUCCESS,
        Err(message) => {
            eprintln!("bench: {message}");
            ExitCode::FAILURE
        }
    }
}

fn compare(out: &mut impl Write, seed: &str) -> Result<(), String> {
    let seed = seed
        .parse()
        .map_err(|_| format!("the seed {seed} is not a number"))?;
    let [taken, refused @ ..] = check::run(seed)?;
    writeln!(
        out,
        "the two agree: {taken} events taken, refused 1 to 10: {refused:?}"
    )
    .map_err(|e| e.to_string())
}

/// Only what a profiler is to see: the one event, and bringing the queue back.
fn profile(queue: &str, event: &str, version: &str, turns: &str) -> Result<(), String> {
    let turns = turns
        .parse()
        .map_err(|_| format!("{turns} is no number of turns"))?;
    let cases = cases(queue).ok_or(format!("no queue is called {queue}"))?;
    let case = cases.iter().find(|case| case.name == event);
    timing::repeat(
        case.ok_or(format!("no event is called {event}"))?,
        version,
        turns,
    )
}

const QUEUES: [&str; 4] = ["empty", "typical", "full", "idle"];

fn cases(queue: &str) -> Option<Vec<Case>> {
    match queue {
        "empty" => Some(queues::empty()),
        "typical" => Some(queues::filled(TYPICAL)),
        "full" => Some(queues::filled(FULL)),
        "idle" => Some(queues::filled(Shape { idle: true, ..FULL })),
        _ => None,
    }
}

fn tables(out: &mut impl Write) -> Result<(), String> {
    let mut text = head("queue", "event");
    for name in QUEUES {
        for case in cases(name).unwrap_or_default() {
            text += &row(name, case.name, timing::measure(&case)?);
        }
    }
    text +=
        "\nA submission, as one count grows from the typical queue (depth: with 16 benches):\n\n";
    text += &head("what", "how many");
    for (name, count, shape) in growth() {
        text += &row(
            name,
            &count.to_string(),
            timing::measure(&queues::submit(shape))?,
        );
    }
    out.write_all(text.as_bytes()).map_err(|e| e.to_string())
}

fn growth() -> Vec<(&'static str, u64, Shape)> {
    let landed = [0, 500, 1000, 2000, 4000].map(|n| {
        (
            "landed",
            n,
            Shape {
                landed: n,
                ..TYPICAL
            },
        )
    });
    let waiting = [0, 10, 20, 40, 60].map(|n| {
        (
            "waiting",
            n,
            Shape {
                waiting: n,
                ..TYPICAL
            },
        )
    });
    let deep = Shape {
        benches: 16,
        ..TYPICAL
    };
    let depth = [1, 4, 8, 16].map(|n| ("depth", n, Shape { depth: n, ..deep }));
    landed.into_iter().chain(waiting).chain(depth).collect()
}

fn head(first: &str, second: &str) -> String {
    let names =
        "proved events/s | Rust events/s | ratio | proved sweeps | Rust sweeps | a sweep in ns";
    format!("| {first} | {second} | {names} |\n|---|---|---|---|---|---|---|---|\n")
}

fn row(first: &str, second: &str, costs: Costs) -> String {
    let Costs {
        proved,
        rust,
        sweep,
    } = costs;
    let ratio = rust / proved;
    let rates = format!("{:.0} | {:.0} | {ratio:.2}", 1e9 / proved, 1e9 / rust);
    let sweeps = format!("{:.2} | {:.2} | {sweep:.0}", proved / sweep, rust / sweep);
    format!("| {first} | {second} | {rates} | {sweeps} |\n")
}
