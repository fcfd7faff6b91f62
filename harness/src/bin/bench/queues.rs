//! The queues that are measured, and the events on them.

use harness::capi;
use harness::fast::{EVENT_LENGTH, QUEUE_LENGTH};

pub type Event = [u64; EVENT_LENGTH];

/// How a queue is to be filled.
#[derive(Clone, Copy)]
pub struct Shape {
    pub landed: u64,
    pub waiting: u64,
    pub benches: u64,
    pub depth: u64,
    /// Changes of eight parts wait, and those that landed have one of nine; else all have one to three of twelve.
    pub broad: bool,
    /// Every useful run is running or known, and benches idle; else all benches are busy.
    pub idle: bool,
}

pub const TYPICAL: Shape = Shape {
    landed: 200,
    waiting: 20,
    benches: 6,
    depth: 6,
    broad: false,
    idle: false,
};
pub const FULL: Shape = Shape {
    landed: 4000,
    waiting: 60,
    benches: 16,
    depth: 16,
    broad: true,
    idle: false,
};

/// An event on a queue, to be measured.
pub struct Case {
    pub queue: Vec<u64>,
    pub event: Event,
    pub name: &'static str,
}

/// The events measured on a queue of one change, which is submitted to an empty one.
pub fn empty() -> Vec<Case> {
    let shape = Shape {
        landed: 0,
        waiting: 0,
        ..FULL
    };
    let none = fill(shape);
    let mut one = none.clone();
    taken(&mut one, &submission(1, &[0]));
    vec![
        case("submit", &none, submission(1, &[0])),
        case("withdraw", &one, withdrawal(1)),
        case("report, lands", &one, report(0, true)),
        case("report bad", &one, report(0, false)),
        case("refused", &none, report(16, true)),
    ]
}

/// The events measured on a queue of this shape.
pub fn filled(shape: Shape) -> Vec<Case> {
    let queue = fill(shape);
    let fresh = shape.landed + shape.waiting;
    let last = fresh - 1;
    let mut next = queue.clone();
    while !lands(&next) {
        taken(&mut next, &report(0, true));
    }
    vec![
        case("submit", &queue, change(shape, fresh)),
        case("withdraw", &queue, withdrawal(last)),
        case("report, held", &queue, report(1, true)),
        case("report, lands", &next, report(0, true)),
        case("report bad", &queue, report(0, false)),
        case("refused", &queue, report(16, true)),
    ]
}

/// A submission to a queue of this shape.
pub fn submit(shape: Shape) -> Case {
    case(
        "submit",
        &fill(shape),
        change(shape, shape.landed + shape.waiting),
    )
}

/// Whether a good report on the first that runs lets a change land.
fn lands(queue: &[u64]) -> bool {
    let mut after = queue.to_vec();
    taken(&mut after, &report(0, true));
    after[2] > queue[2]
}

fn case(name: &'static str, queue: &[u64], event: Event) -> Case {
    Case {
        queue: queue.to_vec(),
        event,
        name,
    }
}

/// A queue of this shape with as many verdicts as there can be while nothing is decided.
pub fn fill(shape: Shape) -> Vec<u64> {
    let mut queue = vec![0; QUEUE_LENGTH];
    capi::open(&mut queue, shape.benches, shape.depth);
    for number in 0..shape.landed {
        let event = if shape.broad {
            submission(number, &[number % 9])
        } else {
            change(shape, number)
        };
        taken(&mut queue, &event);
        while queue[3] > 0 {
            taken(&mut queue, &report(0, true));
        }
    }
    for number in shape.landed..shape.landed + shape.waiting {
        taken(&mut queue, &change(shape, number));
    }
    // Only runs of changes that must wait for others, so that nothing is decided.
    while let Some(place) = later_run(&queue) {
        let mut next = queue.clone();
        taken(&mut next, &report(place, true));
        if next[6] < shape.benches && !shape.idle {
            break;
        }
        queue = next;
    }
    queue
}

/// A run, if there is one, of a change that shares a part with an earlier one that waits.
fn later_run(queue: &[u64]) -> Option<u64> {
    let waiting: Vec<&[u64]> = queue[40_968..].chunks(10).take(queue[3] as usize).collect();
    let blocked = |number: u64| {
        let i = waiting
            .iter()
            .position(|change| change[0] == number)
            .unwrap_or(0);
        waiting[..i].iter().any(|earlier| {
            parts(earlier)
                .iter()
                .any(|part| parts(waiting[i]).contains(part))
        })
    };
    let mut runs = queue[54_408..].chunks(19).take(queue[6] as usize);
    runs.position(|run| blocked(run[2 + run[2] as usize]))
        .map(|place| place as u64)
}

fn parts(change: &[u64]) -> &[u64] {
    &change[2..2 + change[1] as usize]
}

/// The change of this number that a queue of this shape holds.
fn change(shape: Shape, number: u64) -> Event {
    if shape.broad {
        return submission(number, &[0, 1, 2, 3, 4, 5, 6, 7]);
    }
    let first = number * 7 % 12;
    let parts = [first, (first + 5) % 12, (first + 9) % 12];
    submission(number, &parts[..1 + (number * 5 % 3) as usize])
}

fn submission(number: u64, parts: &[u64]) -> Event {
    let mut event = [0; EVENT_LENGTH];
    event[1] = number;
    event[2] = parts.len() as u64;
    event[3..3 + parts.len()].copy_from_slice(parts);
    event
}

fn withdrawal(number: u64) -> Event {
    let mut event = [0; EVENT_LENGTH];
    event[..2].copy_from_slice(&[1, number]);
    event
}

fn report(place: u64, good: bool) -> Event {
    let mut event = [0; EVENT_LENGTH];
    event[..3].copy_from_slice(&[2, place, u64::from(good)]);
    event
}

fn taken(queue: &mut [u64], event: &Event) {
    let answer = capi::apply(queue, event);
    assert_eq!(
        answer.refusal, 0,
        "{event:?} is taken while a queue is filled"
    );
}
