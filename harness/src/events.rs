//! Events to try on a queue: most of them well formed, some broken in each way.

use crate::queue::{Section, CHANGE, EVENT, NUMBERS, PARTS, PARTS_OF_CHANGE};
use crate::random::Random;

/// A submission of at most eight parts.
pub fn submit(number: u64, parts: &[u64]) -> Vec<u64> {
    let mut event = vec![0; EVENT];
    event[1] = number;
    event[2] = parts.len() as u64;
    event[3..3 + parts.len()].copy_from_slice(parts);
    event
}

pub fn withdraw(number: u64) -> Vec<u64> {
    let mut event = vec![0; EVENT];
    event[0] = 1;
    event[1] = number;
    event
}

pub fn report(place: u64, value: u64) -> Vec<u64> {
    let mut event = vec![0; EVENT];
    event[0] = 2;
    event[1] = place;
    event[2] = value;
    event
}

/// Different parts below `pool`, 1 to `most` of them.
pub fn parts(random: &mut Random, pool: u64, most: u64) -> Vec<u64> {
    let count = random.from_to(1, most.min(pool));
    let mut parts: Vec<u64> = Vec::new();
    while (parts.len() as u64) < count {
        let part = random.below(pool);
        if !parts.contains(&part) {
            parts.push(part);
        }
    }
    parts
}

/// A value that a report may say: 1 is good, and anything else is bad.
pub fn value(random: &mut Random, good: bool) -> u64 {
    if good {
        1
    } else {
        let any = random.number().max(2);
        random.pick(&[0, 0, 0, 2, 7, 1 << 63, u64::MAX, (1 << 32) + 1, any])
    }
}

/// How many records of a section there are at most, whatever its count says.
pub fn held(queue: &[u64], section: Section) -> usize {
    queue[section.count()].min(section.room() as u64) as usize
}

/// The number of some change of a section.
fn some_number(random: &mut Random, queue: &[u64], section: Section) -> Option<u64> {
    match held(queue, section) {
        0 => None,
        count => Some(queue[section.record(random.place(count))]),
    }
}

/// Some event for this queue; one in eight is broken, and some hold numbers that are not read.
pub fn any(random: &mut Random, queue: &[u64]) -> Vec<u64> {
    let nothing_runs = queue[Section::Running.count()] == 0;
    let mut event = match random.below(10) {
        0..=2 => any_submit(random, queue),
        3 => any_withdraw(random, queue),
        4..=7 if nothing_runs => any_submit(random, queue),
        _ => any_report(random, queue),
    };
    if random.percent(20) {
        fill_unread(random, &mut event);
    }
    if random.percent(12) {
        break_event(random, queue, &mut event);
    }
    if random.percent(5) {
        event.extend((0..random.from_to(1, 9)).map(|_| random.number()));
    }
    event
}

fn any_submit(random: &mut Random, queue: &[u64]) -> Vec<u64> {
    let section = random.pick(&[Section::Landed, Section::Waiting, Section::Rejected]);
    let number = match (random.below(10), some_number(random, queue, section)) {
        (0, Some(number)) => number,
        (1, _) => random.pick(&[0, NUMBERS - 1, NUMBERS]),
        (2..=4, _) => random.below(200),
        _ => random.below(NUMBERS),
    };
    let pool = random.pick(&[1, 3, 8, PARTS]);
    let most = random.pick(&[1, 2, 3, 8]);
    submit(number, &parts(random, pool, most))
}

fn any_withdraw(random: &mut Random, queue: &[u64]) -> Vec<u64> {
    let section = random.pick(&[
        Section::Waiting,
        Section::Waiting,
        Section::Waiting,
        Section::Landed,
        Section::Rejected,
    ]);
    let number = some_number(random, queue, section).unwrap_or(random.below(NUMBERS));
    withdraw(number)
}

fn any_report(random: &mut Random, queue: &[u64]) -> Vec<u64> {
    let running = queue[Section::Running.count()].min(1 << 33);
    let place = if running > 0 && random.percent(95) {
        random.below(running)
    } else {
        random.near(running)
    };
    let good = random.percent(70);
    report(place, value(random, good))
}

/// Junk in the numbers that are not read.
pub fn fill_unread(random: &mut Random, event: &mut [u64]) {
    let read = match event[0] {
        0 => 3 + event[2].min(PARTS_OF_CHANGE as u64) as usize,
        1 => 2,
        _ => 3,
    };
    for number in &mut event[read..] {
        *number = random.huge();
    }
}

/// Breaks an event in one of the ways that are refused, or nearly are.
pub fn break_event(random: &mut Random, queue: &[u64], event: &mut Vec<u64>) {
    match random.below(12) {
        0 => event.truncate(random.place(EVENT)),
        1 => event[0] = random.near(3),
        2 => event[1] = random.near(NUMBERS - 1),
        3 => event[1] = random.near(NUMBERS),
        4 => {
            *event = report(
                random.near(queue[Section::Running.count()]),
                random.below(3),
            )
        }
        5 => *event = withdraw(random.near(NUMBERS)),
        6 => event[2] = 0,
        7 => event[2] = random.near(PARTS_OF_CHANGE as u64),
        8 | 9 => break_part(random, event, |random, _| random.near(PARTS)),
        _ => break_part(random, event, |random, earlier| random.pick(earlier)),
    }
}

/// Makes a submission of many parts with something else at one of the places, so that every place is met.
fn break_part(
    random: &mut Random,
    event: &mut Vec<u64>,
    part: impl FnOnce(&mut Random, &[u64]) -> u64,
) {
    let number = event[1];
    let mut parts = parts(random, PARTS, PARTS_OF_CHANGE as u64);
    let place = parts.len() - 1 - random.place(parts.len().min(2));
    parts[place] = part(random, &parts[..place.max(1)]);
    *event = submit(number, &parts);
}

/// A change's ten numbers, well formed.
pub fn change(number: u64, parts: &[u64]) -> [u64; CHANGE] {
    let mut record = [0; CHANGE];
    record.copy_from_slice(&submit(number, parts)[1..]);
    record
}
