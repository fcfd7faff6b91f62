//! Holds the Rust version against the proved queue, number by number: random days, damaged slices and made-up ones.

use harness::capi::{self, Answer};
use harness::fast;
use harness::random::Random;

const EVENTS: usize = 100_000;
/// Numbers behind the queue, which no call may touch.
const BEHIND: usize = 16;
const LENGTH: usize = fast::QUEUE_LENGTH + BEHIND;

/// Numbers that lie at a limit, or beside one.
const TELLING: [u64; 24] = [
    0, 1, 2, 3, 7, 8, 9, 15, 16, 17, 62, 63, 64, 65, 127, 128, 129, 1023, 1024, 1025, 4095, 4096,
    4294967295, 4294967296,
];

/// Once in n times.
fn rarely(random: &mut Random, n: u64) -> bool {
    random.below(n) == 0
}

/// Below the first limit once in n times, else below the second.
fn below_either(random: &mut Random, n: u64, rare: u64, usual: u64) -> u64 {
    let limit = if rarely(random, n) { rare } else { usual };
    random.below(limit)
}

/// The two queues, which are to stay the same.
struct Pair {
    proved: Vec<u64>,
    rust: Vec<u64>,
    answers: [u64; 11],
}

impl Pair {
    fn apply(&mut self, event: &[u64]) -> Result<Answer, String> {
        let proved = capi::apply(&mut self.proved, event);
        let rust = fast::apply(&mut self.rust, event);
        if proved != rust {
            return Err(format!(
                "{event:?}: the proved queue answers {proved:?}, Rust {rust:?}"
            ));
        }
        if let Some(i) = (0..LENGTH).find(|&i| self.proved[i] != self.rust[i]) {
            let (p, r) = (self.proved[i], self.rust[i]);
            return Err(format!(
                "{event:?}: at {i} the proved queue has {p}, Rust {r}"
            ));
        }
        self.answers[proved.refusal as usize] += 1;
        Ok(proved)
    }

    fn poke(&mut self, at: usize, value: u64) {
        self.proved[at] = value;
        self.rust[at] = value;
    }
}

/// Plays events until there were enough; says how often each refusal came.
pub fn run(seed: u64) -> Result<[u64; 11], String> {
    let random = &mut Random::new(seed);
    let mut pair = Pair {
        proved: vec![0; LENGTH],
        rust: vec![0; LENGTH],
        answers: [0; 11],
    };
    let mut played = 0;
    while played < EVENTS {
        let slice = start(random);
        pair.proved.copy_from_slice(&slice);
        pair.rust.copy_from_slice(&slice);
        let damaged = rarely(random, 2);
        for _ in 0..random.below(80) {
            if damaged && rarely(random, 8) {
                damage(&mut pair, random);
            }
            let event = event(&pair.proved, random);
            pair.apply(&event)?;
            played += 1;
        }
    }
    Ok(pair.answers)
}

fn start(random: &mut Random) -> Vec<u64> {
    let mut slice = vec![0; LENGTH];
    slice[fast::QUEUE_LENGTH..].fill(7);
    let (benches, depth) = (1 + random.below(16), 1 + random.below(16));
    assert_eq!(capi::open(&mut slice, benches, depth).refusal, 0);
    if rarely(random, 2) {
        make_up(&mut slice, random);
    }
    slice
}

/// Fills the sections with records that events need not have made: numbers and parts come twice, and some parts are too large.
fn make_up(slice: &mut [u64], random: &mut Random) {
    let most = random.pick(&[4, 40, 400, 4040]);
    slice[2] = random.below(most);
    slice[3] = below_either(random, 4, 57, 20);
    slice[4] = below_either(random, 4, 961, 20);
    slice[7] = random.below(1000);
    let parts = 1 + random.below(12);
    let base = if rarely(random, 4) { 58 } else { 0 };
    for (at, count) in [(8, slice[2]), (40_968, slice[3]), (41_608, slice[4])] {
        for i in 0..count as usize {
            let record = &mut slice[at + 10 * i..at + 10 * i + 10];
            record[0] = below_either(random, 2, 5000, 50);
            record[1] = if rarely(random, 9) {
                random.below(9)
            } else {
                1 + random.below(3)
            };
            for p in 0..8 {
                if p < record[1] as usize || rarely(random, 50) {
                    record[2 + p] = base + random.below(parts);
                }
            }
        }
    }
    slice[5] = below_either(random, 4, 129, 30);
    slice[6] = random.below(17);
    for i in 0..slice[5] as usize {
        make_up_run(slice, 51_848 + 20 * i, random);
        slice[51_848 + 20 * i + 19] = random.below(3);
    }
    for i in 0..slice[6] as usize {
        make_up_run(slice, 54_408 + 19 * i, random);
    }
}

/// A run that may be useful: some of the last of its part's line, and then some of those that wait.
fn make_up_run(slice: &mut [u64], at: usize, random: &mut Random) {
    let waiting = slice[3] as usize;
    let part = match random.below(waiting as u64 + 1) as usize {
        i if i < waiting => slice[40_968 + 10 * i + 2],
        _ => random.below(66),
    };
    let landed = line(slice, 8, slice[2] as usize, part);
    let ahead = line(slice, 40_968, waiting, part);
    let past = random.below(landed.len().min(3) as u64 + 1) as usize;
    let next = random.below(ahead.len().min(16 - past) as u64 + 1) as usize;
    slice[at] = part;
    slice[at + 1] = (landed.len() - past) as u64;
    slice[at + 2] = (past + next) as u64;
    let numbers = landed[landed.len() - past..].iter().chain(&ahead[..next]);
    for (to, number) in slice[at + 3..at + 19].iter_mut().zip(numbers) {
        *to = *number;
    }
    if rarely(random, 10) {
        slice[at + 3 + random.below(16) as usize] = random.below(50);
    }
}

fn line(slice: &[u64], at: usize, count: usize, part: u64) -> Vec<u64> {
    let records = slice[at..at + 10 * count].chunks(10);
    records
        .filter(|c| c[2..2 + c[1] as usize].contains(&part))
        .map(|c| c[0])
        .collect()
}

/// A few numbers somewhere in the slice become others; the heads of sections and records more often than the rest.
fn damage(pair: &mut Pair, random: &mut Random) {
    for _ in 0..1 + random.below(3) {
        let record = random.below(20) as usize;
        let at = match random.below(8) {
            0 => random.below(8) as usize,
            1 => 8 + 10 * record + random.below(10) as usize,
            2 => 40_968 + 10 * record + random.below(10) as usize,
            3 => 41_608 + 10 * record + random.below(10) as usize,
            4 => 51_848 + 20 * record + random.below(20) as usize,
            5 => 54_408 + 19 * (record % 16) + random.below(19) as usize,
            6 => random.below(fast::QUEUE_LENGTH as u64) as usize,
            _ => return,
        };
        let value = match random.below(4) {
            0 => random.pick(&TELLING),
            1 => pair.proved[at].wrapping_add(1),
            2 => pair.proved[at].wrapping_sub(1),
            _ => random.below(20),
        };
        pair.poke(at, value);
    }
}

fn event(slice: &[u64], random: &mut Random) -> [u64; fast::EVENT_LENGTH] {
    let mut event = [0; fast::EVENT_LENGTH];
    match random.below(20) {
        0..=7 => {
            event[1] = random.below(10_000);
            event[2] = if rarely(random, 9) {
                random.below(10)
            } else {
                1 + random.below(3)
            };
            for part in &mut event[3..] {
                *part = random.below(8) * (1 + random.below(8));
            }
        }
        8..=9 => {
            let i = random.below(slice[3].clamp(1, 64)) as usize;
            event[0] = 1;
            event[1] = if rarely(random, 9) {
                random.below(50)
            } else {
                slice[40_968 + 10 * i]
            };
        }
        10..=18 => {
            event[0] = 2;
            event[1] = random.below(slice[6].clamp(1, 17));
            event[2] = u64::from(!rarely(random, 6));
        }
        _ => {
            for number in &mut event {
                *number = random.pick(&TELLING);
            }
        }
    }
    event
}
