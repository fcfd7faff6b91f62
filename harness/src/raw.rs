//! Slices that no event wrote: random queues whose runs are split in any way, and what can be damaged in them.

use crate::events::held;
use crate::queue::{
    Run, Section, State, CONFIG, FOLLOWING, LENGTH, NUMBERS, PARTS, PARTS_OF_CHANGE, REQUESTED,
    REQUESTS, RUN, SECTIONS,
};
use crate::random::Random;

/// Something that can be done to a queue.
pub struct Damage {
    pub name: &'static str,
    /// Whether it is carried as it stands: else it mostly makes a slice that is refused.
    pub carried: bool,
    pub apply: fn(&mut Random, &mut [u64]),
}

const fn carried(name: &'static str, apply: fn(&mut Random, &mut [u64])) -> Damage {
    Damage {
        name,
        carried: true,
        apply,
    }
}

const fn refused(name: &'static str, apply: fn(&mut Random, &mut [u64])) -> Damage {
    Damage {
        name,
        carried: false,
        apply,
    }
}

pub const DAMAGES: &[Damage] = &[
    carried("numbers behind a count", junk_behind_counts),
    carried("unused parts and unused numbers of runs", junk_in_records),
    carried("verdicts that say neither 0 nor 1", odd_verdicts),
    carried("the same number twice", number_twice),
    carried("parts of 64 and more", high_parts),
    carried("the same part twice in a change", part_twice),
    carried("changes of no parts", no_parts),
    carried("the same run twice", run_twice),
    carried("good and bad of the same run", good_and_bad),
    carried("runs split elsewhere", split_elsewhere),
    refused("a section's count", section_count),
    refused("a section's count at its room", section_count_at_room),
    refused("counts whose sum is at the limit", sums),
    refused("a change's count of parts", change_count),
    refused("a run's count of following", run_follows),
    refused("a run's count of what it begins with", run_begins),
    refused("benches and depth", config),
    refused("runs requested at 2^32", requested),
    refused("any number anywhere", anything),
];

/// What the changes of a queue are drawn from.
struct Pool {
    numbers: u64,
    parts: Vec<u64>,
    most_parts: usize,
    next: u64,
}

impl Pool {
    fn new(random: &mut Random) -> Pool {
        let size = random.pick(&[1, 2, 3, 3, 5, 12]);
        let high = random.percent(15);
        let parts = (0..size)
            .map(|_| match high && random.percent(50) {
                true => random.near(PARTS),
                false => random.below(PARTS),
            })
            .collect();
        Pool {
            numbers: random.pick(&[0, 0, 0, 6, 60]),
            parts,
            most_parts: random.pick(&[1, 2, 3, 3, PARTS_OF_CHANGE]),
            next: random.below(50),
        }
    }

    /// Numbers all different, or out of a few.
    fn number(&mut self, random: &mut Random) -> u64 {
        if self.numbers > 0 {
            return random.below(self.numbers);
        }
        self.next += 1;
        match random.below(400) {
            0 => random.huge(),
            _ => self.next,
        }
    }

    fn change(&mut self, random: &mut Random, record: &mut [u64]) {
        record[0] = self.number(random);
        let count = match random.below(60) {
            0 => 0,
            1 => PARTS_OF_CHANGE,
            _ => 1 + random.place(self.most_parts),
        };
        let mut parts: Vec<u64> = Vec::new();
        for _ in 0..count {
            let part = random.pick(&self.parts);
            if !parts.contains(&part) || random.percent(2) {
                parts.push(part);
            }
        }
        record[1] = parts.len() as u64;
        record[2..2 + parts.len()].copy_from_slice(&parts);
    }
}

/// Fills a slice of zeros with a random queue that keeps to row 1 of the refusals.
pub fn fill(random: &mut Random, queue: &mut [u64]) {
    queue[0] = random.from_to(1, CONFIG);
    queue[1] = random.from_to(1, CONFIG);
    queue[REQUESTED] = match random.below(20) {
        0 => random.near(REQUESTS),
        1 => REQUESTS - random.from_to(1, 20),
        _ => random.below(1000),
    };
    let [landed, waiting, rejected] = counts_of_changes(random);
    let mut pool = Pool::new(random);
    for (section, count) in [
        (Section::Landed, landed),
        (Section::Waiting, waiting),
        (Section::Rejected, rejected),
    ] {
        queue[section.count()] = count;
        for place in 0..count as usize {
            pool.change(random, &mut queue[section.record(place)..]);
        }
    }
    fill_runs(random, queue, &pool);
}

/// How many landed, wait and were rejected: mostly few, now and then as many as fit, also all at once, so that it
/// shows which refusal comes first.
fn counts_of_changes(random: &mut Random) -> [u64; 3] {
    let all_full = random.percent(3);
    let waiting = match random.below(10) {
        0 => random.from_to(62, 64),
        1 | 2 => random.from_to(9, 40),
        _ if all_full => random.from_to(63, 64),
        _ => random.below(9),
    };
    let landed = match random.below(24) {
        _ if all_full => 4_096 - waiting - random.below(2),
        0 => 4_096 - waiting - random.below(3),
        1 => random.below(4_097 - waiting),
        2..=5 => random.below(60),
        _ => random.below(7),
    };
    let rejected = match random.below(24) {
        _ if all_full => 1_024 - waiting - random.below(2),
        0 => 1_024 - waiting - random.below(3),
        1 => random.below(1_025 - waiting),
        2..=5 => random.below(40),
        _ => random.below(4),
    };
    [landed, waiting, rejected]
}

/// Verdicts and running runs: most of them useful, or on top of what landed, some the same, some nonsense.
fn fill_runs(random: &mut Random, queue: &mut [u64], pool: &Pool) {
    let Ok(state) = State::read(queue) else {
        return;
    };
    let mut runs = state.useful();
    for change in state.waiting.iter().take(3) {
        for &part in change.parts() {
            let changes = [state.lines.of(part), &[change.number]].concat();
            runs.push(Run { part, changes });
        }
    }
    let verdicts = match random.below(10) {
        0 => random.from_to(120, 128),
        1 => 128,
        2..=4 => random.below(40),
        _ => random.below(8),
    };
    let running = match random.below(4) {
        0 => random.from_to(14, 16),
        _ => random.below(6),
    };
    let good = random.pick(&[50, 80, 95, 100]);
    // A stretch of useful runs in their order, all good, lets several changes land in one pass.
    let in_order = random.percent(50);
    for (section, count) in [(Section::Verdicts, verdicts), (Section::Running, running)] {
        queue[section.count()] = count;
        for place in 0..count as usize {
            let at = section.record(place);
            let run = match runs.get(place) {
                Some(run) if in_order && section == Section::Verdicts => run.clone(),
                _ => some_run(random, &runs, &state, pool),
            };
            write_run(random, &mut queue[at..], &run, &state);
            if section == Section::Verdicts {
                queue[at + RUN] = random.percent(good) as u64;
            }
        }
    }
}

fn some_run(random: &mut Random, runs: &[Run], state: &State, pool: &Pool) -> Run {
    if !runs.is_empty() && random.percent(85) {
        return runs[random.place(runs.len())].clone();
    }
    let part = random.pick(&pool.parts);
    let line = state.lines.of(part);
    let mut changes = line[..random.place(line.len() + 1)].to_vec();
    changes.extend((0..random.below(4)).map(|_| random.below(60)));
    Run { part, changes }
}

/// Writes a run that begins with as many landed changes as it can, or with fewer and the rest spelled out.
fn write_run(random: &mut Random, record: &mut [u64], run: &Run, state: &State) {
    let line = state.lines.of(run.part);
    let shared = line
        .iter()
        .zip(&run.changes)
        .take_while(|(a, b)| a == b)
        .count();
    let fewest = run.changes.len().saturating_sub(FOLLOWING).min(shared);
    let begins = match random.below(3) {
        0 => fewest + random.place(shared - fewest + 1),
        _ => shared,
    };
    let rest = &run.changes[begins..];
    let following = &rest[..rest.len().min(FOLLOWING)];
    record[0] = run.part;
    record[1] = begins as u64;
    record[2] = following.len() as u64;
    record[3..3 + following.len()].copy_from_slice(following);
}

/// Fills a slice of zeros with a canonical queue in which a section is nearly full and nobody waits.
pub fn fill_nearly_full(random: &mut Random, queue: &mut [u64]) {
    queue[0] = random.from_to(1, CONFIG);
    queue[1] = random.from_to(1, CONFIG);
    let pool = random.pick(&[1, 4, 20, PARTS]);
    let most = random.pick(&[1, 2, 4]);
    let (landed, rejected) = match random.below(3) {
        0 => (4_096 - random.below(30), random.below(20)),
        1 => (random.below(500), 1_024 - random.below(30)),
        _ => (4_096 - random.below(30), 1_024 - random.below(30)),
    };
    let mut number = 0;
    for (section, count) in [(Section::Landed, landed), (Section::Rejected, rejected)] {
        queue[section.count()] = count;
        for place in 0..count as usize {
            number += 1;
            let parts = crate::events::parts(random, pool, most);
            let record = crate::events::change(number, &parts);
            let at = section.record(place);
            queue[at..at + record.len()].copy_from_slice(&record);
        }
    }
}

/// The length of a slice: now and then shorter or longer than a queue.
pub fn length(random: &mut Random, buffer: usize) -> usize {
    match random.below(30) {
        0 => random.pick(&[0, 1, 2, 7, 8, LENGTH - 1, LENGTH / 2]),
        1 => random.place(LENGTH),
        2..=5 => random.pick(&[LENGTH + 1, buffer]),
        _ => LENGTH,
    }
}

fn any_section(random: &mut Random) -> Section {
    random.pick(&SECTIONS)
}

fn any_changes(random: &mut Random) -> Section {
    random.pick(&[Section::Landed, Section::Waiting, Section::Rejected])
}

fn any_runs(random: &mut Random) -> Section {
    random.pick(&[Section::Verdicts, Section::Running])
}

/// The index of some record that the count reaches, or of the section's first.
fn some_record(random: &mut Random, queue: &[u64], section: Section) -> usize {
    section.record(random.place(held(queue, section).max(1)))
}

fn junk_behind_counts(random: &mut Random, queue: &mut [u64]) {
    for section in SECTIONS {
        let from = section.record(held(queue, section));
        let to = section.record(section.room());
        if from < to && random.percent(70) {
            let end = if random.percent(20) {
                to
            } else {
                to.min(from + 60)
            };
            for number in &mut queue[from..end] {
                *number = random.pick(&[1, 2, 9, 17, u64::MAX]);
            }
        }
        if from < to && random.percent(30) {
            queue[to - 1] = random.huge();
        }
    }
}

fn junk_in_records(random: &mut Random, queue: &mut [u64]) {
    for section in SECTIONS {
        for place in 0..held(queue, section) {
            let at = section.record(place);
            let used = queue[at + section.used()].min(section.most_used() as u64) as usize;
            let unused = at + section.used() + 1 + used;
            let end = at + section.used() + 1 + section.most_used();
            for number in &mut queue[unused..end] {
                *number = random.below(70);
            }
        }
    }
}

fn odd_verdicts(random: &mut Random, queue: &mut [u64]) {
    for place in 0..held(queue, Section::Verdicts) {
        if random.percent(40) {
            queue[Section::Verdicts.record(place) + RUN] = random.near(2);
        }
    }
}

fn section_count(random: &mut Random, queue: &mut [u64]) {
    for _ in 0..random.from_to(1, 3) {
        let section = any_section(random);
        queue[section.count()] = random.near(section.room() as u64);
    }
}

fn section_count_at_room(random: &mut Random, queue: &mut [u64]) {
    for _ in 0..random.from_to(1, 2) {
        let section = any_section(random);
        queue[section.count()] = section.room() as u64 + random.below(2);
    }
}

fn sums(random: &mut Random, queue: &mut [u64]) {
    let waiting = held(queue, Section::Waiting) as u64;
    let past = random.pick(&[0, 0, 1, 2]);
    for section in [Section::Landed, Section::Rejected] {
        if random.percent(60) {
            let sum = section.room() as u64 + past;
            queue[section.count()] = sum.saturating_sub(waiting);
        }
    }
}

fn change_count(random: &mut Random, queue: &mut [u64]) {
    let section = any_changes(random);
    let at = some_record(random, queue, section);
    queue[at + 1] = match random.below(3) {
        0 => 0,
        _ => random.near(PARTS_OF_CHANGE as u64),
    };
}

fn run_follows(random: &mut Random, queue: &mut [u64]) {
    let section = any_runs(random);
    let at = some_record(random, queue, section);
    queue[at + 2] = match random.below(3) {
        0 => 0,
        _ => random.near(FOLLOWING as u64),
    };
}

fn run_begins(random: &mut Random, queue: &mut [u64]) {
    let section = any_runs(random);
    let at = some_record(random, queue, section);
    queue[at + 1] = match random.below(5) {
        0 => 0,
        1 => queue[at + 1].wrapping_add(1),
        2 => queue[at + 1].wrapping_sub(1),
        3 => random.huge(),
        _ => random.below(8),
    };
}

fn number_twice(random: &mut Random, queue: &mut [u64]) {
    for _ in 0..random.from_to(1, 4) {
        let (to, from) = (any_changes(random), any_changes(random));
        let to = some_record(random, queue, to);
        let from = some_record(random, queue, from);
        queue[to] = queue[from];
    }
}

fn high_parts(random: &mut Random, queue: &mut [u64]) {
    // One part is renamed everywhere, so that its runs stay what they are.
    let from = queue[some_record(random, queue, Section::Waiting) + 2];
    let to = match random.below(3) {
        0 => PARTS,
        1 => u64::MAX,
        _ => random.huge(),
    };
    for section in SECTIONS {
        for place in 0..held(queue, section) {
            let at = section.record(place);
            let parts = match section {
                Section::Verdicts | Section::Running => at..at + 1,
                _ => at + 2..at + 2 + PARTS_OF_CHANGE,
            };
            for part in &mut queue[parts] {
                if *part == from {
                    *part = to;
                }
            }
        }
    }
}

fn part_twice(random: &mut Random, queue: &mut [u64]) {
    for _ in 0..random.from_to(1, 5) {
        let section = any_changes(random);
        let at = some_record(random, queue, section);
        let count = queue[at + 1].min(PARTS_OF_CHANGE as u64) as usize;
        if (1..PARTS_OF_CHANGE).contains(&count) {
            queue[at + 2 + count] = queue[at + 2 + random.place(count)];
            queue[at + 1] += 1;
        }
    }
}

fn no_parts(random: &mut Random, queue: &mut [u64]) {
    for _ in 0..random.from_to(1, 3) {
        let section = any_changes(random);
        let at = some_record(random, queue, section);
        queue[at + 1] = 0;
    }
}

/// Says the same runs with fewer landed changes to begin with and more that follow, where there is room.
fn split_elsewhere(random: &mut Random, queue: &mut [u64]) {
    let Ok(state) = State::read(queue) else {
        return;
    };
    let known = state.verdicts.iter().map(|verdict| &verdict.run);
    for (place, run) in known.enumerate() {
        let at = Section::Verdicts.record(place);
        write_run(random, &mut queue[at..], run, &state);
    }
    for (place, run) in state.running.iter().enumerate() {
        let at = Section::Running.record(place);
        write_run(random, &mut queue[at..], run, &state);
    }
}

/// Copies a run's record to another place, also from the running to the verdicts and back.
fn copy_run(random: &mut Random, queue: &mut [u64], to: Section) -> (usize, usize) {
    let from = any_runs(random);
    let from = some_record(random, queue, from);
    let to = some_record(random, queue, to);
    queue.copy_within(from..from + RUN, to);
    (from, to)
}

fn run_twice(random: &mut Random, queue: &mut [u64]) {
    for _ in 0..random.from_to(1, 4) {
        let section = any_runs(random);
        copy_run(random, queue, section);
    }
}

fn good_and_bad(random: &mut Random, queue: &mut [u64]) {
    for _ in 0..random.from_to(1, 4) {
        let (_, to) = copy_run(random, queue, Section::Verdicts);
        queue[to + RUN] = random.below(2);
    }
}

fn config(random: &mut Random, queue: &mut [u64]) {
    let index = random.place(2);
    queue[index] = match random.below(3) {
        0 => 0,
        _ => random.near(CONFIG),
    };
}

fn requested(random: &mut Random, queue: &mut [u64]) {
    queue[REQUESTED] = random.near(NUMBERS);
}

fn anything(random: &mut Random, queue: &mut [u64]) {
    for _ in 0..random.from_to(1, 4) {
        let section = any_section(random);
        let at = match random.below(3) {
            0 => random.place(8),
            1 => random.place(LENGTH),
            _ => some_record(random, queue, section) + random.place(section.width()),
        };
        queue[at] = match random.below(3) {
            0 => random.huge(),
            _ => random.below(20),
        };
    }
}

/// What a queue may have that no event from an empty queue on leads to, by name.
pub const ODDITIES: &[&str] = &[
    "junk in an unused place",
    "a verdict above 1",
    "a useful run that begins with fewer landed changes than there are",
    "a run that is not useful",
    "a useful run twice",
    "good and bad of a useful run",
    "a run of no following changes",
    "a number twice",
    "a part of 64 or more in a change that waits",
    "a part twice in a change that waits",
    "a change of no parts that waits",
    "more runs running than benches",
    "landed and waiting come to 4,096",
    "rejected and waiting come to 1,024",
    "128 verdicts held",
    "so many runs requested that 2^32 is near",
];

/// Which of these a queue has, in the same order.
pub fn oddities(queue: &[u64], state: &State) -> Vec<bool> {
    let useful = state.useful();
    let known: Vec<&Run> = state.verdicts.iter().map(|verdict| &verdict.run).collect();
    let held: Vec<&Run> = known.iter().copied().chain(&state.running).collect();
    let is_useful = |run: &Run| useful.contains(run);
    let twice = |runs: &[&Run]| {
        (1..runs.len()).any(|place| is_useful(runs[place]) && runs[..place].contains(&runs[place]))
    };
    let records = run_records(queue);
    let waiting = &state.waiting;
    vec![
        has_junk(queue),
        (0..known.len()).any(|place| queue[Section::Verdicts.record(place) + RUN] > 1),
        records.clone().zip(&held).any(|(record, run)| {
            (record[1] as usize) < state.lines.of(run.part).len() && is_useful(run)
        }),
        held.iter().any(|run| !is_useful(run)),
        twice(&held),
        state.verdicts.iter().any(|one| {
            let mut verdicts = state.verdicts.iter();
            is_useful(&one.run) && verdicts.any(|two| one.run == two.run && one.good != two.good)
        }),
        records.clone().any(|record| record[2] == 0),
        has_number_twice(state),
        waiting
            .iter()
            .any(|one| one.parts().iter().any(|&part| part >= PARTS)),
        waiting.iter().any(|one| {
            let parts = one.parts();
            (1..parts.len()).any(|place| parts[..place].contains(&parts[place]))
        }),
        waiting.iter().any(|one| one.parts().is_empty()),
        state.running.len() as u64 > state.benches,
        state.landed.len() + waiting.len() == Section::Landed.room(),
        state.rejected.len() + waiting.len() == Section::Rejected.room(),
        known.len() == Section::Verdicts.room(),
        state.requested + 16 >= REQUESTS,
    ]
}

/// The records of the verdicts and then of the running runs.
fn run_records(queue: &[u64]) -> impl Iterator<Item = &[u64]> + Clone {
    [Section::Verdicts, Section::Running]
        .into_iter()
        .flat_map(move |section| {
            (0..held(queue, section)).map(move |place| &queue[section.record(place)..][..RUN])
        })
}

fn has_junk(queue: &[u64]) -> bool {
    let behind_a_count = SECTIONS.iter().any(|section| {
        let unused = section.record(held(queue, *section))..section.record(section.room());
        queue[unused].iter().any(|&number| number != 0)
    });
    behind_a_count
        || run_records(queue).any(|record| {
            let unused = &record[3 + record[2] as usize..];
            unused.iter().any(|&number| number != 0)
        })
}

fn has_number_twice(state: &State) -> bool {
    let changes = state
        .landed
        .iter()
        .chain(&state.waiting)
        .chain(&state.rejected);
    let mut numbers: Vec<u64> = changes.map(|change| change.number).collect();
    numbers.sort_unstable();
    numbers.windows(2).any(|two| two[0] == two[1])
}
