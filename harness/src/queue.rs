//! The merge queue a second time, on `Vec`s: written from docs/FORMAT.md alone, and plain rather than quick.

use crate::capi::Answer;
use std::collections::BTreeMap;

pub const LENGTH: usize = 54_712;
pub const EVENT: usize = 11;

pub const CHANGE: usize = 10;
pub const RUN: usize = 19;
pub const VERDICT: usize = 20;

pub const PARTS_OF_CHANGE: usize = 8;
pub const FOLLOWING: usize = 16;
pub const PARTS: u64 = 64;
pub const NUMBERS: u64 = 1 << 32;
pub const REQUESTS: u64 = 1 << 32;
pub const CONFIG: u64 = 16;

/// The index of the count of runs requested in all.
pub const REQUESTED: usize = 7;

/// A stretch of the queue that holds records of one kind.
#[derive(Clone, Copy, Debug, PartialEq, Eq)]
pub enum Section {
    Landed,
    Waiting,
    Rejected,
    Verdicts,
    Running,
}

pub const SECTIONS: [Section; 5] = [
    Section::Landed,
    Section::Waiting,
    Section::Rejected,
    Section::Verdicts,
    Section::Running,
];

impl Section {
    /// The index of the section's count.
    pub fn count(self) -> usize {
        2 + self as usize
    }

    /// The index of its first record.
    pub fn start(self) -> usize {
        [8, 40_968, 41_608, 51_848, 54_408][self as usize]
    }

    /// How many records it can hold.
    pub fn room(self) -> usize {
        [4_096, 64, 1_024, 128, 16][self as usize]
    }

    /// How many numbers a record has.
    pub fn width(self) -> usize {
        [CHANGE, CHANGE, CHANGE, VERDICT, RUN][self as usize]
    }

    /// The index at which a record starts.
    pub fn record(self, place: usize) -> usize {
        self.start() + place * self.width()
    }

    /// Where in a record the count stands that says how much of it is used.
    pub fn used(self) -> usize {
        match self {
            Section::Landed | Section::Waiting | Section::Rejected => 1,
            Section::Verdicts | Section::Running => 2,
        }
    }

    /// The most that this count may say.
    pub fn most_used(self) -> usize {
        match self {
            Section::Landed | Section::Waiting | Section::Rejected => PARTS_OF_CHANGE,
            Section::Verdicts | Section::Running => FOLLOWING,
        }
    }
}

/// Why an event is turned away: one for each row of the refusals, and finer where a row has several causes.
#[derive(Clone, Copy, Debug, PartialEq, Eq)]
pub enum Refusal {
    Short { length: usize },
    Count(Section),
    Used { section: Section, index: usize },
    LandedSum,
    RejectedSum,
    Begins { section: Section, index: usize },
    NoBenches,
    ManyBenches,
    NoDepth,
    ManyDepth,
    EventShort,
    EventKind,
    EventNumber,
    Known { section: Section, number: u64 },
    NoParts,
    ManyParts,
    PartAbove { place: usize },
    PartTwice { place: usize },
    NotWaiting { number: u64 },
    NotRunning { place: u64 },
    WaitingFull,
    LandedFull,
    RejectedFull,
    VerdictsFull,
    RequestsFull { kind: u64 },
}

impl Refusal {
    /// The refusal's number and its place.
    pub fn answer(self) -> Answer {
        use Refusal::*;
        let (refusal, value) = match self {
            Short { length } => (1, length as u64),
            Count(section) => (1, section.count() as u64),
            Used { index, .. } | Begins { index, .. } => (1, index as u64),
            LandedSum => (1, Section::Landed.count() as u64),
            RejectedSum => (1, Section::Rejected.count() as u64),
            NoBenches | ManyBenches => (2, 0),
            NoDepth | ManyDepth => (3, 1),
            EventShort | EventKind | EventNumber => (4, 0),
            Known { number, .. } => (5, number),
            NoParts | ManyParts => (6, 8),
            PartAbove { place } | PartTwice { place } => (6, place as u64),
            NotWaiting { number } => (7, number),
            NotRunning { place } => (8, place),
            WaitingFull => (9, 0),
            LandedFull => (9, 1),
            RejectedFull => (9, 2),
            VerdictsFull => (10, 0),
            RequestsFull { .. } => (10, 1),
        };
        Answer { refusal, value }
    }
}

/// A numbered piece of work and the parts it touches.
#[derive(Clone, Copy, Debug, PartialEq, Eq)]
pub struct Change {
    pub number: u64,
    count: usize,
    named: [u64; PARTS_OF_CHANGE],
}

impl Change {
    /// A change of at most eight parts.
    pub fn new(number: u64, parts: &[u64]) -> Change {
        let mut named = [0; PARTS_OF_CHANGE];
        named[..parts.len()].copy_from_slice(parts);
        Change {
            number,
            count: parts.len(),
            named,
        }
    }

    /// Its parts, in the order named.
    pub fn parts(&self) -> &[u64] {
        &self.named[..self.count]
    }

    pub fn touches(&self, part: u64) -> bool {
        self.parts().contains(&part)
    }

    pub fn shares_a_part(&self, other: &Change) -> bool {
        self.parts().iter().any(|&part| other.touches(part))
    }

    /// Reads a change whose count of parts is at most eight.
    fn read(record: &[u64]) -> Change {
        Change::new(record[0], &record[2..2 + record[1] as usize])
    }

    fn write(&self, record: &mut [u64]) {
        record[0] = self.number;
        record[1] = self.count as u64;
        record[2..2 + self.count].copy_from_slice(self.parts());
    }
}

/// A part with the list of all changes in it.
#[derive(Clone, Debug, PartialEq, Eq, Hash)]
pub struct Run {
    pub part: u64,
    pub changes: Vec<u64>,
}

/// What a bench said of a run.
#[derive(Clone, Debug, PartialEq, Eq)]
pub struct Verdict {
    pub run: Run,
    pub good: bool,
}

/// The line of every part that a landed change touches.
#[derive(Clone, Debug)]
pub struct Lines {
    named: Vec<Vec<u64>>,
    beyond: BTreeMap<u64, Vec<u64>>,
}

impl Lines {
    fn of_landed(landed: &[Change]) -> Lines {
        let mut lines = Lines {
            named: vec![Vec::new(); PARTS as usize],
            beyond: BTreeMap::new(),
        };
        for change in landed {
            lines.land(change);
        }
        lines
    }

    pub fn of(&self, part: u64) -> &[u64] {
        let line = if part < PARTS {
            self.named.get(part as usize)
        } else {
            self.beyond.get(&part)
        };
        line.map_or(&[], Vec::as_slice)
    }

    /// A change that names a part twice is in its line once.
    fn land(&mut self, change: &Change) {
        for (place, &part) in change.parts().iter().enumerate() {
            if !change.parts()[..place].contains(&part) {
                self.of_mut(part).push(change.number);
            }
        }
    }

    fn of_mut(&mut self, part: u64) -> &mut Vec<u64> {
        if part < PARTS {
            &mut self.named[part as usize]
        } else {
            self.beyond.entry(part).or_default()
        }
    }
}

/// What the numbers of a queue say.
#[derive(Clone, Debug)]
pub struct State {
    pub benches: u64,
    pub depth: u64,
    pub landed: Vec<Change>,
    pub waiting: Vec<Change>,
    pub rejected: Vec<Change>,
    pub verdicts: Vec<Verdict>,
    pub running: Vec<Run>,
    pub requested: u64,
    pub lines: Lines,
}

/// An event whose numbers are well formed.
enum Event {
    Submit(Change),
    Withdraw(u64),
    Report { place: usize, good: bool },
}

/// What a pass makes of a change that shares no part with an earlier one that waits.
enum Decision {
    Wait,
    Land,
    Reject,
}

/// Writes an empty queue.
pub fn open(queue: &mut [u64], benches: u64, depth: u64) -> Result<u64, Refusal> {
    check_length(queue)?;
    check_config(benches, depth)?;
    queue[..LENGTH].fill(0);
    queue[0] = benches;
    queue[1] = depth;
    Ok(0)
}

/// Applies an event; answers how many runs are running. A refusal leaves every number as it was.
pub fn apply(queue: &mut [u64], event: &[u64]) -> Result<u64, Refusal> {
    let mut state = State::read(queue)?;
    check_config(state.benches, state.depth)?;
    let event = state.check_event(event)?;
    state.take(event);
    state.write(queue);
    Ok(state.running.len() as u64)
}

/// The answer in the form of the C interface.
pub fn answer(result: Result<u64, Refusal>) -> Answer {
    match result {
        Ok(value) => Answer { refusal: 0, value },
        Err(refusal) => refusal.answer(),
    }
}

fn check_length(queue: &[u64]) -> Result<(), Refusal> {
    if queue.len() < LENGTH {
        return Err(Refusal::Short {
            length: queue.len(),
        });
    }
    Ok(())
}

fn check_config(benches: u64, depth: u64) -> Result<(), Refusal> {
    match (benches, depth) {
        (0, _) => Err(Refusal::NoBenches),
        (benches, _) if benches > CONFIG => Err(Refusal::ManyBenches),
        (_, 0) => Err(Refusal::NoDepth),
        (_, depth) if depth > CONFIG => Err(Refusal::ManyDepth),
        _ => Ok(()),
    }
}

/// The counts of the sections, and of what each of their records uses.
fn check_counts(queue: &[u64]) -> Result<(), Refusal> {
    for section in SECTIONS {
        if queue[section.count()] > section.room() as u64 {
            return Err(Refusal::Count(section));
        }
    }
    for section in SECTIONS {
        for place in 0..queue[section.count()] as usize {
            let index = section.record(place) + section.used();
            if queue[index] > section.most_used() as u64 {
                return Err(Refusal::Used { section, index });
            }
        }
    }
    let [landed, waiting, rejected] = [queue[2], queue[3], queue[4]];
    if landed + waiting > Section::Landed.room() as u64 {
        return Err(Refusal::LandedSum);
    }
    if rejected + waiting > Section::Rejected.room() as u64 {
        return Err(Refusal::RejectedSum);
    }
    Ok(())
}

/// The records of a section that its count reaches.
fn records(queue: &[u64], section: Section) -> impl Iterator<Item = &[u64]> {
    queue[section.start()..]
        .chunks_exact(section.width())
        .take(queue[section.count()] as usize)
}

fn read_changes(queue: &[u64], section: Section) -> Vec<Change> {
    records(queue, section).map(Change::read).collect()
}

/// Reads a section's runs, each spelled out in full.
fn read_runs(queue: &[u64], section: Section, lines: &Lines) -> Result<Vec<Run>, Refusal> {
    let mut runs = Vec::new();
    for (place, record) in records(queue, section).enumerate() {
        let line = lines.of(record[0]);
        if record[1] > line.len() as u64 {
            let index = section.record(place);
            return Err(Refusal::Begins { section, index });
        }
        let (begins, follows) = (record[1] as usize, record[2] as usize);
        let changes = [&line[..begins], &record[3..3 + follows]].concat();
        runs.push(Run {
            part: record[0],
            changes,
        });
    }
    Ok(runs)
}

impl State {
    /// Reads a queue's numbers, or says what keeps them from being a queue.
    pub fn read(queue: &[u64]) -> Result<State, Refusal> {
        check_length(queue)?;
        check_counts(queue)?;
        let landed = read_changes(queue, Section::Landed);
        let lines = Lines::of_landed(&landed);
        let known = read_runs(queue, Section::Verdicts, &lines)?;
        let good = records(queue, Section::Verdicts).map(|record| record[RUN] == 1);
        Ok(State {
            benches: queue[0],
            depth: queue[1],
            waiting: read_changes(queue, Section::Waiting),
            rejected: read_changes(queue, Section::Rejected),
            verdicts: known
                .into_iter()
                .zip(good)
                .map(|(run, good)| Verdict { run, good })
                .collect(),
            running: read_runs(queue, Section::Running, &lines)?,
            requested: queue[REQUESTED],
            landed,
            lines,
        })
    }

    /// Writes the state in canonical form; what lies behind the queue stays.
    pub fn write(&self, queue: &mut [u64]) {
        queue[..LENGTH].fill(0);
        queue[0] = self.benches;
        queue[1] = self.depth;
        queue[REQUESTED] = self.requested;
        for (section, changes) in [
            (Section::Landed, &self.landed),
            (Section::Waiting, &self.waiting),
            (Section::Rejected, &self.rejected),
        ] {
            queue[section.count()] = changes.len() as u64;
            for (place, change) in changes.iter().enumerate() {
                change.write(&mut queue[section.record(place)..]);
            }
        }
        queue[Section::Verdicts.count()] = self.verdicts.len() as u64;
        for (place, verdict) in self.verdicts.iter().enumerate() {
            let record = &mut queue[Section::Verdicts.record(place)..];
            self.write_run(&verdict.run, record);
            record[RUN] = verdict.good as u64;
        }
        queue[Section::Running.count()] = self.running.len() as u64;
        for (place, run) in self.running.iter().enumerate() {
            self.write_run(run, &mut queue[Section::Running.record(place)..]);
        }
    }

    /// A run that is kept is useful, so it begins with its part's whole line.
    fn write_run(&self, run: &Run, record: &mut [u64]) {
        let begins = self.lines.of(run.part).len();
        let following = &run.changes[begins..];
        record[0] = run.part;
        record[1] = begins as u64;
        record[2] = following.len() as u64;
        record[3..3 + following.len()].copy_from_slice(following);
    }

    /// Reads an event, or says why this state does not take it.
    fn check_event(&self, event: &[u64]) -> Result<Event, Refusal> {
        if event.len() < EVENT {
            return Err(Refusal::EventShort);
        }
        if event[0] > 2 {
            return Err(Refusal::EventKind);
        }
        if event[1] >= NUMBERS {
            return Err(Refusal::EventNumber);
        }
        let checked = match event[0] {
            0 => self.check_submit(&event[1..EVENT])?,
            1 => self.check_withdraw(event[1])?,
            _ => self.check_report(event[1], event[2])?,
        };
        if self.requested >= REQUESTS {
            return Err(Refusal::RequestsFull { kind: event[0] });
        }
        Ok(checked)
    }

    fn check_submit(&self, record: &[u64]) -> Result<Event, Refusal> {
        let number = record[0];
        for (section, changes) in [
            (Section::Landed, &self.landed),
            (Section::Waiting, &self.waiting),
            (Section::Rejected, &self.rejected),
        ] {
            if changes.iter().any(|change| change.number == number) {
                return Err(Refusal::Known { section, number });
            }
        }
        check_parts(record)?;
        if self.waiting.len() == Section::Waiting.room() {
            return Err(Refusal::WaitingFull);
        }
        if self.landed.len() + self.waiting.len() == Section::Landed.room() {
            return Err(Refusal::LandedFull);
        }
        if self.rejected.len() + self.waiting.len() == Section::Rejected.room() {
            return Err(Refusal::RejectedFull);
        }
        Ok(Event::Submit(Change::read(record)))
    }

    fn check_withdraw(&self, number: u64) -> Result<Event, Refusal> {
        if self.waiting.iter().all(|change| change.number != number) {
            return Err(Refusal::NotWaiting { number });
        }
        Ok(Event::Withdraw(number))
    }

    fn check_report(&self, place: u64, value: u64) -> Result<Event, Refusal> {
        if place >= self.running.len() as u64 {
            return Err(Refusal::NotRunning { place });
        }
        if self.verdicts.len() == Section::Verdicts.room() {
            return Err(Refusal::VerdictsFull);
        }
        Ok(Event::Report {
            place: place as usize,
            good: value == 1,
        })
    }

    /// The three things that an event does.
    fn take(&mut self, event: Event) {
        self.record(event);
        self.pass();
        self.plan();
    }

    fn record(&mut self, event: Event) {
        match event {
            Event::Submit(change) => self.waiting.push(change),
            Event::Withdraw(number) => {
                let first = self
                    .waiting
                    .iter()
                    .position(|change| change.number == number);
                self.waiting
                    .remove(first.expect("a withdrawn change waits"));
            }
            Event::Report { place, good } => {
                let run = self.running.remove(place);
                self.verdicts.push(Verdict { run, good });
            }
        }
    }

    /// Once through those that wait, in order, deciding each.
    fn pass(&mut self) {
        let mut still_waiting: Vec<Change> = Vec::new();
        for change in std::mem::take(&mut self.waiting) {
            if still_waiting
                .iter()
                .any(|earlier| earlier.shares_a_part(&change))
            {
                still_waiting.push(change);
                continue;
            }
            match self.decide(&change) {
                Decision::Wait => still_waiting.push(change),
                Decision::Reject => self.rejected.push(change),
                Decision::Land => {
                    self.lines.land(&change);
                    self.landed.push(change);
                }
            }
        }
        self.waiting = still_waiting;
    }

    /// What the verdicts held say of a change on top of what has landed by now.
    fn decide(&self, change: &Change) -> Decision {
        let mut said = change.parts().iter().map(|&part| {
            let changes = [self.lines.of(part), &[change.number]].concat();
            self.known(&Run { part, changes })
        });
        let mut all_good = true;
        if said.any(|verdict| {
            all_good &= verdict == Some(true);
            verdict == Some(false)
        }) {
            Decision::Reject
        } else if all_good {
            Decision::Land
        } else {
            Decision::Wait
        }
    }

    /// What is known of a run: of two verdicts on it the first counts.
    fn known(&self, run: &Run) -> Option<bool> {
        self.verdicts
            .iter()
            .find(|verdict| verdict.run == *run)
            .map(|verdict| verdict.good)
    }

    /// Cancels and drops what is not useful, and requests what is.
    fn plan(&mut self) {
        let useful = self.useful();
        self.running.retain(|run| useful.contains(run));
        self.verdicts
            .retain(|verdict| useful.contains(&verdict.run));
        for run in useful {
            if self.running.len() as u64 >= self.benches {
                break;
            }
            if !self.running.contains(&run) && self.known(&run).is_none() {
                self.running.push(run);
                self.requested += 1;
            }
        }
    }

    /// The runs a decision may rest on, in the order in which they are requested.
    pub fn useful(&self) -> Vec<Run> {
        let mut useful = Vec::new();
        for (place, change) in self.waiting.iter().enumerate().take(self.depth as usize) {
            for &part in change.parts() {
                let mut changes = self.lines.of(part).to_vec();
                let up_to_it = self.waiting[..=place].iter();
                changes.extend(
                    up_to_it
                        .filter(|change| change.touches(part))
                        .map(|change| change.number),
                );
                useful.push(Run { part, changes });
            }
        }
        useful
    }
}

/// The count of parts of a change that is submitted, and each part.
fn check_parts(record: &[u64]) -> Result<(), Refusal> {
    if record[1] == 0 {
        return Err(Refusal::NoParts);
    }
    if record[1] > PARTS_OF_CHANGE as u64 {
        return Err(Refusal::ManyParts);
    }
    let parts = &record[2..2 + record[1] as usize];
    for (place, part) in parts.iter().enumerate() {
        if *part >= PARTS {
            return Err(Refusal::PartAbove { place });
        }
        if parts[..place].contains(part) {
            return Err(Refusal::PartTwice { place });
        }
    }
    Ok(())
}
