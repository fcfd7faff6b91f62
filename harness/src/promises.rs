//! The promises of docs/PROMISES.md, checked on the numbers of a day by a witness who writes down the events taken.

use crate::queue::{Change, Run, Section, State, CONFIG, PARTS_OF_CHANGE};
use crate::random::mix;
use std::collections::{BTreeMap, HashSet};
use std::fmt;

pub const PROMISES: &[&str] = &[
    "Serial-equivalence",
    "Every-state-tested",
    "Never-idle",
    "Fully-booked",
    "Only-useful-runs",
    "Each-run-once",
    "Waste-bounded",
    "Decided-when-known",
    "Config-independent",
    "Decisions-final",
    "Verdicts-fit",
    "Progress",
    "Lent-taken",
];

/// A promise that a day did not keep.
#[derive(Debug)]
pub struct Broken {
    pub promise: &'static str,
    pub what: String,
}

impl fmt::Display for Broken {
    fn fmt(&self, f: &mut fmt::Formatter) -> fmt::Result {
        write!(f, "{} is broken: {}", self.promise, self.what)
    }
}

/// How many times each promise was checked.
pub type Checks = BTreeMap<&'static str, u64>;

/// Counts a check, and says what is wrong if it does not hold.
pub fn check(
    checks: &mut Checks,
    promise: &'static str,
    holds: bool,
    what: impl FnOnce() -> String,
) -> Result<(), Broken> {
    *checks.entry(promise).or_default() += 1;
    match holds {
        true => Ok(()),
        false => Err(Broken {
            promise,
            what: what(),
        }),
    }
}

/// A bench that is a function of the state: the same part with the same changes is always the same.
#[derive(Clone, Copy)]
pub struct Bench {
    pub seed: u64,
    /// How many of a hundred are bad.
    pub rate: u64,
    /// Whether the last change alone, or with one before it, is at fault; else every state falls as it likes.
    pub faults: bool,
}

impl Bench {
    pub fn good(&self, part: u64, changes: &[u64]) -> bool {
        let falls = |numbers: &[u64]| {
            let hash = numbers
                .iter()
                .fold(mix(self.seed ^ part), |hash, &number| mix(hash ^ number));
            hash % 100 < self.rate
        };
        match changes {
            [before @ .., last] if self.faults => {
                !falls(&[*last]) && !before.iter().any(|one| falls(&[*one, *last, 1, 2]))
            }
            _ => !falls(changes),
        }
    }
}

/// What a day came to: the lines of the parts, and the numbers landed and rejected, in order of number.
#[derive(Debug, PartialEq, Eq)]
pub struct Ending {
    lines: BTreeMap<u64, Vec<u64>>,
    landed: Vec<u64>,
    rejected: Vec<u64>,
}

impl Ending {
    fn new(landed: &[Change], rejected: &[Change]) -> Ending {
        let mut lines: BTreeMap<u64, Vec<u64>> = BTreeMap::new();
        for change in landed {
            for &part in change.parts() {
                lines.entry(part).or_default().push(change.number);
            }
        }
        let in_order = |changes: &[Change]| {
            let mut numbers: Vec<u64> = changes.iter().map(|change| change.number).collect();
            numbers.sort_unstable();
            numbers
        };
        Ending {
            lines,
            landed: in_order(landed),
            rejected: in_order(rejected),
        }
    }
}

/// Tests changes one at a time: each lands if the bench says good of every part with what landed before it.
fn serial<'a>(changes: impl Iterator<Item = &'a Change>, bench: Bench) -> Ending {
    let mut lines: BTreeMap<u64, Vec<u64>> = BTreeMap::new();
    let (mut landed, mut rejected) = (Vec::new(), Vec::new());
    for change in changes {
        let good = change.parts().iter().all(|&part| {
            let line = lines.entry(part).or_default();
            line.push(change.number);
            let good = bench.good(part, line);
            line.pop();
            good
        });
        if !good {
            rejected.push(*change);
            continue;
        }
        for &part in change.parts() {
            lines.entry(part).or_default().push(change.number);
        }
        landed.push(*change);
    }
    Ending::new(&landed, &rejected)
}

/// Someone who sees the events that are taken and the numbers after each.
pub struct Witness {
    /// What every report says, unless reports lie.
    bench: Option<Bench>,
    /// Submitted and not withdrawn, in the order of arrival.
    pub arrivals: Vec<Change>,
    withdrawn: usize,
    said_good: HashSet<Run>,
    requested: HashSet<Run>,
    requests: usize,
    pub now: State,
    measure: usize,
}

impl Witness {
    /// Comes to a queue that was just opened.
    pub fn new(numbers: &[u64], bench: Option<Bench>) -> Witness {
        Witness {
            bench,
            arrivals: Vec::new(),
            withdrawn: 0,
            said_good: HashSet::new(),
            requested: HashSet::new(),
            requests: 0,
            now: State::read(numbers).expect("a queue that was opened can be read"),
            measure: 0,
        }
    }

    /// Sees an event that was taken and the numbers after it, and checks all that holds after any event.
    pub fn sees(
        &mut self,
        event: &[u64],
        numbers: &[u64],
        checks: &mut Checks,
    ) -> Result<(), Broken> {
        let after = State::read(numbers).map_err(|refusal| Broken {
            promise: "Lent-taken",
            what: format!("the numbers are no queue: {refusal:?}"),
        })?;
        let before = std::mem::replace(&mut self.now, after);
        self.write_down(event, &before);
        self.write_down_requests(event, &before, checks)?;
        let useful = useful(&self.now);
        self.decisions_final(&before, checks)?;
        self.every_state_tested(before.landed.len(), checks)?;
        self.never_idle(checks)?;
        self.fully_booked(&useful, checks)?;
        self.only_useful_runs(&useful, checks)?;
        self.each_run_once(checks)?;
        self.waste_bounded(checks)?;
        self.decided_when_known(checks)?;
        self.verdicts_fit(checks)?;
        self.progress(event, &useful, checks)
    }

    fn write_down(&mut self, event: &[u64], before: &State) {
        match event[0] {
            0 => {
                let parts = &event[3..3 + event[2] as usize];
                self.arrivals.push(Change::new(event[1], parts));
            }
            1 => {
                self.arrivals.retain(|change| change.number != event[1]);
                self.withdrawn += 1;
            }
            _ if event[2] == 1 => {
                self.said_good
                    .insert(before.running[event[1] as usize].clone());
            }
            _ => {}
        }
    }

    /// The count of requests is that of the runs requested, and if nothing was rejected or withdrawn none of them was
    /// requested before.
    fn write_down_requests(
        &mut self,
        event: &[u64],
        before: &State,
        checks: &mut Checks,
    ) -> Result<(), Broken> {
        let kept = self.kept(event, before);
        let new = &self.now.running[kept..];
        self.requests += new.len();
        let (counted, requests) = (self.now.requested, self.requests);
        check(checks, "Each-run-once", counted == requests as u64, || {
            format!("{counted} are counted and {requests} were requested")
        })?;
        let clean = self.now.rejected.is_empty() && self.withdrawn == 0;
        for run in new {
            let once = self.requested.insert(run.clone());
            check(checks, "Each-run-once", once || !clean, || {
                format!("{run:?} is requested twice")
            })?;
        }
        Ok(())
    }

    /// How many run that ran before: these come first and keep their order, and behind them is what was requested.
    fn kept(&self, event: &[u64], before: &State) -> usize {
        let mut ran = before.running.clone();
        if event[0] == 2 {
            ran.remove(event[1] as usize);
        }
        let mut ran = ran.iter();
        let running = self.now.running.iter();
        running.take_while(|run| ran.any(|one| one == *run)).count()
    }

    /// Landed changes keep their places, and so do rejected ones.
    fn decisions_final(&self, before: &State, checks: &mut Checks) -> Result<(), Broken> {
        let holds = self.now.landed.starts_with(&before.landed)
            && self.now.rejected.starts_with(&before.rejected);
        check(checks, "Decisions-final", holds, || {
            "a decided change moved".to_string()
        })
    }

    /// Of each part of each change landed since, a report said good of exactly the changes that touch it up to then.
    fn every_state_tested(&self, from: usize, checks: &mut Checks) -> Result<(), Broken> {
        let landed = &self.now.landed;
        for (place, change) in landed.iter().enumerate().skip(from) {
            for &part in change.parts() {
                let run = Run {
                    part,
                    changes: touching(&landed[..=place], part),
                };
                check(
                    checks,
                    "Every-state-tested",
                    self.said_good.contains(&run),
                    || format!("{} landed, and {run:?} was never good", change.number),
                )?;
            }
        }
        Ok(())
    }

    /// While a change waits, a run is running.
    fn never_idle(&self, checks: &mut Checks) -> Result<(), Broken> {
        let holds = self.now.waiting.is_empty() || !self.now.running.is_empty();
        check(checks, "Never-idle", holds, || {
            "a change waits and no run is running".to_string()
        })
    }

    /// A bench is free only if every useful run is running or known.
    fn fully_booked(&self, useful: &[Run], checks: &mut Checks) -> Result<(), Broken> {
        let free = (self.now.running.len() as u64) < self.now.benches;
        let todo = useful
            .iter()
            .find(|run| !self.now.running.contains(run) && !self.is_known(run));
        check(checks, "Fully-booked", !free || todo.is_none(), || {
            format!("a bench is free and {todo:?} is useful")
        })
    }

    /// At most `benches` run; all that is running or known is useful, and none is so twice.
    fn only_useful_runs(&self, useful: &[Run], checks: &mut Checks) -> Result<(), Broken> {
        let held: Vec<&Run> = self.held().collect();
        let useless = held.iter().find(|run| !useful.contains(run));
        let twice = (1..held.len()).find(|&place| held[..place].contains(&held[place]));
        let few = self.now.running.len() as u64 <= self.now.benches;
        let holds = few && useless.is_none() && twice.is_none();
        check(checks, "Only-useful-runs", holds, || {
            format!("too many: {}, useless: {useless:?}, twice: {twice:?}", !few)
        })
    }

    /// If nothing was rejected or withdrawn: at most one request for each part of each change that landed or waits,
    /// and exactly one once nobody waits.
    fn each_run_once(&self, checks: &mut Checks) -> Result<(), Broken> {
        if !self.now.rejected.is_empty() || self.withdrawn > 0 {
            return Ok(());
        }
        let landed = count_of_parts(&self.now.landed);
        let holds = match count_of_parts(&self.now.waiting) {
            0 => self.requests == landed,
            waiting => self.requests <= landed + waiting,
        };
        check(checks, "Each-run-once", holds, || {
            format!("{} requests for {landed} landed parts", self.requests)
        })
    }

    /// Requests are at most the parts of what landed, and 8 times the depth for each rejection, each withdrawal and
    /// for what is under way.
    fn waste_bounded(&self, checks: &mut Checks) -> Result<(), Broken> {
        let times = self.now.rejected.len() + self.withdrawn + 1;
        let bound = count_of_parts(&self.now.landed) + self.most_useful() * times;
        check(checks, "Waste-bounded", self.requests <= bound, || {
            format!("{} requests, and at most {bound} may be", self.requests)
        })
    }

    /// A change that shares no part with an earlier one that waits has a run on top of what landed of which nothing
    /// is known, and none of which is known that it is bad.
    fn decided_when_known(&self, checks: &mut Checks) -> Result<(), Broken> {
        let waiting = &self.now.waiting;
        for (place, change) in waiting.iter().enumerate() {
            if waiting[..place].iter().any(|one| one.shares_a_part(change)) {
                continue;
            }
            let said: Vec<Option<bool>> = change
                .parts()
                .iter()
                .map(|&part| self.said_of(part, change.number))
                .collect();
            let holds = said.contains(&None) && !said.contains(&Some(false));
            check(checks, "Decided-when-known", holds, || {
                format!("{} waits, and of it is known {said:?}", change.number)
            })?;
        }
        Ok(())
    }

    /// What is known of a part's landed changes and one more.
    fn said_of(&self, part: u64, number: u64) -> Option<bool> {
        let line = self.now.lines.of(part);
        let mut verdicts = self.now.verdicts.iter();
        verdicts
            .find(|verdict| {
                verdict.run.part == part
                    && verdict.run.changes.split_last() == Some((&number, line))
            })
            .map(|verdict| verdict.good)
    }

    /// Verdicts and running runs are at most 8 times the depth, each is its part's whole line and at most `depth`
    /// changes more, fewer than 128 verdicts are held, and the sections have room for every decision to come.
    fn verdicts_fit(&self, checks: &mut Checks) -> Result<(), Broken> {
        let now = &self.now;
        let few = self.held().count() <= self.most_useful()
            && now.verdicts.len() < Section::Verdicts.room();
        let long = self.held().find(|run| {
            let line = now.lines.of(run.part);
            !run.changes.starts_with(line) || run.changes.len() - line.len() > now.depth as usize
        });
        let room = now.waiting.len() <= Section::Waiting.room()
            && now.landed.len() + now.waiting.len() <= Section::Landed.room()
            && now.rejected.len() + now.waiting.len() <= Section::Rejected.room();
        let holds = few && long.is_none() && room && now.benches.max(now.depth) <= CONFIG;
        check(checks, "Verdicts-fit", holds, || {
            format!("few: {few}, room: {room}, too long: {long:?}")
        })
    }

    /// Every report and every withdrawal makes a measure fall, and at 0 nobody waits. The measure here counts for
    /// each change that waits one more than there can be useful runs, and one for each useful run not yet known.
    fn progress(
        &mut self,
        event: &[u64],
        useful: &[Run],
        checks: &mut Checks,
    ) -> Result<(), Broken> {
        let unknown = useful.iter().filter(|run| !self.is_known(run)).count();
        let measure = self.now.waiting.len() * (self.most_useful() + 1) + unknown;
        let before = std::mem::replace(&mut self.measure, measure);
        let holds = event[0] == 0 || measure < before;
        check(checks, "Progress", holds, || {
            format!("the measure was {before} and is {measure}")
        })
    }

    /// How many reports and withdrawals there can be until nobody waits, if nothing is submitted.
    pub fn measure(&self) -> usize {
        self.measure
    }

    /// Test the arrivals that no longer wait one at a time, in the order of arrival: the same lines on every part,
    /// and in all the same numbers landed and rejected. Only if every report is what one bench says.
    pub fn serial_equivalence(&self, checks: &mut Checks) -> Result<(), Broken> {
        let Some(bench) = self.bench else {
            return Ok(());
        };
        let waiting = &self.now.waiting;
        let decided = self
            .arrivals
            .iter()
            .filter(|change| waiting.iter().all(|one| one.number != change.number));
        let (serial, queue) = (serial(decided, bench), self.ending());
        check(checks, "Serial-equivalence", serial == queue, || {
            format!("the queue came to {queue:?}, serial testing to {serial:?}")
        })
    }

    /// Two days with the same arrivals and the same bench come to the same once nobody waits.
    pub fn config_independent(&self, other: &Witness, checks: &mut Checks) -> Result<(), Broken> {
        check(
            checks,
            "Config-independent",
            self.ending() == other.ending(),
            || format!("{:?} and {:?}", self.ending(), other.ending()),
        )
    }

    fn ending(&self) -> Ending {
        Ending::new(&self.now.landed, &self.now.rejected)
    }

    fn is_known(&self, run: &Run) -> bool {
        self.now.verdicts.iter().any(|verdict| verdict.run == *run)
    }

    fn held(&self) -> impl Iterator<Item = &Run> {
        let known = self.now.verdicts.iter().map(|verdict| &verdict.run);
        self.now.running.iter().chain(known)
    }

    fn most_useful(&self) -> usize {
        PARTS_OF_CHANGE * self.now.depth as usize
    }
}

fn count_of_parts(changes: &[Change]) -> usize {
    changes.iter().map(|change| change.parts().len()).sum()
}

/// The numbers of the changes that touch a part.
fn touching(changes: &[Change], part: u64) -> Vec<u64> {
    changes
        .iter()
        .filter(|change| change.touches(part))
        .map(|change| change.number)
        .collect()
}

/// For each of the first `depth` that wait and each of its parts: what landed, what waits before it, and itself, all
/// restricted to the part. Spelled out again here, so that the promises do not lean on the second queue's own.
fn useful(state: &State) -> Vec<Run> {
    let looked_at = state.waiting.len().min(state.depth as usize);
    let runs_of = |place: usize| {
        let up_to_it = &state.waiting[..=place];
        let parts = state.waiting[place].parts().iter();
        parts.map(move |&part| {
            let changes = [state.lines.of(part), &touching(up_to_it, part)].concat();
            Run { part, changes }
        })
    };
    (0..looked_at).flat_map(runs_of).collect()
}
