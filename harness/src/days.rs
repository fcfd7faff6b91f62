//! Days to play: from an empty queue, or from one that is nearly full, with benches that tell the truth or lie.

use crate::capi::Answer;
use crate::case::BUFFER;
use crate::events;
use crate::player::{Failure, Player};
use crate::promises::{check, Bench, Broken, Witness};
use crate::queue::{Section, State, CONFIG, EVENT, LENGTH, PARTS};
use crate::random::Random;
use crate::raw;

pub const DAYS: &[&str] = &[
    "truthful benches",
    "lying benches",
    "the same arrivals with another config",
    "from a nearly full queue",
    "4,096 landed from an empty queue",
    "1,024 rejected from an empty queue",
];

/// How a day goes.
#[derive(Clone, Copy)]
pub struct Habits {
    benches: u64,
    depth: u64,
    /// Changes touch 1 to `most_parts` of the first `parts` parts.
    parts: u64,
    most_parts: u64,
    /// Of a hundred events so many submit, withdraw and are broken; the others report.
    submit: u64,
    withdraw: u64,
    broken: u64,
    bench: Bench,
    truthful: bool,
    events: u64,
}

impl Habits {
    fn any(random: &mut Random, truthful: bool) -> Habits {
        Habits {
            benches: random.from_to(1, CONFIG),
            depth: random.from_to(1, CONFIG),
            parts: random.pick(&[1, 2, 4, 4, 10, PARTS]),
            most_parts: random.pick(&[1, 2, 3, 8]),
            submit: random.pick(&[15, 25, 40, 80]),
            withdraw: random.pick(&[0, 0, 3, 12]),
            broken: random.pick(&[0, 5, 10]),
            bench: Bench {
                seed: random.number(),
                rate: random.pick(&[0, 0, 2, 10, 30, 60, 90]),
                faults: random.percent(50),
            },
            truthful,
            events: random.pick(&[20, 60, 120, 200]),
        }
    }

    fn bench(&self) -> Option<Bench> {
        self.truthful.then_some(self.bench)
    }
}

/// A day that is under way, with someone who watches it.
struct Day<'a> {
    player: &'a mut Player,
    random: &'a mut Random,
    habits: Habits,
    witness: Witness,
    number: u64,
    seen: u64,
}

impl Day<'_> {
    /// Opens a queue over whatever the slice holds.
    fn open<'a>(
        player: &'a mut Player,
        random: &'a mut Random,
        habits: Habits,
    ) -> Result<Day<'a>, Failure> {
        let length = random.pick(&[LENGTH, LENGTH, BUFFER]);
        player.start(length, |buffer| {
            if random.percent(20) {
                buffer.fill_with(|| random.number());
            }
        });
        let answer = player.open(habits.benches, habits.depth)?;
        lent_taken(player, answer)?;
        let witness = Witness::new(player.numbers(), habits.bench());
        Ok(Day {
            player,
            random,
            habits,
            witness,
            number: 0,
            seen: 0,
        })
    }

    /// Plays an event; if it is taken the witness sees it.
    fn apply(&mut self, mut event: Vec<u64>) -> Result<Answer, Failure> {
        if self.random.percent(5) && event.len() == EVENT {
            events::fill_unread(self.random, &mut event);
        }
        if self.habits.truthful {
            tell_the_truth(
                self.random,
                &self.habits.bench,
                &self.witness.now,
                &mut event,
            );
        }
        let seen = event.clone();
        let answer = self.player.apply(event)?;
        lent_taken(self.player, answer)?;
        if answer.taken() {
            self.watch(&seen)?;
        }
        Ok(answer)
    }

    fn watch(&mut self, event: &[u64]) -> Result<(), Failure> {
        let (numbers, checks) = self.player.numbers_and_checks();
        self.witness.sees(event, numbers, checks)?;
        self.seen += 1;
        // Serial testing starts over each time, so on a long day it is done less often.
        if self.witness.arrivals.len() < 25 || self.seen.is_multiple_of(64) {
            self.check_serial()?;
        }
        Ok(())
    }

    fn check_serial(&mut self) -> Result<(), Failure> {
        Ok(self
            .witness
            .serial_equivalence(&mut self.player.cover.promises)?)
    }

    fn some_event(&mut self) -> Vec<u64> {
        let Habits {
            submit,
            withdraw,
            broken,
            ..
        } = self.habits;
        let chance = self.random.below(100);
        let nothing_to_report = self.witness.now.running.is_empty() && self.random.percent(90);
        if chance < submit || nothing_to_report {
            self.submission()
        } else if chance < submit + withdraw {
            self.withdrawal()
        } else if chance < submit + withdraw + broken {
            let mut event = events::any(self.random, self.player.numbers());
            if event.len() == EVENT {
                events::break_event(self.random, self.player.numbers(), &mut event);
            }
            event
        } else {
            self.report()
        }
    }

    /// The next number, or now and then one that was there before.
    fn submission(&mut self) -> Vec<u64> {
        let number = match self.random.below(20) {
            0 => self.random.below(self.number + 1),
            _ => {
                self.number += 1;
                self.number
            }
        };
        let Habits {
            parts, most_parts, ..
        } = self.habits;
        events::submit(number, &events::parts(self.random, parts, most_parts))
    }

    fn withdrawal(&mut self) -> Vec<u64> {
        let waiting = &self.witness.now.waiting;
        events::withdraw(match waiting.len() {
            0 => self.random.below(self.number + 1),
            count => waiting[self.random.place(count)].number,
        })
    }

    fn report(&mut self) -> Vec<u64> {
        let good = self.random.percent(60);
        let value = events::value(self.random, good);
        let place = match self.witness.now.running.len() {
            0 => 0,
            count => self.random.below(count as u64),
        };
        events::report(place, value)
    }

    /// Reports until nobody waits; it takes no more of them than the measure says.
    fn drain(&mut self) -> Result<(), Failure> {
        let most = self.witness.measure();
        let mut reports = 0;
        while !self.witness.now.waiting.is_empty() {
            let event = self.report();
            let taken = self.apply(event)?.taken();
            reports += 1;
            let checks = &mut self.player.cover.promises;
            check(checks, "Progress", taken && reports <= most, || {
                format!("report {reports} of at most {most} was taken: {taken}")
            })?;
        }
        self.check_serial()
    }

    fn waiting(&self) -> usize {
        self.witness.now.waiting.len()
    }
}

/// A queue that was opened and stepped is never malformed and always has room for a verdict: no refusal of 1, 2, 3 or
/// of 10 at 0.
fn lent_taken(player: &mut Player, answer: Answer) -> Result<(), Broken> {
    let holds = !matches!((answer.refusal, answer.value), (1..=3, _) | (10, 0));
    check(&mut player.cover.promises, "Lent-taken", holds, || {
        format!("refused {} at {}", answer.refusal, answer.value)
    })
}

/// Makes a report say what the bench says of its run.
fn tell_the_truth(random: &mut Random, bench: &Bench, state: &State, event: &mut [u64]) {
    if event.len() < EVENT || event[0] != 2 {
        return;
    }
    let Some(run) = state.running.get(event[1] as usize) else {
        return;
    };
    event[2] = events::value(random, bench.good(run.part, &run.changes));
}

/// A day with promises checked after every event; if benches tell the truth, then another with the same arrivals and
/// another config.
pub fn any_day(player: &mut Player, random: &mut Random) -> Result<(), Failure> {
    let truthful = random.percent(70);
    let habits = Habits::any(random, truthful);
    let kind = if truthful { DAYS[0] } else { DAYS[1] };
    *player.cover.days.entry(kind).or_default() += 1;
    let mut day = Day::open(player, random, habits)?;
    for _ in 0..habits.events {
        let event = day.some_event();
        day.apply(event)?;
    }
    day.drain()?;
    let first = day.witness;
    if truthful && random.percent(50) {
        *player.cover.days.entry(DAYS[2]).or_default() += 1;
        same_arrivals(player, random, habits, &first)?;
    }
    Ok(())
}

/// Another day with the same arrivals and the same bench, but another config and another order of events, and with
/// changes that come only to be withdrawn.
fn same_arrivals(
    player: &mut Player,
    random: &mut Random,
    habits: Habits,
    first: &Witness,
) -> Result<(), Failure> {
    let habits = Habits {
        benches: random.from_to(1, CONFIG),
        depth: random.from_to(1, CONFIG),
        ..habits
    };
    let is_arrival = |number: &u64| first.arrivals.iter().any(|one| one.number == *number);
    let passing = (1 << 20..).find(|number| !is_arrival(number));
    let passing = passing.expect("arrivals are few");
    let mut day = Day::open(player, random, habits)?;
    for change in &first.arrivals {
        while day.waiting() == Section::Waiting.room() || day.random.percent(60) {
            let event = day.report();
            day.apply(event)?;
        }
        if day.random.percent(5) {
            let parts = events::parts(day.random, habits.parts, habits.most_parts);
            day.apply(events::submit(passing, &parts))?;
            day.apply(events::withdraw(passing))?;
        }
        day.apply(events::submit(change.number, change.parts()))?;
    }
    day.drain()?;
    let second = day.witness;
    assert_eq!(second.arrivals, first.arrivals, "the arrivals are the same");
    second.config_independent(first, &mut player.cover.promises)?;
    Ok(())
}

/// A day from an empty queue until a section is full.
fn full_day(
    player: &mut Player,
    random: &mut Random,
    section: Section,
    rate: u64,
) -> Result<(), Failure> {
    let habits = Habits {
        benches: CONFIG,
        depth: CONFIG,
        parts: PARTS,
        most_parts: 2,
        submit: 45,
        withdraw: 1,
        broken: 1,
        bench: Bench {
            seed: random.number(),
            rate,
            faults: false,
        },
        truthful: true,
        events: 0,
    };
    let mut day = Day::open(player, random, habits)?;
    while (day.player.numbers()[section.count()] as usize) < section.room() {
        let event = day.some_event();
        day.apply(event)?;
    }
    for _ in 0..50 {
        let event = day.some_event();
        day.apply(event)?;
    }
    day.drain()
}

pub fn day_that_fills_landed(player: &mut Player, random: &mut Random) -> Result<(), Failure> {
    *player.cover.days.entry(DAYS[4]).or_default() += 1;
    full_day(player, random, Section::Landed, 2)
}

pub fn day_that_fills_rejected(player: &mut Player, random: &mut Random) -> Result<(), Failure> {
    *player.cover.days.entry(DAYS[5]).or_default() += 1;
    full_day(player, random, Section::Rejected, 60)
}

/// A few well formed events from an empty queue on, so that a day's state can be damaged.
pub fn short_day(player: &mut Player, random: &mut Random) -> Result<(), Failure> {
    player.start(LENGTH, |_| {});
    player.open(random.from_to(1, CONFIG), random.from_to(1, CONFIG))?;
    let parts = random.pick(&[1, 3, 6]);
    let good = random.pick(&[50, 80, 100]);
    for number in 0..random.from_to(2, 30) {
        let running = player.numbers()[Section::Running.count()];
        let event = if running == 0 || random.percent(40) {
            events::submit(number, &events::parts(random, parts, 3))
        } else {
            let good = random.percent(good);
            events::report(random.below(running), events::value(random, good))
        };
        player.apply(event)?;
    }
    Ok(())
}

/// Events on a queue that starts nearly full, until it is full and a while longer.
pub fn nearly_full(player: &mut Player, random: &mut Random) -> Result<(), Failure> {
    *player.cover.days.entry(DAYS[3]).or_default() += 1;
    player.start(LENGTH, |buffer| raw::fill_nearly_full(random, buffer));
    let good = random.pick(&[20, 60, 90]);
    let mut number = 10_000;
    for _ in 0..150 {
        let running = player.numbers()[Section::Running.count()];
        let event = match random.below(20) {
            0 => events::any(random, player.numbers()),
            1..=9 => {
                number += 1;
                events::submit(number, &events::parts(random, PARTS, 3))
            }
            _ => {
                let good = random.percent(good);
                events::report(random.below(running + 1), events::value(random, good))
            }
        };
        player.apply(event)?;
    }
    Ok(())
}
