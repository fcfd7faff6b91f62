//! The queue of docs/FORMAT.md in Rust, written for speed over the lent slice: the same numbers and the same answers, no proof.

use crate::capi::Answer;

pub const QUEUE_LENGTH: usize = 54_712;
pub const EVENT_LENGTH: usize = 11;

const MOST_LANDED: usize = 4096;
const MOST_WAITING: usize = 64;
const MOST_REJECTED: usize = 1024;
const MOST_VERDICTS: usize = 128;
const MOST_RUNNING: usize = 16;
const MOST_BENCHES: u64 = 16;
const MOST_DEPTH: u64 = 16;
const MOST_PARTS: u64 = 8;
const MOST_FOLLOWING: u64 = 16;
const NUMBER_LIMIT: u64 = 1 << 32;

const BENCHES_AT: usize = 0;
const DEPTH_AT: usize = 1;
const LANDED_COUNT: usize = 2;
const WAITING_COUNT: usize = 3;
const REJECTED_COUNT: usize = 4;
const VERDICTS_COUNT: usize = 5;
const RUNNING_COUNT: usize = 6;
const REQUESTED_AT: usize = 7;
const LANDED_AT: usize = 8;
const WAITING_AT: usize = LANDED_AT + CHANGE_WIDTH * MOST_LANDED;
const REJECTED_AT: usize = WAITING_AT + CHANGE_WIDTH * MOST_WAITING;
const VERDICTS_AT: usize = REJECTED_AT + CHANGE_WIDTH * MOST_REJECTED;
const RUNNING_AT: usize = VERDICTS_AT + VERDICT_WIDTH * MOST_VERDICTS;

const CHANGE_WIDTH: usize = 10;
const RUN_WIDTH: usize = 19;
const VERDICT_WIDTH: usize = 20;
const PARTS_AT: usize = 2;
const NUMBERS_AT: usize = 3;

/// Parts below this have a place in tables; the others stand only in slices that no queue wrote, and are looked for.
const PARTS: usize = 64;

type Change = [u64; CHANGE_WIDTH];
type Verdict = [u64; VERDICT_WIDTH];
type Tally = [u64; PARTS];

/// The lent queue, each section as its records.
struct Queue<'a> {
    head: &'a mut [u64; LANDED_AT],
    landed: &'a mut [Change],
    waiting: &'a mut [Change],
    rejected: &'a mut [Change],
    verdicts: &'a mut [Verdict],
    running: &'a mut [[u64; RUN_WIDTH]],
}

#[derive(Clone, Copy)]
struct Counts {
    landed: usize,
    waiting: usize,
    rejected: usize,
    verdicts: usize,
    running: usize,
}

/// What one walk over the changes of a section finds beside its refusal.
#[derive(Clone, Copy)]
struct Walk {
    /// One of them has the event's number.
    used: bool,
    /// Some part that is not used is not 0.
    untidy: bool,
}

/// What the checks of the whole queue find.
struct Found {
    counts: Counts,
    tally: Tally,
    landed: Walk,
    waiting: Walk,
    rejected: Walk,
}

/// Writes an empty queue of the config over the slice.
pub fn open(queue: &mut [u64], benches: u64, depth: u64) -> Answer {
    if queue.len() < QUEUE_LENGTH {
        return refused(1, queue.len());
    }
    if let Err(refusal) = check_config(benches, depth) {
        return refusal;
    }
    queue[..QUEUE_LENGTH].fill(0);
    queue[BENCHES_AT] = benches;
    queue[DEPTH_AT] = depth;
    Answer {
        refusal: 0,
        value: 0,
    }
}

/// Applies an event to the queue; a refusal leaves every number as it was.
pub fn apply(queue: &mut [u64], event: &[u64]) -> Answer {
    match step(queue, event) {
        Ok(running) => Answer {
            refusal: 0,
            value: running,
        },
        Err(refusal) => refusal,
    }
}

fn step(numbers: &mut [u64], event: &[u64]) -> Result<u64, Answer> {
    let length = numbers.len();
    let mut queue = sections(numbers).ok_or(refused(1, length))?;
    let number = event.get(1).copied().unwrap_or(0);
    let mut found = check_queue(&queue, number)?;
    check_config(queue.head[BENCHES_AT], queue.head[DEPTH_AT])?;
    if event.len() < EVENT_LENGTH || number >= NUMBER_LIMIT {
        return Err(refused(4, 0));
    }
    match event[0] {
        0 => submit(&mut queue, &found, event)?,
        1 => withdraw(&mut queue, &found, number)?,
        2 => report(&mut queue, &found, number, event[2] == 1)?,
        _ => return Err(refused(4, 0)),
    }
    pass(&mut queue, &mut found.tally);
    plan(&mut queue, &found.tally);
    Ok(queue.head[RUNNING_COUNT])
}

fn refused(refusal: u64, place: usize) -> Answer {
    Answer {
        refusal,
        value: place as u64,
    }
}

fn sections(numbers: &mut [u64]) -> Option<Queue<'_>> {
    let (head, rest) = numbers.get_mut(..QUEUE_LENGTH)?.split_first_chunk_mut()?;
    let (landed, rest) = rest.split_at_mut(WAITING_AT - LANDED_AT);
    let (waiting, rest) = rest.split_at_mut(REJECTED_AT - WAITING_AT);
    let (rejected, rest) = rest.split_at_mut(VERDICTS_AT - REJECTED_AT);
    let (verdicts, running) = rest.split_at_mut(RUNNING_AT - VERDICTS_AT);
    Some(Queue {
        head,
        landed: landed.as_chunks_mut().0,
        waiting: waiting.as_chunks_mut().0,
        rejected: rejected.as_chunks_mut().0,
        verdicts: verdicts.as_chunks_mut().0,
        running: running.as_chunks_mut().0,
    })
}

/// The rows of refusal 1. One walk over the landed changes checks, tallies, and looks for the number and for what is to be tidied.
fn check_queue(queue: &Queue, number: u64) -> Result<Found, Answer> {
    let counts = check_counts(queue.head)?;
    let mut tally = [0; PARTS];
    let landed = walk_landed(&queue.landed[..counts.landed], number, &mut tally)
        .map_err(|i| refused(1, LANDED_AT + CHANGE_WIDTH * i + 1))?;
    let waiting = walk(&queue.waiting[..counts.waiting], number)
        .map_err(|i| refused(1, WAITING_AT + CHANGE_WIDTH * i + 1))?;
    let rejected = walk(&queue.rejected[..counts.rejected], number)
        .map_err(|i| refused(1, REJECTED_AT + CHANGE_WIDTH * i + 1))?;
    let verdicts = &queue.verdicts[..counts.verdicts];
    let running = &queue.running[..counts.running];
    check_following(verdicts, VERDICTS_AT)?;
    check_following(running, RUNNING_AT)?;
    if counts.landed + counts.waiting > MOST_LANDED {
        return Err(refused(1, LANDED_COUNT));
    }
    if counts.rejected + counts.waiting > MOST_REJECTED {
        return Err(refused(1, REJECTED_COUNT));
    }
    check_begins(
        verdicts,
        VERDICTS_AT,
        &tally,
        &queue.landed[..counts.landed],
    )?;
    check_begins(running, RUNNING_AT, &tally, &queue.landed[..counts.landed])?;
    Ok(Found {
        counts,
        tally,
        landed,
        waiting,
        rejected,
    })
}

fn check_counts(head: &[u64; LANDED_AT]) -> Result<Counts, Answer> {
    let count = |at: usize, most: usize| {
        if head[at] > most as u64 {
            Err(refused(1, at))
        } else {
            Ok(head[at] as usize)
        }
    };
    Ok(Counts {
        landed: count(LANDED_COUNT, MOST_LANDED)?,
        waiting: count(WAITING_COUNT, MOST_WAITING)?,
        rejected: count(REJECTED_COUNT, MOST_REJECTED)?,
        verdicts: count(VERDICTS_COUNT, MOST_VERDICTS)?,
        running: count(RUNNING_COUNT, MOST_RUNNING)?,
    })
}

/// The walk over the landed changes, which counts them at their parts; or the first of them that has too many parts.
fn walk_landed(changes: &[Change], number: u64, tally: &mut Tally) -> Result<Walk, usize> {
    let mut used = false;
    let mut unused = 0;
    for (i, change) in changes.iter().enumerate() {
        used |= change[0] == number;
        // One arm for each count, so that none has a loop whose end is to be guessed.
        unused |= match change[1] {
            0 => count_parts::<0>(change, tally),
            1 => count_parts::<1>(change, tally),
            2 => count_parts::<2>(change, tally),
            3 => count_parts::<3>(change, tally),
            4 => count_parts::<4>(change, tally),
            5 => count_parts::<5>(change, tally),
            6 => count_parts::<6>(change, tally),
            7 => count_parts::<7>(change, tally),
            8 => count_parts::<8>(change, tally),
            _ => return Err(i),
        };
    }
    Ok(Walk {
        used,
        untidy: unused != 0,
    })
}

/// Counts a change of N parts at each, once however often it names it; all bits of the parts that it does not use.
#[inline(always)]
fn count_parts<const N: usize>(change: &Change, tally: &mut Tally) -> u64 {
    let mut seen = 0u64;
    for &part in &change[PARTS_AT..PARTS_AT + N] {
        if part < PARTS as u64 {
            let bit = 1 << part;
            tally[part as usize] += u64::from(seen & bit == 0);
            seen |= bit;
        }
    }
    change[PARTS_AT + N..]
        .iter()
        .fold(0, |bits, part| bits | part)
}

fn walk(changes: &[Change], number: u64) -> Result<Walk, usize> {
    let mut used = false;
    let mut unused = 0;
    for (i, change) in changes.iter().enumerate() {
        if change[1] > MOST_PARTS {
            return Err(i);
        }
        used |= change[0] == number;
        for &part in &change[PARTS_AT + change[1] as usize..] {
            unused |= part;
        }
    }
    Ok(Walk {
        used,
        untidy: unused != 0,
    })
}

fn check_following<const W: usize>(runs: &[[u64; W]], base: usize) -> Result<(), Answer> {
    match runs.iter().position(|run| run[2] > MOST_FOLLOWING) {
        Some(k) => Err(refused(1, base + W * k + 2)),
        None => Ok(()),
    }
}

fn check_begins<const W: usize>(
    runs: &[[u64; W]],
    base: usize,
    tally: &Tally,
    landed: &[Change],
) -> Result<(), Answer> {
    match runs
        .iter()
        .position(|run| run[1] > count_of(tally, landed, run[0]))
    {
        Some(k) => Err(refused(1, base + W * k)),
        None => Ok(()),
    }
}

fn check_config(benches: u64, depth: u64) -> Result<(), Answer> {
    if !(1..=MOST_BENCHES).contains(&benches) {
        return Err(refused(2, BENCHES_AT));
    }
    if !(1..=MOST_DEPTH).contains(&depth) {
        return Err(refused(3, DEPTH_AT));
    }
    Ok(())
}

fn check_requests(queue: &Queue) -> Result<(), Answer> {
    if queue.head[REQUESTED_AT] >= NUMBER_LIMIT {
        return Err(refused(10, 1));
    }
    Ok(())
}

/// A change is submitted: it joins those that wait, last.
fn submit(queue: &mut Queue, found: &Found, event: &[u64]) -> Result<(), Answer> {
    if found.landed.used || found.waiting.used || found.rejected.used {
        return Err(refused(5, event[1] as usize));
    }
    check_parts(event)?;
    let counts = found.counts;
    if counts.waiting == MOST_WAITING {
        return Err(refused(9, 0));
    }
    if counts.landed + counts.waiting == MOST_LANDED {
        return Err(refused(9, 1));
    }
    if counts.rejected + counts.waiting == MOST_REJECTED {
        return Err(refused(9, 2));
    }
    check_requests(queue)?;
    tidy(queue, found);
    let used = PARTS_AT + event[2] as usize;
    queue.waiting[counts.waiting][..used].copy_from_slice(&event[1..1 + used]);
    queue.head[WAITING_COUNT] += 1;
    Ok(())
}

fn check_parts(event: &[u64]) -> Result<(), Answer> {
    if event[2] == 0 || event[2] > MOST_PARTS {
        return Err(refused(6, MOST_PARTS as usize));
    }
    let mut seen = 0u64;
    for (i, &part) in event[3..3 + event[2] as usize].iter().enumerate() {
        if part >= PARTS as u64 || seen & 1 << part != 0 {
            return Err(refused(6, i));
        }
        seen |= 1 << part;
    }
    Ok(())
}

/// A change is withdrawn: the first that waits with the number waits no more.
fn withdraw(queue: &mut Queue, found: &Found, number: u64) -> Result<(), Answer> {
    let waiting = found.counts.waiting;
    let place = queue.waiting[..waiting]
        .iter()
        .position(|change| change[0] == number);
    let place = place.ok_or(refused(7, number as usize))?;
    check_requests(queue)?;
    tidy(queue, found);
    queue.waiting.copy_within(place + 1..waiting, place);
    queue.waiting[waiting - 1] = [0; CHANGE_WIDTH];
    queue.head[WAITING_COUNT] -= 1;
    Ok(())
}

/// A verdict comes in: the run leaves the running, and the verdict joins those held, last.
fn report(queue: &mut Queue, found: &Found, place: u64, good: bool) -> Result<(), Answer> {
    let Counts {
        verdicts, running, ..
    } = found.counts;
    if place >= running as u64 {
        return Err(refused(8, place as usize));
    }
    if verdicts == MOST_VERDICTS {
        return Err(refused(10, 0));
    }
    check_requests(queue)?;
    tidy(queue, found);
    let place = place as usize;
    queue.verdicts[verdicts][..RUN_WIDTH].copy_from_slice(&queue.running[place]);
    queue.verdicts[verdicts][RUN_WIDTH] = u64::from(good);
    queue.running.copy_within(place + 1..running, place);
    queue.head[VERDICTS_COUNT] += 1;
    queue.head[RUNNING_COUNT] -= 1;
    Ok(())
}

/// Leaves 0 in every place of the changes' sections that is not used.
fn tidy(queue: &mut Queue, found: &Found) {
    tidy_changes(queue.landed, found.counts.landed, found.landed);
    tidy_changes(queue.waiting, found.counts.waiting, found.waiting);
    tidy_changes(queue.rejected, found.counts.rejected, found.rejected);
}

fn tidy_changes(changes: &mut [Change], count: usize, walk: Walk) {
    let (held, behind) = changes.split_at_mut(count);
    if walk.untidy {
        for change in held {
            let used = change[1] as usize;
            change[PARTS_AT + used..].fill(0);
        }
    }
    behind.as_flattened_mut().fill(0);
}

fn parts(change: &Change) -> &[u64] {
    &change[PARTS_AT..PARTS_AT + change[1].min(MOST_PARTS) as usize]
}

fn touches(change: &Change, part: u64) -> bool {
    parts(change).contains(&part)
}

/// How many landed changes the part has.
fn count_of(tally: &Tally, landed: &[Change], part: u64) -> u64 {
    match tally.get(part as usize) {
        Some(&count) => count,
        None => landed.iter().filter(|change| touches(change, part)).count() as u64,
    }
}

/// Whether these numbers are the last of the part's line.
fn ends_line(landed: &[Change], part: u64, numbers: &[u64]) -> bool {
    let mut line = landed.iter().rev().filter(|change| touches(change, part));
    numbers
        .iter()
        .rev()
        .all(|&number| line.next().is_some_and(|change| change[0] == number))
}

/// The parts of those that still wait.
#[derive(Default)]
struct Held {
    parts: u64,
    /// One of them has a part that has no bit.
    more: bool,
}

impl Held {
    fn of(change: &Change) -> Held {
        let mut held = Held::default();
        for &part in parts(change) {
            if part < PARTS as u64 {
                held.parts |= 1 << part;
            } else {
                held.more = true;
            }
        }
        held
    }

    fn add(&mut self, other: Held) {
        self.parts |= other.parts;
        self.more |= other.more;
    }
}

/// For each part its first verdict, and for each verdict the next of its part.
struct Chains {
    first: [u8; PARTS],
    next: [u8; MOST_VERDICTS],
}

const NONE: u8 = u8::MAX;

impl Chains {
    fn of(verdicts: &[Verdict]) -> Chains {
        let mut chains = Chains {
            first: [NONE; PARTS],
            next: [NONE; MOST_VERDICTS],
        };
        for (k, verdict) in verdicts.iter().enumerate().rev() {
            if let Some(first) = chains.first.get_mut(verdict[0] as usize) {
                chains.next[k] = *first;
                *first = k as u8;
            }
        }
        chains
    }

    /// The first of the part's verdicts that is wanted, and whether it is good.
    fn find(
        &self,
        verdicts: &[Verdict],
        part: u64,
        wanted: impl Fn(&Verdict) -> bool,
    ) -> Option<bool> {
        let Some(&first) = self.first.get(part as usize) else {
            let verdict = verdicts.iter().find(|v| v[0] == part && wanted(v))?;
            return Some(verdict[RUN_WIDTH] == 1);
        };
        let mut at = first;
        while let Some(verdict) = verdicts.get(at as usize) {
            if wanted(verdict) {
                return Some(verdict[RUN_WIDTH] == 1);
            }
            at = self.next[at as usize];
        }
        None
    }
}

enum Decision {
    Wait,
    Land,
    Reject,
}

/// Once through those that wait, in order: each waits, lands or is rejected.
fn pass(queue: &mut Queue, tally: &mut Tally) {
    let waiting = queue.head[WAITING_COUNT] as usize;
    let verdicts = queue.head[VERDICTS_COUNT] as usize;
    let chains = Chains::of(&queue.verdicts[..verdicts]);
    let mut held = Held::default();
    let mut still = 0;
    for i in 0..waiting {
        let own = Held::of(&queue.waiting[i]);
        match decide(queue, tally, &chains, &held, &own, still, i) {
            Decision::Wait => {
                if still != i {
                    queue.waiting[still] = queue.waiting[i];
                }
                still += 1;
                held.add(own);
            }
            Decision::Land => land(queue, tally, i),
            Decision::Reject => reject(queue, i),
        }
    }
    queue.waiting[still..waiting].fill([0; CHANGE_WIDTH]);
    queue.head[WAITING_COUNT] = still as u64;
}

/// What becomes of the change at place i, when the first `still` of those that wait stay.
fn decide(
    queue: &Queue,
    tally: &Tally,
    chains: &Chains,
    held: &Held,
    own: &Held,
    still: usize,
    i: usize,
) -> Decision {
    let change = &queue.waiting[i];
    if held.parts & own.parts != 0 {
        return Decision::Wait;
    }
    if held.more
        && own.more
        && queue.waiting[..still]
            .iter()
            .any(|other| shares(change, other))
    {
        return Decision::Wait;
    }
    let verdicts = &queue.verdicts[..queue.head[VERDICTS_COUNT] as usize];
    let landed = &queue.landed[..queue.head[LANDED_COUNT] as usize];
    let mut decision = Decision::Land;
    for &part in parts(change) {
        let begins = count_of(tally, landed, part);
        let on_top = |verdict: &Verdict| is_on_top(verdict, begins, change[0], landed);
        match chains.find(verdicts, part, on_top) {
            Some(true) => {}
            Some(false) => return Decision::Reject,
            None => decision = Decision::Wait,
        }
    }
    decision
}

fn shares(change: &Change, other: &Change) -> bool {
    parts(change).iter().any(|&part| touches(other, part))
}

/// Whether the verdict is on its part's line, which has so many numbers, and then this one.
fn is_on_top(verdict: &Verdict, begins: u64, number: u64, landed: &[Change]) -> bool {
    let past = begins - verdict[1];
    if verdict[2] != past + 1 {
        return false;
    }
    let past = past as usize;
    verdict[NUMBERS_AT + past] == number
        && ends_line(landed, verdict[0], &verdict[NUMBERS_AT..NUMBERS_AT + past])
}

fn land(queue: &mut Queue, tally: &mut Tally, i: usize) {
    let change = queue.waiting[i];
    queue.landed[queue.head[LANDED_COUNT] as usize] = change;
    queue.head[LANDED_COUNT] += 1;
    let mut touched = Held::of(&change).parts;
    while touched != 0 {
        tally[touched.trailing_zeros() as usize] += 1;
        touched &= touched - 1;
    }
}

fn reject(queue: &mut Queue, i: usize) {
    queue.rejected[queue.head[REJECTED_COUNT] as usize] = queue.waiting[i];
    queue.head[REJECTED_COUNT] += 1;
}

/// A part's useful runs: one for each change looked at that touches it, whose bit is set, with all before it that touch it.
#[derive(Clone, Copy, Default)]
struct Useful {
    touching: u16,
    /// Those that run or are known.
    present: u16,
}

/// The changes that are looked at, and the useful runs of each part.
struct Ahead {
    numbers: [u64; MOST_DEPTH as usize],
    useful: [Useful; PARTS],
    /// Those of parts that have no place in the table.
    more: Vec<(u64, Useful)>,
}

impl Ahead {
    fn of(changes: &[Change]) -> Ahead {
        let mut ahead = Ahead {
            numbers: [0; MOST_DEPTH as usize],
            useful: [Useful::default(); PARTS],
            more: Vec::new(),
        };
        for (i, change) in changes.iter().enumerate() {
            ahead.numbers[i] = change[0];
            for &part in parts(change) {
                ahead.useful(part).touching |= 1 << i;
            }
        }
        ahead
    }

    fn useful(&mut self, part: u64) -> &mut Useful {
        if part < PARTS as u64 {
            return &mut self.useful[part as usize];
        }
        let place = self
            .more
            .iter()
            .position(|line| line.0 == part)
            .unwrap_or_else(|| {
                self.more.push((part, Useful::default()));
                self.more.len() - 1
            });
        &mut self.more[place].1
    }

    /// The last change of the useful run that has these numbers behind the landed ones, if there is one.
    fn last_of(&mut self, part: u64, numbers: &[u64]) -> Option<u32> {
        let mut touching = self.useful(part).touching;
        let mut last = None;
        for &number in numbers {
            let next = touching.trailing_zeros();
            if touching == 0 || self.numbers[next as usize & 15] != number {
                return None;
            }
            touching &= touching - 1;
            last = Some(next);
        }
        last
    }
}

/// Drops the verdicts and cancels the runs that are not useful, then requests useful runs while a bench is free.
fn plan(queue: &mut Queue, tally: &Tally) {
    let looked_at = queue.head[DEPTH_AT].min(queue.head[WAITING_COUNT]) as usize;
    let landed = &queue.landed[..queue.head[LANDED_COUNT] as usize];
    let waiting = &queue.waiting[..looked_at];
    let mut ahead = Ahead::of(waiting);
    let held = queue.head[VERDICTS_COUNT] as usize;
    let known = keep(queue.verdicts, held, tally, landed, &mut ahead);
    for verdict in &mut queue.verdicts[..known] {
        verdict[RUN_WIDTH] = u64::from(verdict[RUN_WIDTH] == 1);
    }
    queue.head[VERDICTS_COUNT] = known as u64;
    let running = queue.head[RUNNING_COUNT] as usize;
    let still = keep(queue.running, running, tally, landed, &mut ahead);
    let benches = queue.head[BENCHES_AT] as usize;
    let count = request(
        queue.running,
        still,
        benches,
        waiting,
        tally,
        landed,
        &mut ahead,
    );
    queue.head[RUNNING_COUNT] = count as u64;
    queue.head[REQUESTED_AT] += (count - still) as u64;
}

/// Keeps the useful of the first `count` records, in order, each written anew, and 0 behind them; says how many.
fn keep<const W: usize>(
    records: &mut [[u64; W]],
    count: usize,
    tally: &Tally,
    landed: &[Change],
    ahead: &mut Ahead,
) -> usize {
    let mut kept = 0;
    for k in 0..count {
        let (part, begins, follows) = (records[k][0], records[k][1], records[k][2]);
        let all = count_of(tally, landed, part);
        let past = all - begins;
        if past >= follows {
            continue;
        }
        let (past, follows) = (past as usize, follows as usize);
        let numbers = &records[k][NUMBERS_AT..NUMBERS_AT + follows];
        let Some(last) = ahead.last_of(part, &numbers[past..]) else {
            continue;
        };
        if past > 0 && !ends_line(landed, part, &numbers[..past]) {
            continue;
        }
        ahead.useful(part).present |= 1 << last;
        if kept != k {
            records[kept] = records[k];
        }
        let record = &mut records[kept];
        if past > 0 {
            record[1] = all;
            record[2] = (follows - past) as u64;
            record.copy_within(NUMBERS_AT + past..NUMBERS_AT + follows, NUMBERS_AT);
        }
        record[NUMBERS_AT + follows - past..RUN_WIDTH].fill(0);
        kept += 1;
    }
    records[kept..].as_flattened_mut().fill(0);
    kept
}

/// Requests useful runs that neither run nor are known, while a bench is free; says how many run.
fn request(
    running: &mut [[u64; RUN_WIDTH]],
    still: usize,
    benches: usize,
    waiting: &[Change],
    tally: &Tally,
    landed: &[Change],
    ahead: &mut Ahead,
) -> usize {
    let mut count = still;
    for (i, change) in waiting.iter().enumerate() {
        for &part in parts(change) {
            if count >= benches {
                return count;
            }
            let useful = ahead.useful(part);
            if useful.present & 1 << i != 0 {
                continue;
            }
            useful.present |= 1 << i;
            let up_to = useful.touching & u16::MAX >> (15 - i);
            write_run(
                &mut running[count],
                part,
                count_of(tally, landed, part),
                up_to,
                &ahead.numbers,
            );
            count += 1;
        }
    }
    count
}

/// Writes the run of the part with its landed changes and then those whose bit is set, over a record of 0.
fn write_run(
    record: &mut [u64; RUN_WIDTH],
    part: u64,
    begins: u64,
    mut touching: u16,
    numbers: &[u64; MOST_DEPTH as usize],
) {
    record[0] = part;
    record[1] = begins;
    record[2] = u64::from(touching.count_ones());
    let mut at = NUMBERS_AT;
    while touching != 0 {
        record[at] = numbers[touching.trailing_zeros() as usize];
        touching &= touching - 1;
        at += 1;
    }
}
