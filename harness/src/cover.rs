//! What a test has met: the rows of the refusals, each with its causes or places, and counts of everything else.

use crate::queue::{Refusal, Section};
use std::collections::BTreeMap;
use std::fmt;

/// A row of the table of refusals in docs/FORMAT.md, with the causes or places that are told apart.
struct Row {
    number: u64,
    when: &'static str,
    causes: &'static [&'static str],
}

const fn row(number: u64, when: &'static str, causes: &'static [&'static str]) -> Row {
    Row {
        number,
        when,
        causes,
    }
}

impl Row {
    fn line(&self, counts: &[u64]) -> String {
        let causes = self.causes.iter().zip(counts);
        let causes: Vec<String> = causes
            .map(|(cause, count)| format!("{cause}: {count}"))
            .collect();
        format!(
            "  {:>2}  {:<30}{}",
            self.number,
            self.when,
            causes.join("  ")
        )
    }
}

const KINDS: &[&str] = &["landed", "waiting", "rejected", "verdicts", "running"];
const CONFIG: &[&str] = &["0", "above 16"];
const COUNT_OF_PARTS: &[&str] = &["0", "above 8"];
const PLACES: &[&str] = &["0", "1", "2", "3", "4", "5", "6", "7"];
const LATER_PLACES: &[&str] = &["1", "2", "3", "4", "5", "6", "7"];

const ROWS: &[Row] = &[
    row(1, "the slice is too short", &["its length"]),
    row(1, "a section's count", &["2", "3", "4", "5", "6"]),
    row(1, "a record's count", KINDS),
    row(1, "landed + waiting", &["2"]),
    row(1, "rejected + waiting", &["4"]),
    row(1, "begins with too many", &["verdicts", "running"]),
    row(2, "benches", CONFIG),
    row(3, "depth", CONFIG),
    row(4, "event", &["short", "kind", "second number"]),
    row(5, "number known", &["landed", "waits", "rejected"]),
    row(6, "count of parts", COUNT_OF_PARTS),
    row(6, "part 64 or more, place", PLACES),
    row(6, "part stood earlier, place", LATER_PLACES),
    row(7, "no such change waits", &["the number"]),
    row(8, "no such run is running", &["the place"]),
    row(9, "no room", &["64 wait", "landed", "rejected"]),
    row(10, "128 verdicts held", &["0"]),
    row(10, "2^32 runs requested", &["submit", "withdraw", "report"]),
    row(1, "open: the slice is too short", &["its length"]),
    row(2, "open: benches", CONFIG),
    row(3, "open: depth", CONFIG),
];

/// The row and the cause of an event's refusal.
fn row_of(refusal: Refusal) -> (usize, usize) {
    use Refusal::*;
    match refusal {
        Short { .. } => (0, 0),
        Count(section) => (1, section as usize),
        Used { section, .. } => (2, section as usize),
        LandedSum => (3, 0),
        RejectedSum => (4, 0),
        Begins { section, .. } => (5, (section == Section::Running) as usize),
        NoBenches => (6, 0),
        ManyBenches => (6, 1),
        NoDepth => (7, 0),
        ManyDepth => (7, 1),
        EventShort => (8, 0),
        EventKind => (8, 1),
        EventNumber => (8, 2),
        Known { section, .. } => (9, section as usize),
        NoParts => (10, 0),
        ManyParts => (10, 1),
        PartAbove { place } => (11, place),
        PartTwice { place } => (12, place - 1),
        NotWaiting { .. } => (13, 0),
        NotRunning { .. } => (14, 0),
        WaitingFull => (15, 0),
        LandedFull => (15, 1),
        RejectedFull => (15, 2),
        VerdictsFull => (16, 0),
        RequestsFull { kind } => (17, kind as usize),
    }
}

/// The row and the cause of a refusal to open.
fn row_of_open(refusal: Refusal) -> (usize, usize) {
    match row_of(refusal) {
        (0, cause) => (18, cause),
        (6, cause) => (19, cause),
        (_, cause) => (20, cause),
    }
}

/// Counts of what was met.
pub struct Cover {
    refusals: Vec<Vec<u64>>,
    pub events: u64,
    pub taken: u64,
    pub opened: u64,
    pub landed: u64,
    pub rejected: u64,
    pub day_file_events: u64,
    pub days: BTreeMap<&'static str, u64>,
    pub damages: BTreeMap<&'static str, u64>,
    pub oddities: BTreeMap<&'static str, u64>,
    pub promises: BTreeMap<&'static str, u64>,
}

impl Cover {
    pub fn new() -> Cover {
        Cover {
            refusals: ROWS.iter().map(|row| vec![0; row.causes.len()]).collect(),
            events: 0,
            taken: 0,
            opened: 0,
            landed: 0,
            rejected: 0,
            day_file_events: 0,
            days: BTreeMap::new(),
            damages: BTreeMap::new(),
            oddities: BTreeMap::new(),
            promises: BTreeMap::new(),
        }
    }

    pub fn met_event(&mut self, result: Result<u64, Refusal>) {
        self.events += 1;
        match result {
            Ok(_) => self.taken += 1,
            Err(refusal) => {
                let (row, cause) = row_of(refusal);
                self.refusals[row][cause] += 1;
            }
        }
    }

    pub fn met_open(&mut self, result: Result<u64, Refusal>) {
        match result {
            Ok(_) => self.opened += 1,
            Err(refusal) => {
                let (row, cause) = row_of_open(refusal);
                self.refusals[row][cause] += 1;
            }
        }
    }

    /// The refusals that were never met, and which of the things named were not.
    pub fn missing(
        &self,
        promises: &[&str],
        damages: &[&str],
        oddities: &[&str],
        days: &[&str],
    ) -> Vec<String> {
        let mut missing = Vec::new();
        for (row, counts) in ROWS.iter().zip(&self.refusals) {
            for (cause, _) in row
                .causes
                .iter()
                .zip(counts)
                .filter(|(_, &count)| count == 0)
            {
                missing.push(format!("refusal {}, {}: {cause}", row.number, row.when));
            }
        }
        for (names, counts) in [
            (promises, &self.promises),
            (damages, &self.damages),
            (oddities, &self.oddities),
            (days, &self.days),
        ] {
            let unmet = names.iter().filter(|name| !counts.contains_key(*name));
            missing.extend(unmet.map(|name| name.to_string()));
        }
        missing
    }
}

impl Default for Cover {
    fn default() -> Cover {
        Cover::new()
    }
}

impl fmt::Display for Cover {
    fn fmt(&self, f: &mut fmt::Formatter) -> fmt::Result {
        let refused = self.events - self.taken;
        writeln!(f, "{} taken, {refused} refused", self.taken)?;
        writeln!(f, "{} landed, {} rejected", self.landed, self.rejected)?;
        writeln!(f, "{} queues opened", self.opened)?;
        writeln!(f, "{} events read from bytes", self.day_file_events)?;
        writeln!(f, "refusals, each cause or place with its count:")?;
        for (row, counts) in ROWS.iter().zip(&self.refusals) {
            writeln!(f, "{}", row.line(counts))?;
        }
        for (title, counts) in [
            ("days played", &self.days),
            ("slices that no event wrote, by damage", &self.damages),
            ("events taken on such queues, by oddity", &self.oddities),
            ("promises checked on the numbers", &self.promises),
        ] {
            writeln!(f, "{title}:")?;
            for (name, count) in counts {
                writeln!(f, "  {count:>9}  {name}")?;
            }
        }
        Ok(())
    }
}
