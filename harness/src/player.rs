//! Plays steps on both queues, and keeps what it needs to play them again.

use crate::capi::Answer;
use crate::case::{Case, Difference, Pair, Step};
use crate::cover::Cover;
use crate::promises::{Broken, Checks};
use crate::queue::{self, Refusal, Section};
use std::fmt;

/// Why a test stops.
pub enum Failure {
    Differs(Difference),
    Broken(Broken),
    /// The bytes of a day file were read in two ways.
    Bytes(String),
}

impl From<Broken> for Failure {
    fn from(broken: Broken) -> Failure {
        Failure::Broken(broken)
    }
}

impl fmt::Display for Failure {
    fn fmt(&self, f: &mut fmt::Formatter) -> fmt::Result {
        match self {
            Failure::Differs(difference) => difference.fmt(f),
            Failure::Broken(broken) => broken.fmt(f),
            Failure::Bytes(what) => what.fmt(f),
        }
    }
}

pub struct Player {
    pair: Pair,
    case: Case,
    pub cover: Cover,
}

impl Player {
    pub fn new() -> Player {
        Player {
            pair: Pair::new(),
            case: Case::new(),
            cover: Cover::new(),
        }
    }

    /// Lends the first `length` numbers of a buffer that is filled over zeros.
    pub fn start(&mut self, length: usize, fill: impl FnOnce(&mut [u64])) {
        self.start_again(length, |buffer| {
            buffer.fill(0);
            fill(buffer);
        });
    }

    /// Goes on with the numbers as they are, changed by `change`.
    pub fn start_again(&mut self, length: usize, change: impl FnOnce(&mut [u64])) {
        self.pair.change(length, change);
        self.case.start.copy_from_slice(self.pair.numbers());
        self.case.length = length;
        self.case.steps.clear();
    }

    /// Opens both; answers what both answered.
    pub fn open(&mut self, benches: u64, depth: u64) -> Result<Answer, Failure> {
        let result = self.take(Step::Open { benches, depth })?;
        self.cover.met_open(result);
        Ok(queue::answer(result))
    }

    /// Applies an event to both; answers what both answered.
    pub fn apply(&mut self, event: Vec<u64>) -> Result<Answer, Failure> {
        let [landed, rejected] = self.decided();
        let result = self.take(Step::Apply(event))?;
        self.cover.met_event(result);
        if result.is_ok() {
            let now = self.decided();
            self.cover.landed += now[0] - landed;
            self.cover.rejected += now[1] - rejected;
        }
        Ok(queue::answer(result))
    }

    fn take(&mut self, step: Step) -> Result<Result<u64, Refusal>, Failure> {
        let result = self.pair.take(&step);
        self.case.steps.push(step);
        result.map_err(Failure::Differs)
    }

    fn decided(&self) -> [u64; 2] {
        [Section::Landed, Section::Rejected].map(|section| self.numbers()[section.count()])
    }

    /// The proved queue's whole buffer.
    pub fn numbers(&self) -> &[u64] {
        self.pair.numbers()
    }

    /// The same, and where checks of promises are counted.
    pub fn numbers_and_checks(&mut self) -> (&[u64], &mut Checks) {
        (self.pair.numbers(), &mut self.cover.promises)
    }

    /// What was played since the last start.
    pub fn case(&self) -> &Case {
        &self.case
    }
}

impl Default for Player {
    fn default() -> Player {
        Player::new()
    }
}
