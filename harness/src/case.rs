//! Both queues side by side: what is lent to them, the steps they take, where they first differ, and the shortest
//! such case as a text that can be played again.

use crate::capi::{self, Answer};
use crate::queue::{self, Refusal, LENGTH};
use std::fmt::{self, Write};
use std::time::{Duration, Instant};

/// A buffer is longer than a queue, so that what lies behind one is compared too.
pub const BUFFER: usize = LENGTH + 8;

/// How long shortening a case may take.
const PATIENCE: Duration = Duration::from_secs(30);

#[derive(Clone, Debug, PartialEq, Eq)]
pub enum Step {
    Open { benches: u64, depth: u64 },
    Apply(Vec<u64>),
}

/// What a buffer holds at first, how much of it is lent, and the steps that follow.
#[derive(Clone)]
pub struct Case {
    pub start: Vec<u64>,
    pub length: usize,
    pub steps: Vec<Step>,
}

/// The first thing that is not the same in both queues.
#[derive(Clone, Copy, Debug, PartialEq, Eq)]
pub enum Difference {
    Answers {
        proved: Answer,
        second: Answer,
    },
    Numbers {
        index: usize,
        proved: u64,
        second: u64,
    },
}

impl fmt::Display for Difference {
    fn fmt(&self, f: &mut fmt::Formatter) -> fmt::Result {
        match self {
            Difference::Answers { proved, second } => write!(
                f,
                "the proved queue answers {}, the second {}",
                said(proved),
                said(second)
            ),
            Difference::Numbers {
                index,
                proved,
                second,
            } => write!(
                f,
                "first different number at index {index}: proved {proved}, second {second}"
            ),
        }
    }
}

pub fn said(answer: &Answer) -> String {
    match answer.refusal {
        0 => format!("done, {} running", answer.value),
        refusal => format!("refused {refusal} at {}", answer.value),
    }
}

/// The buffers of both queues.
pub struct Pair {
    proved: Vec<u64>,
    second: Vec<u64>,
    length: usize,
}

impl Pair {
    pub fn new() -> Pair {
        Pair {
            proved: vec![0; BUFFER],
            second: vec![0; BUFFER],
            length: LENGTH,
        }
    }

    pub fn start(&mut self, start: &[u64], length: usize) {
        self.change(length, |buffer| buffer.copy_from_slice(start));
    }

    /// Changes what both buffers hold, and how much of them is lent.
    pub fn change(&mut self, length: usize, change: impl FnOnce(&mut [u64])) {
        change(&mut self.proved);
        self.second.copy_from_slice(&self.proved);
        self.length = length;
    }

    /// The whole buffer of the proved queue.
    pub fn numbers(&self) -> &[u64] {
        &self.proved
    }

    /// Both take a step; then the answers and every number of the buffers are the same. The second queue writes
    /// nothing when it refuses, so a refusal of both leaves every number as it was.
    pub fn take(&mut self, step: &Step) -> Result<Result<u64, Refusal>, Difference> {
        let proved_queue = &mut self.proved[..self.length];
        let second_queue = &mut self.second[..self.length];
        let (proved, result) = match step {
            Step::Open { benches, depth } => (
                capi::open(proved_queue, *benches, *depth),
                queue::open(second_queue, *benches, *depth),
            ),
            Step::Apply(event) => (
                capi::apply(proved_queue, event),
                queue::apply(second_queue, event),
            ),
        };
        let second = queue::answer(result);
        if proved != second {
            return Err(Difference::Answers { proved, second });
        }
        match self.first_different_number() {
            Some(difference) => Err(difference),
            None => Ok(result),
        }
    }

    fn first_different_number(&self) -> Option<Difference> {
        if self.proved == self.second {
            return None;
        }
        let mut numbers = self.proved.iter().zip(&self.second);
        let index = numbers.position(|(proved, second)| proved != second)?;
        Some(Difference::Numbers {
            index,
            proved: self.proved[index],
            second: self.second[index],
        })
    }
}

impl Default for Pair {
    fn default() -> Pair {
        Pair::new()
    }
}

impl Case {
    pub fn new() -> Case {
        Case {
            start: vec![0; BUFFER],
            length: LENGTH,
            steps: Vec::new(),
        }
    }

    /// The place of the first step after which the queues differ.
    pub fn first_difference(&self, pair: &mut Pair) -> Option<(usize, Difference)> {
        pair.start(&self.start, self.length);
        self.steps
            .iter()
            .enumerate()
            .find_map(|(place, step)| pair.take(step).err().map(|difference| (place, difference)))
    }

    /// The shortest case found that still differs: the prefix up to the first difference, then without the steps
    /// that it does not need (of a raw slice only the last), then with 0 for the numbers that it does not need.
    pub fn shorten(mut self) -> Case {
        let mut pair = Pair::new();
        let deadline = Instant::now() + PATIENCE;
        if let Some((place, _)) = self.first_difference(&mut pair) {
            self.steps.truncate(place + 1);
        }
        if !matches!(self.steps.first(), Some(Step::Open { .. })) {
            self.skip_to_last_step(&mut pair);
        }
        self.steps = without_needless(
            self.steps.clone(),
            |steps| {
                let case = Case {
                    steps: steps.to_vec(),
                    ..self.clone()
                };
                case.first_difference(&mut pair).is_some()
            },
            deadline,
        );
        let kept: Vec<usize> = (0..BUFFER).filter(|&at| self.start[at] != 0).collect();
        let kept = without_needless(
            kept,
            |kept| self.keeping(kept).first_difference(&mut pair).is_some(),
            deadline,
        );
        self.keeping(&kept)
    }

    /// A slice that no event wrote is as good a start as any: so is the one before the last step.
    fn skip_to_last_step(&mut self, pair: &mut Pair) {
        let Some(last) = self.steps.pop() else {
            return;
        };
        self.first_difference(pair);
        self.start.copy_from_slice(pair.numbers());
        self.steps = vec![last];
    }

    /// The case with 0 for all numbers of the start but these.
    fn keeping(&self, kept: &[usize]) -> Case {
        let mut case = Case {
            start: vec![0; BUFFER],
            length: self.length,
            steps: self.steps.clone(),
        };
        for &at in kept {
            case.start[at] = self.start[at];
        }
        case
    }

    /// The case as a text that `parse` reads.
    pub fn text(&self) -> String {
        let mut text = format!("length {}\n", self.length);
        let mut at = 0;
        while at < BUFFER {
            let stretch: Vec<u64> = self.start[at..]
                .iter()
                .copied()
                .take_while(|&number| number != 0)
                .collect();
            if !stretch.is_empty() {
                let _ = writeln!(text, "at {at}{}", words(&stretch));
            }
            at += stretch.len() + 1;
        }
        for step in &self.steps {
            let _ = match step {
                Step::Open { benches, depth } => writeln!(text, "open {benches} {depth}"),
                Step::Apply(event) => writeln!(text, "event{}", words(event)),
            };
        }
        text
    }

    /// Reads lines `length L`, `at INDEX NUMBERS..`, `open BENCHES DEPTH`, `event NUMBERS..`; what follows a `#` is
    /// not read, and numbers of the start that no line names are 0.
    pub fn parse(text: &str) -> Result<Case, String> {
        let mut case = Case::new();
        for (place, line) in text.lines().enumerate() {
            let line = line.split('#').next().unwrap_or_default();
            case.parse_line(line)
                .map_err(|error| format!("line {}: {error}", place + 1))?;
        }
        Ok(case)
    }

    fn parse_line(&mut self, line: &str) -> Result<(), String> {
        let mut words = line.split_whitespace();
        let Some(kind) = words.next() else {
            return Ok(());
        };
        let numbers = words
            .map(|word| {
                word.parse::<u64>()
                    .map_err(|_| format!("`{word}` is no number"))
            })
            .collect::<Result<Vec<u64>, String>>()?;
        match (kind, numbers.as_slice()) {
            ("length", &[length]) if length <= BUFFER as u64 => self.length = length as usize,
            ("at", [index, numbers @ ..]) => {
                let places = usize::try_from(*index)
                    .ok()
                    .and_then(|index| self.start.get_mut(index..)?.get_mut(..numbers.len()))
                    .ok_or(format!("the buffer has only {BUFFER} numbers"))?;
                places.copy_from_slice(numbers);
            }
            ("open", &[benches, depth]) => self.steps.push(Step::Open { benches, depth }),
            ("event", _) => self.steps.push(Step::Apply(numbers)),
            _ => return Err("expected length, at, open or event".to_string()),
        }
        Ok(())
    }
}

impl Default for Case {
    fn default() -> Case {
        Case::new()
    }
}

fn words(numbers: &[u64]) -> String {
    numbers.iter().map(|number| format!(" {number}")).collect()
}

/// Leaves out stretches, long ones first, as long as what is left still fails.
fn without_needless<T: Clone>(
    mut items: Vec<T>,
    mut fails: impl FnMut(&[T]) -> bool,
    deadline: Instant,
) -> Vec<T> {
    let mut stretch = items.len();
    loop {
        stretch = stretch.div_ceil(2);
        let count = items.len();
        let mut from = 0;
        while from < items.len() && Instant::now() < deadline {
            let to = (from + stretch).min(items.len());
            let fewer = [&items[..from], &items[to..]].concat();
            if fails(&fewer) {
                items = fewer;
            } else {
                from = to;
            }
        }
        if stretch <= 1 && items.len() == count || Instant::now() >= deadline {
            return items;
        }
    }
}
