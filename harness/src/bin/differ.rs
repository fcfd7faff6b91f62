//! Plays random events on the proved queue and on the second one, and compares every answer and every number.

use harness::capi;
use harness::case::{said, Case, Pair, Step, BUFFER};
use harness::cover::Cover;
use harness::dayfile;
use harness::days::{self, DAYS};
use harness::events;
use harness::player::{Failure, Player};
use harness::promises::{check, PROMISES};
use harness::queue::{State, CONFIG, EVENT, LENGTH};
use harness::random::Random;
use harness::raw::{self, Damage, DAMAGES, ODDITIES};
use std::process::ExitCode;

const HELP: &str = "\
differ: plays random events on the proved queue and on a second implementation, and compares them

  differ [--seed N] [--events N]   N events (default 1000000) made from a seed (default 1)
  differ --replay FILE             plays a case that an earlier difference has written
  differ --help                    prints this

After every event the answers and every number of both slices are compared. The same seed gives the same events.
On a difference the shortest failing prefix is printed, and written to differ.case in the folder for such files
(TMPDIR, else /tmp). Standard output says what was covered.

A case is a text: `length L` says how many numbers are lent, `at INDEX NUMBERS..` what they hold at first (0 where no
line says), and then `open BENCHES DEPTH` and `event NUMBERS..` are the steps.

Status: 0 all agree and all is covered; 1 a difference, a broken promise, or a refusal that was never met; 2 bad usage.";

/// What the command line asks for.
enum Order {
    Help,
    Replay(String),
    Play { seed: u64, events: u64 },
}

fn main() -> ExitCode {
    let arguments: Vec<String> = std::env::args().skip(1).collect();
    match parse(&arguments) {
        Ok(Order::Help) => {
            println!("{HELP}");
            ExitCode::SUCCESS
        }
        Ok(Order::Replay(file)) => replay(&file),
        Ok(Order::Play { seed, events }) => play(seed, events),
        Err(error) => {
            eprintln!("differ: {error}; see differ --help");
            ExitCode::from(2)
        }
    }
}

fn parse(arguments: &[String]) -> Result<Order, String> {
    let (mut seed, mut events) = (1, 1_000_000);
    let mut words = arguments.iter();
    while let Some(word) = words.next() {
        let mut value = || words.next().ok_or(format!("{word} wants a value"));
        match word.as_str() {
            "--help" | "-h" => return Ok(Order::Help),
            "--replay" => return Ok(Order::Replay(value()?.clone())),
            "--seed" => seed = number(value()?)?,
            "--events" => events = number(value()?)?,
            _ => return Err(format!("unknown word `{word}`")),
        }
    }
    Ok(Order::Play { seed, events })
}

fn number(word: &str) -> Result<u64, String> {
    word.parse().map_err(|_| format!("`{word}` is no number"))
}

/// Plays random events, says what was met, and is content if all agreed and nothing was left out.
fn play(seed: u64, events: u64) -> ExitCode {
    let mut player = Player::new();
    if let Err(failure) = play_all(&mut player, seed, events) {
        report_failure(&failure, player.case(), seed, &player.cover);
        return ExitCode::FAILURE;
    }
    let cover = &player.cover;
    print!("{cover}");
    let damages: Vec<&str> = DAMAGES.iter().map(|damage| damage.name).collect();
    let missing = cover.missing(PROMISES, &damages, ODDITIES, DAYS);
    for thing in &missing {
        println!("not covered: {thing}");
    }
    println!("{} events, all agree", cover.events);
    match missing.is_empty() {
        true => ExitCode::SUCCESS,
        false => ExitCode::FAILURE,
    }
}

/// Rounds of days, slices and bytes, each made from the seed and its own number, until there were enough events.
fn play_all(player: &mut Player, seed: u64, events: u64) -> Result<(), Failure> {
    let mut round = 0;
    while player.cover.events < events {
        let random = &mut Random::nth(seed, round);
        days::any_day(player, random)?;
        for _ in 0..25 {
            raw_slice(player, random)?;
        }
        for _ in 0..4 {
            opening(player, random)?;
            day_file(player, random)?;
        }
        match round % 40 {
            10 | 30 => days::nearly_full(player, random)?,
            20 if round == 20 => days::day_that_fills_landed(player, random)?,
            25 if round == 25 => days::day_that_fills_rejected(player, random)?,
            _ => {}
        }
        round += 1;
    }
    Ok(())
}

/// A slice that no event wrote, or one that events wrote and that is damaged then; a few events on it, and more damage
/// in between.
fn raw_slice(player: &mut Player, random: &mut Random) -> Result<(), Failure> {
    let mut behind = random.below(3) * random.number();
    player.start(raw::length(random, BUFFER), |buffer| {
        raw::fill(random, buffer);
        buffer[LENGTH..].fill_with(|| {
            behind = behind.wrapping_mul(3);
            behind
        });
    });
    if random.percent(20) {
        days::short_day(player, random)?;
    }
    for _ in 0..random.from_to(1, 4) {
        if random.percent(80) {
            damage(player, random);
        }
        odd_event(player, random)?;
        for _ in 0..random.below(3) {
            let event = events::any(random, player.numbers());
            player.apply(event)?;
        }
    }
    Ok(())
}

/// Damages the queue as it is: half of the time only in ways that are carried as they stand.
fn damage(player: &mut Player, random: &mut Random) {
    let only_carried = random.percent(50);
    // Many at once show which refusal comes first.
    let times = random.pick(&[1, 1, 2, if only_carried { 3 } else { 8 }]);
    let choices: Vec<&Damage> = DAMAGES
        .iter()
        .filter(|damage| damage.carried || !only_carried)
        .collect();
    let chosen: Vec<&Damage> = (0..times).map(|_| random.pick(&choices)).collect();
    player.start_again(raw::length(random, BUFFER), |buffer| {
        for damage in &chosen {
            (damage.apply)(random, buffer);
        }
    });
    for damage in chosen {
        *player.cover.damages.entry(damage.name).or_default() += 1;
    }
}

/// An event on a queue that may be odd; if it is taken, what was odd about the queue is counted.
fn odd_event(player: &mut Player, random: &mut Random) -> Result<(), Failure> {
    let before = State::read(player.numbers()).ok();
    let odd = match &before {
        Some(state) => raw::oddities(player.numbers(), state),
        None => Vec::new(),
    };
    let event = events::any(random, player.numbers());
    if !player.apply(event)?.taken() {
        return Ok(());
    }
    for (name, _) in ODDITIES.iter().zip(odd).filter(|(_, odd)| *odd) {
        *player.cover.oddities.entry(name).or_default() += 1;
    }
    decisions_final(player, before)
}

/// Landed and rejected changes keep their places from any queue, reachable or not.
fn decisions_final(player: &mut Player, before: Option<State>) -> Result<(), Failure> {
    let (Some(before), Ok(after)) = (before, State::read(player.numbers())) else {
        return Ok(());
    };
    let holds =
        after.landed.starts_with(&before.landed) && after.rejected.starts_with(&before.rejected);
    let checks = &mut player.cover.promises;
    check(checks, "Decisions-final", holds, || {
        "a decided change moved".to_string()
    })?;
    Ok(())
}

/// Opens a slice of any length with any config over any numbers.
fn opening(player: &mut Player, random: &mut Random) -> Result<(), Failure> {
    player.start(raw::length(random, BUFFER), |buffer| {
        buffer.fill_with(|| random.number())
    });
    let config = [random.near(CONFIG), random.near(CONFIG)];
    let [benches, depth] = config.map(|number| if random.percent(20) { 0 } else { number });
    player.open(benches, depth)?;
    Ok(())
}

/// Reads events from bytes until there are no more, both ways, into slices of any length.
fn day_file(player: &mut Player, random: &mut Random) -> Result<(), Failure> {
    let bytes = dayfile::bytes(random);
    let mut from = 0;
    loop {
        let rest = &bytes[from..];
        let length = random.pick(&[0, 1, EVENT - 1, EVENT, EVENT, EVENT, EVENT, EVENT + 3]);
        let mut proved: Vec<u64> = (0..length).map(|_| random.number()).collect();
        let mut second = proved.clone();
        let taken = capi::next_event(rest, &mut proved);
        let event = dayfile::next_event(rest).filter(|_| length >= EVENT);
        if let Some((numbers, _)) = event {
            second[..EVENT].copy_from_slice(&numbers);
        }
        let expected = event.map_or(0, |(_, taken)| taken);
        if taken != expected || proved != second {
            return Err(Failure::Bytes(format!(
                "of the bytes {rest:?} the proved queue reads {taken}: {proved:?}, the second {expected}: {second:?}"
            )));
        }
        if length < EVENT {
            continue;
        }
        if taken == 0 {
            return Ok(());
        }
        player.cover.day_file_events += 1;
        from += taken;
    }
}

/// Prints the failure and the case that led to it, and writes the case to a file.
fn report_failure(failure: &Failure, case: &Case, seed: u64, cover: &Cover) {
    println!("seed {seed}, after {} events: {failure}", cover.events);
    let played = case.steps.len();
    let case = match failure {
        Failure::Bytes(_) => return,
        Failure::Broken(_) => {
            println!("{played} steps:");
            case.clone()
        }
        Failure::Differs(_) => {
            let shortest = case.clone().shorten();
            println!("{played} steps, shortened to {}:", shortest.steps.len());
            shortest
        }
    };
    print_case(&case);
    if let Some((place, difference)) = case.first_difference(&mut Pair::new()) {
        println!("step {}: {difference}", place + 1);
    }
    let path = std::env::temp_dir().join("differ.case");
    match std::fs::write(&path, case.text()) {
        Ok(()) => println!("play it again: differ --replay {}", path.display()),
        Err(error) => eprintln!("differ: {} cannot be written: {error}", path.display()),
    }
}

/// Prints a case, or its last lines if it is long: the file has all of it.
fn print_case(case: &Case) {
    const SHOWN: usize = 60;
    let text = case.text();
    let lines: Vec<&str> = text.lines().collect();
    let hidden = lines.len().saturating_sub(SHOWN);
    if hidden > 0 {
        println!("  .. {hidden} lines before");
    }
    for line in &lines[hidden..] {
        println!("  {line}");
    }
}

/// Plays the case of a file step by step up to the first difference.
fn replay(file: &str) -> ExitCode {
    let text = std::fs::read_to_string(file).map_err(|error| error.to_string());
    let case = match text.and_then(|text| Case::parse(&text)) {
        Ok(case) => case,
        Err(error) => {
            eprintln!("differ: {file}: {error}");
            return ExitCode::from(2);
        }
    };
    let mut pair = Pair::new();
    pair.start(&case.start, case.length);
    for (place, step) in case.steps.iter().enumerate() {
        let result = pair.take(step);
        let line = match &result {
            Ok(result) => said(&harness::queue::answer(*result)),
            Err(difference) => difference.to_string(),
        };
        println!("{}: {}: {line}", place + 1, name(step));
        if result.is_err() {
            return ExitCode::FAILURE;
        }
    }
    println!("{} steps, all agree", case.steps.len());
    ExitCode::SUCCESS
}

fn name(step: &Step) -> String {
    match step {
        Step::Open { benches, depth } => format!("open {benches} {depth}"),
        Step::Apply(event) => format!("event {event:?}"),
    }
}
