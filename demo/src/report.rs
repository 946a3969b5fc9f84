//! What the demo prints.

use crate::decode::{fares, Decoded};
use crate::exit_lane::{Exit, ExitLane};
use crate::file_flip::{FileFlip, Refusals};
use crate::flip::{Flip, Outcome, Tally};
use crate::morning::{Explained, Morning};
use crate::recording::Passage;
use crate::rivals::Rivals;
use crate::states::{Fare, FARES, STATES, SYMBOLS};
use crate::words;

/// What the words before a passage's rivals mean.
const RIVAL: &str = "rival: the best row of states with another state at a sample; \
                     here the closest of all samples, which count from 0";
const NEARLY: &str = "nearly: the closest rival that pays another fare; \
                      a row of another fare that is the rival at no sample is not seen";

pub fn report(morning: &Morning) -> String {
    let mut lines = heading(morning);
    for (at, explained) in morning.passages.iter().enumerate() {
        lines.extend(passage(at + 1, explained));
    }
    lines.extend(takings(&morning.fares()));
    lines.extend(flip(morning.flip, &morning.in_file));
    let flipped = "every bit of the model file flips, one at a time";
    lines.extend(refusals(flipped, &morning.flips));
    lines.extend(refusals("the model file is cut off, at every length", &morning.cuts));
    lines.extend(bare_tables(&morning.tally));
    lines.join("\n") + "\n"
}

/// The exit lane's part, which follows the morning's.
pub fn exits(exit_lane: &ExitLane) -> String {
    let mut lines = Vec::new();
    if !exit_lane.caption.is_empty() {
        lines.extend([String::new(), exit_lane.caption.clone()]);
    }
    lines.extend(exit_lane.passages.iter().flat_map(exit));
    lines.join("\n") + "\n"
}

fn heading(morning: &Morning) -> Vec<String> {
    let count = morning.passages.len();
    let lines = [
        morning.caption.clone(),
        format!("passages: {count}; eight light barriers, one byte every 25 ms; {STATES} states, {SYMBOLS} symbols"),
        "every unbroken run of a body (child, adult, skier, rider, parent) pays one fare".to_string(),
        RIVAL.to_string(),
        format!("margin: the best row's value less the rival's; {}", words::MARGIN),
        NEARLY.to_string(),
    ];
    lines.into_iter().filter(|line| !line.is_empty()).collect()
}

fn passage(number: usize, explained: &Explained) -> [String; 7] {
    let Explained {
        passage,
        decoded,
        rivals,
    } = explained;
    let length = passage.samples.len();
    [
        String::new(),
        format!(
            "passage {number}, {}, {length} samples: {}",
            passage.clock, passage.note
        ),
        states(decoded),
        format!("  fare    {}", words::fares(&fares(&decoded.row))),
        value(decoded),
        format!("  rival   {}", rival(rivals)),
        format!("  nearly  {}", nearly(rivals)),
    ]
}

/// The closest of all: which state it has there, and whether the fare is another.
fn rival(rivals: &Rivals) -> String {
    let Some(rival) = rivals.closest() else {
        return "none: no other row explains the samples".to_string();
    };
    let fare = if rivals.pays_another_fare(rival) {
        "another fare"
    } else {
        "the same fare"
    };
    format!("{}: {}; {fare}", words::in_place(rival), words::margin(rival))
}

/// The closest that pays another fare.
fn nearly(rivals: &Rivals) -> String {
    let Some(rival) = rivals.closest_of_another_fare() else {
        return words::NOTHING_ELSE.to_string();
    };
    let fares = words::fares(&rival.fares());
    format!("{fares}: {}; {}", words::margin(rival), words::in_place(rival))
}

fn states(decoded: &Decoded) -> String {
    format!("  states  {}", words::row(&decoded.row))
}

fn value(decoded: &Decoded) -> String {
    format!("  value   {:.3}", decoded.value)
}

fn takings(paid: &[Fare]) -> Vec<String> {
    let mut lines = vec![String::new(), "fares of the morning".to_string()];
    for fare in FARES {
        let count = paid.iter().filter(|one| **one == fare).count();
        lines.push(format!("  {count:2}  {}", fare.name()));
    }
    lines
}

fn flip(flip: Flip, outcome: &Outcome) -> [String; 6] {
    let entry = |entry: f64| format!("{:016x} = {entry:+.6}", entry.to_bits());
    let byte = FileFlip::of(flip).byte;
    [
        String::new(),
        format!("one bit of the model file flips: in byte {byte}, {}", words::flip(flip)),
        format!("  before  {}", entry(outcome.before)),
        format!("  after   {}", entry(outcome.after)),
        format!("  answer  {}", words::answer(outcome)),
        format!("  memory  {}", words::memory(outcome, "read")),
    ]
}

/// How many files the reader refused with each number.
fn refusals(what: &str, refusals: &Refusals) -> Vec<String> {
    let line = |count, what: &str| format!("  {:>7}  {what}", words::grouped(count));
    let mut lines = vec![
        String::new(),
        format!("{what}: {} files", words::grouped(refusals.files())),
    ];
    let refused = refusals.refused.iter();
    lines.extend(refused.map(|(number, count)| {
        let why = words::refusal(*number);
        line(*count, &format!("are refused with {number}: {why}"))
    }));
    lines.push(line(refusals.read, "are read"));
    lines
}

/// What the file is for: bare tables have no sums.
fn bare_tables(tally: &Tally) -> [String; 3] {
    let [flips, refused] = [tally.flips(), tally.refused].map(words::grouped);
    let share = 100.0 * tally.refused as f64 / tally.flips() as f64;
    [
        String::new(),
        format!("every bit of the tables flips, once they are read: {flips} flips"),
        format!("  a call refuses {refused} ({share:.1}%); the others are accepted, and some of them change a fare"),
    ]
}

fn exit(exit: &Exit) -> Vec<String> {
    let Passage { clock, samples, note } = &exit.passage;
    let length = samples.len();
    let mut lines = vec![String::new(), format!("exit lane, {clock}, {length} samples: {note}")];
    let added = "with the end flag: the last state's end entry is added last";
    lines.extend(ending(added, &exit.with_end));
    lines.extend(ending("without the end flag: nothing is added", &exit.without_end));
    lines
}

fn ending(how: &str, decoded: &Decoded) -> [String; 4] {
    [
        how.to_string(),
        states(decoded),
        format!("  last    {}", words::last(&decoded.row)),
        value(decoded),
    ]
}
