//! The recording, the printed report and the picture are what is stored, byte for byte.

use demo::consequences::Consequences;
use demo::exit_lane::ExitLane;
use demo::flip::Tally;
use demo::morning::Morning;
use demo::picture::picture;
use demo::recording::{read, LONGEST};
use demo::report::{exits, report};
use demo::simulation::simulated;
use demo::stored::Stored;
use wasnugram::{Refusal, Table};

const RECORDING: &str = include_str!("../morning.txt");

fn morning() -> Morning {
    of(RECORDING).unwrap()
}

/// A recording, decoded by the stored model.
fn of(recording: &str) -> Result<Morning, String> {
    let stored = Stored::read(include_bytes!("../model.bin").to_vec()).unwrap();
    Morning::of(recording, &stored)
}

#[test]
fn the_recording_is_the_simulated_one() {
    let passages = read(RECORDING).unwrap();
    assert_eq!(passages, simulated());
    assert!(passages.iter().all(|passage| passage.samples.len() <= LONGEST));
}

#[test]
fn the_report_is_the_stored_one() {
    let exit_lane = ExitLane::of(include_str!("../exit.txt")).unwrap();
    assert_eq!(report(&morning()) + &exits(&exit_lane), include_str!("../stdout"));
}

/// The indented lines of a page's section.
fn quoted<'a>(page: &'a str, section: &str) -> Vec<&'a str> {
    let (_, from_there) = page.split_once(&format!("## {section}\n")).unwrap();
    let section = from_there.split("\n## ").next().unwrap();
    section.lines().filter_map(|line| line.strip_prefix("    ")).collect()
}

/// What README.md quotes, and what the README of the demo does, are lines of the report.
#[test]
fn the_readmes_quote_the_report() {
    let whole = quoted(include_str!("../../README.md"), "The demo");
    let rivals = quoted(include_str!("../README.md"), "Why not child?");
    assert!(whole.len() > 4, "a passage and a refusal are quoted");
    assert!(rivals.len() > 4, "a passage and its rivals are quoted");
    for line in [whole, rivals].concat() {
        let printed = include_str!("../stdout").lines().any(|printed| printed == line);
        assert!(printed, "{line}");
    }
}

#[test]
fn the_picture_is_the_stored_one() {
    assert!(
        picture(&morning()) == include_str!("../../docs/morning.svg"),
        "docs/morning.svg differs"
    );
}

/// Another shape of the refusal than the report's words: the numbers themselves.
#[test]
fn every_flip_is_answered_by_the_rules() {
    let morning = morning();
    let refused = morning.outcome.refused.unwrap();
    assert_eq!(
        (refused.refusal, refused.table, refused.place),
        (Refusal::NotGood, Some(Table::Emission), 1151)
    );
    assert!(morning.outcome.untouched);
    assert!(matches!(morning.tally, Tally { wrong: 0, .. }));
    assert_eq!(morning.tally.flips(), (144 + 3072 + 12 + 12) * 64);
}

/// The figures that the README states.
#[test]
fn accepted_flips_seldom_change_a_fare() {
    let expected = Consequences {
        refused: 8_060,
        harmless: 198_284,
        other_states: 618,
        other_fares: 398,
    };
    assert_eq!(Consequences::of(&read(RECORDING).unwrap()), expected);
}

/// Who wrote the note could not know how much room there is.
#[test]
fn the_picture_cuts_a_long_note() {
    let note = format!("{} and nobody else", "a very tall adult, ".repeat(20));
    let drawn = picture(&of(&format!("07:58:04 007f00 {note}\n")).unwrap());
    assert!(drawn.contains(">a very tall adult, a very tall adult, a very tall adu…</text>"));
    assert!(!drawn.contains("nobody else"));
}

#[test]
fn a_recording_without_a_passage_is_no_morning() {
    assert_eq!(of("# Today\n").err().unwrap(), "line 2: a passage is wanted");
}
