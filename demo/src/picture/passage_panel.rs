//! One passage: the barriers over time, the decoded states and the margins under them, the fares, and what they nearly
//! were.

use super::margin_band;
use super::svg::{path, rectangle, scaled, text, Anchor};
use super::GROUND;
use crate::decode::{fares, runs, Decoded};
use crate::morning::Explained;
use crate::recording::{Passage, LONGEST};
use crate::rivals::Rivals;
use crate::states::{ALL, BARRIERS};
use crate::words;

pub const PITCH: usize = 218;
pub const WIDTH: usize = LABELS + LONGEST * 11 / 5;

/// A sample is 2.2 wide and a barrier 7 high. The barriers' labels stand before them, the seconds' below.
const ACROSS: &str = "2.2";
const DOWN: &str = "7";
const LABELS: usize = 54;
const HEADING: usize = 16;
const BARS: usize = 24;
const BAND: usize = BARS + BARRIERS * 7 + 2;
const BAND_HEIGHT: usize = 14;
const RIVAL: usize = BAND + BAND_HEIGHT + 1;
const RIVAL_HEIGHT: usize = 7;
const MARGINS: usize = RIVAL + RIVAL_HEIGHT + 5;
const TIMES: usize = MARGINS + margin_band::HEIGHT + 16;
const FOOT: usize = TIMES + 19;
const NEARLY: usize = FOOT + 18;
/// In samples, and as wide as they are.
const SECOND: usize = 40;
const SECOND_WIDTH: usize = SECOND * 11 / 5;
/// How many letters have room: of a note beside the clock, of fares beside the value, of a rival's beside its margin.
const NOTE: usize = 54;
const FARE: usize = 38;
const NEAR: usize = 60;

pub fn panel(left: usize, top: usize, number: usize, explained: &Explained) -> String {
    let Explained {
        passage,
        decoded,
        rivals,
    } = explained;
    let start = |x, y, class, words: &str| text(left + x, top + y, class, Anchor::Start, words);
    let fare = format!("fare: {}", words::fares(&fares(&decoded.row)));
    [
        start(0, HEADING, "strong", &number.to_string()),
        start(28, HEADING, "soft", &passage.clock),
        start(104, HEADING, "", &words::cut(&passage.note, NOTE)),
        barrier_labels(left + LABELS, top + BARS),
        scaled(left + LABELS, top + BARS, ACROSS, DOWN, &bars(&passage.samples)),
        states(left + LABELS, top + BAND, &decoded.row),
        nearly_band(left + LABELS, top + RIVAL, rivals),
        margin_band::labels(left, left + LABELS - 6, top + MARGINS),
        margin_band::band(left + LABELS, top + MARGINS, ACROSS, rivals),
        second_labels(left + LABELS, top + TIMES, passage.samples.len()),
        start(0, FOOT, "strong", &words::cut(&fare, FARE)),
        text(left + WIDTH, top + FOOT, "small", Anchor::End, &value(passage, decoded)),
        nearly(left, top + NEARLY, rivals),
        rectangle(left, top + NEARLY + 9, WIDTH, 1, "#d5dae0"),
    ]
    .concat()
}

/// The longer the passage, the lower its value: two passages are compared by their values a sample.
fn value(passage: &Passage, decoded: &Decoded) -> String {
    let each = decoded.value / passage.samples.len() as f64;
    format!("value {:.3}, {each:.3} a sample", decoded.value)
}

/// The fare of the closest rival that pays another, and its margin; or a word that there is none.
fn nearly(left: usize, y: usize, rivals: &Rivals) -> String {
    let start = |class, words: &str| text(left, y, class, Anchor::Start, &format!("nearly {words}"));
    match rivals.closest_of_another_fare() {
        Some(rival) => {
            start("near", &words::cut(&words::fares(&rival.fares()), NEAR))
                + &text(left + WIDTH, y, "near", Anchor::End, &words::margin(rival))
        }
        None => start("small", words::NOTHING_ELSE),
    }
}

/// Every second barrier by its number and height, the highest at the top.
fn barrier_labels(right: usize, top: usize) -> String {
    let labelled = (0..BARRIERS).rev().step_by(2);
    let label = |barrier: usize| {
        let y = top + (BARRIERS - 1 - barrier) * 7 + 7;
        text(right - 6, y, "tiny", Anchor::End, &words::barrier(barrier))
    };
    labelled.map(label).collect()
}

fn second_labels(left: usize, y: usize, samples: usize) -> String {
    let label = |second: usize| {
        let words = format!("{second} s");
        text(left + second * SECOND_WIDTH, y, "tiny", Anchor::Middle, &words)
    };
    (0..samples.div_ceil(SECOND)).map(label).collect()
}

/// The ground, a white line each second, and a stroke wherever a barrier is broken; the highest barrier at the top.
fn bars(samples: &[u16]) -> String {
    let seconds = (SECOND..samples.len()).step_by(SECOND);
    let lines: String = seconds.map(|at| format!("M{at} 0v{BARRIERS}")).collect();
    let strokes: String = (0..BARRIERS).map(|barrier| strokes(samples, barrier)).collect();
    rectangle(0, 0, samples.len(), BARRIERS, GROUND)
        + &path("stroke=\"#fff\" stroke-width=\".9\"", &lines)
        + &path("class=\"broken\"", &strokes)
}

fn strokes(samples: &[u16], barrier: usize) -> String {
    let mut at = 0;
    let mut steps = String::new();
    for run in samples.chunk_by(|a, b| (a ^ b) >> barrier & 1 == 0) {
        if run[0] >> barrier & 1 == 1 {
            steps += &format!("M{at} {}.5h{}", BARRIERS - 1 - barrier, run.len());
        }
        at += run.len();
    }
    steps
}

/// A band in the states' colours, or a word that there is none.
fn states(left: usize, top: usize, row: &[u8]) -> String {
    if row.is_empty() {
        return text(left, top + 11, "small", Anchor::Start, &words::row(row));
    }
    text(left - 6, top + 11, "tiny", Anchor::End, "states") + &scaled(left, top, ACROSS, "1", &band(row, BAND_HEIGHT))
}

/// The row of that rival, where there is one.
fn nearly_band(left: usize, top: usize, rivals: &Rivals) -> String {
    let drawn = |row: &[u8]| {
        text(left - 6, top + RIVAL_HEIGHT, "tiny", Anchor::End, "nearly")
            + &scaled(left, top, ACROSS, "1", &band(row, RIVAL_HEIGHT))
    };
    rivals
        .closest_of_another_fare()
        .map_or(String::new(), |rival| drawn(&rival.row))
}

fn band(row: &[u8], height: usize) -> String {
    let mut at = 0;
    let mut body = String::new();
    for run in runs(row) {
        body += &rectangle(at, 0, run.length, height, ALL[run.state].colour);
        at += run.length;
    }
    body
}
