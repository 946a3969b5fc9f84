//! The margin over time. The band is as open as the margin is great: colour comes down to where the rival is.

use super::svg::{path, rectangle, scaled, text, Anchor};
use super::{GROUND, RED};
use crate::rivals::Rivals;
use crate::words;

pub const HEIGHT: usize = 24;
pub const KEY_HEIGHT: usize = 72;

/// At this margin or a greater one the band is open, and so it is where there is no rival.
const OPEN: usize = 15;
/// Where the rival pays the same fare.
const GREY: &str = "#a9b2bd";

const WHAT: &str = "The rival at a sample is the best row of states with another state there; \
                    the margin is the best row's value less the rival's:";
const CLOSEST: &str = "the closest that pays another fare: \u{201c}nearly\u{201d}; \
                       the thin band is its row of states. A row that is the rival at no sample is not seen.";

/// A sample is as wide as it is drawn elsewhere.
pub fn band(left: usize, top: usize, across: &str, rivals: &Rivals) -> String {
    let steps: Vec<Step> = rivals.margins().zip(rivals.other_fares()).map(Step::of).collect();
    let closest = rivals.closest_of_another_fare();
    let body = [
        rectangle(0, 0, steps.len(), HEIGHT, GROUND),
        filled(GREY, &areas(&steps, false)),
        filled(RED, &areas(&steps, true)),
        closest.map_or(String::new(), |rival| mark(rival.sample)),
    ];
    scaled(left, top, across, "1", &body.concat())
}

/// The scale, before the band.
pub fn labels(left: usize, right: usize, top: usize) -> String {
    [
        text(left, top + HEIGHT / 2 + 4, "tiny", Anchor::Start, "margin"),
        text(right, top + 9, "tiny", Anchor::End, &OPEN.to_string()),
        text(right, top + HEIGHT, "tiny", Anchor::End, "0"),
    ]
    .concat()
}

/// How to read it.
pub fn key(left: usize, top: usize) -> String {
    let line = |x, y, words: &str| text(left + x, top + y, "small", Anchor::Start, words);
    let open = format!(
        "The closer the rival, the further colour comes down the band of margins: \
         at margin {OPEN} and above, and without a rival, the band is open."
    );
    [
        line(0, 12, WHAT),
        line(0, 29, &format!("{}.", words::MARGIN)),
        line(0, 46, &open),
        rectangle(left, top + 58, 24, 10, GREY),
        line(30, 67, "the rival pays the same fare"),
        rectangle(left + 220, top + 58, 24, 10, RED),
        line(250, 67, "it pays another fare"),
        scaled(left + 392, top + 61 - HEIGHT, "2", "1", &mark(0)),
        line(406, 67, CLOSEST),
    ]
    .concat()
}

/// One sample of the band: how far colour comes down, in tenths, and whether its rival pays another fare.
#[derive(PartialEq)]
struct Step {
    tenths: usize,
    other_fare: bool,
}

impl Step {
    fn of((margin, other_fare): (f64, bool)) -> Step {
        let open = margin.min(OPEN as f64) / OPEN as f64;
        Step {
            tenths: ((1.0 - open) * 10.0 * HEIGHT as f64).round() as usize,
            other_fare,
        }
    }
}

/// What hangs down where rivals pay another fare, or where they pay the same.
fn areas(steps: &[Step], other_fare: bool) -> String {
    let mut at = 0;
    let mut areas = String::new();
    for run in steps.chunk_by(|one, next| one == next) {
        let Step { tenths, .. } = run[0];
        if run[0].other_fare == other_fare && tenths > 0 {
            areas += &format!("M{at} 0v{}.{}h{}V0z", tenths / 10, tenths % 10, run.len());
        }
        at += run.len();
    }
    areas
}

/// A triangle below the sample.
fn mark(sample: usize) -> String {
    filled(RED, &format!("M{sample}.5 {}l-2 6h4z", HEIGHT + 1))
}

fn filled(colour: &str, steps: &str) -> String {
    path(&format!("fill=\"{colour}\""), steps)
}

#[cfg(test)]
mod tests {
    use super::*;

    #[test]
    fn colour_comes_down_to_the_rival() {
        let down = |margin| Step::of((margin, true)).tenths;
        assert_eq!(
            [0.0, 5.0, 7.5, 15.0, 29.1, f64::INFINITY].map(down),
            [240, 160, 120, 0, 0, 0]
        );
    }

    #[test]
    fn each_fare_has_its_colour() {
        let margins = [
            (15.0, false),
            (5.0, false),
            (5.0, false),
            (5.0, true),
            (10.0, true),
            (14.0, false),
        ];
        let steps = margins.map(Step::of);
        assert_eq!(areas(&steps, false), "M1 0v16.0h2V0zM5 0v1.6h1V0z");
        assert_eq!(areas(&steps, true), "M3 0v16.0h1V0zM4 0v8.0h1V0z");
    }
}
