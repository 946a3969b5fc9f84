//! The morning as a picture: the states, the passages in two columns, and the refused flip.

mod flip_panel;
mod legend;
mod margin_band;
mod passage_panel;
mod svg;

use crate::morning::Morning;
use svg::{text, Anchor};

const WIDTH: usize = 2 * MARGIN + COLUMN + passage_panel::WIDTH;
const MARGIN: usize = 36;
const LEGEND_TOP: usize = 134;
const KEY_TOP: usize = LEGEND_TOP + legend::HEIGHT + 14;
const PASSAGES_TOP: usize = KEY_TOP + margin_band::KEY_HEIGHT + 20;
const COLUMN: usize = passage_panel::WIDTH + 32;

/// What is wrong, or nearly so; and behind what is drawn over time.
const RED: &str = "#c62828";
const GROUND: &str = "#f1f3f5";

const STYLE: &str = "\
text{font-family:Helvetica,Arial,'DejaVu Sans',sans-serif;font-size:14px;fill:#1c2430}\
.title{font-size:28px;font-weight:bold}\
.strong{font-weight:bold}\
.soft{fill:#5b6675}\
.small{font-size:12px;fill:#5b6675}\
.tiny{font-size:10px;fill:#5b6675}\
.broken{stroke:#1c2430;stroke-width:.84;fill:none}";

/// The picture as the text of an SVG file.
pub fn picture(morning: &Morning) -> String {
    let rows = morning.passages.len().div_ceil(2);
    let flip_top = PASSAGES_TOP + rows * passage_panel::PITCH + 12;
    let height = flip_top + flip_panel::HEIGHT + MARGIN;
    let mut body = heading(&morning.caption);
    body += &legend::legend(MARGIN, LEGEND_TOP);
    body += &margin_band::key(MARGIN, KEY_TOP);
    for (at, explained) in morning.passages.iter().enumerate() {
        let (left, top) = (
            MARGIN + at / rows * COLUMN,
            PASSAGES_TOP + at % rows * passage_panel::PITCH,
        );
        body += &passage_panel::panel(left, top, at + 1, explained);
    }
    body += &flip_panel::panel(MARGIN, flip_top, WIDTH - 2 * MARGIN, morning);
    let style = format!("{STYLE}.near{{font-size:12px;fill:{RED}}}");
    svg::page(WIDTH, height, &style, &body)
}

fn heading(caption: &str) -> String {
    let line = |y, class, words| text(MARGIN, y, class, Anchor::Start, words);
    let barriers = "Eight light barriers give one byte every 25 ms. Dark: a barrier is broken. \
                    The band below: the decoded states.";
    let fares = format!("White lines are a second apart. Every run of a bold state pays one fare. {caption}");
    [
        line(50, "title", "A morning at the gate, decoded"),
        line(78, "soft", barriers),
        line(98, "soft", &fares),
        line(
            124,
            "small",
            "The states and the barriers they break, the darker the more often:",
        ),
    ]
    .concat()
}
