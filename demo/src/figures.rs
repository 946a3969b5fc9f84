//! Who passes: side views made of boxes, from which the simulated barriers are broken.

/// A box of a side view in millimetres: from the front of the figure backward, and from the ground upward.
pub struct Part {
    pub along: (i32, i32),
    pub height: (i32, i32),
}

pub type Figure = &'static [Part];

const fn part(from: i32, to: i32, low: i32, high: i32) -> Part {
    Part {
        along: (from, to),
        height: (low, high),
    }
}

/// 1.18 m tall: a leg ahead, two legs under the trunk with light between them, a leg behind.
pub const CHILD: Figure = &[
    part(0, 110, 0, 420),
    part(110, 430, 380, 1180),
    part(110, 210, 0, 420),
    part(320, 430, 0, 420),
    part(430, 540, 0, 380),
];

/// 1.75 m tall, in the same stride.
pub const ADULT: Figure = &[
    part(0, 160, 0, 620),
    part(160, 640, 520, 1750),
    part(160, 330, 0, 620),
    part(480, 640, 0, 620),
    part(640, 820, 0, 600),
];

/// An adult with skis on the shoulder: tips ahead and tails behind, at the height of the head and above.
pub const SKIER: Figure = &[
    part(0, 1500, 1500, 1950),
    part(420, 560, 0, 620),
    part(560, 1060, 520, 1750),
    part(560, 720, 0, 620),
    part(900, 1060, 0, 620),
    part(1060, 1200, 0, 600),
];

/// A rider with both feet near the board, which lies on the ground.
pub const SNOWBOARDER: Figure = &[part(0, 1560, 0, 130), part(520, 1060, 0, 1690)];

/// Wheels, seat, hood and handle; the parent's step falls under the handle.
pub const PUSHCHAIR_AND_PARENT: Figure = &[
    part(0, 860, 0, 280),
    part(20, 840, 250, 980),
    part(260, 660, 950, 1120),
    part(800, 1040, 980, 1120),
    part(860, 1040, 0, 620),
    part(1040, 1500, 520, 1750),
    part(1040, 1190, 0, 620),
    part(1340, 1500, 0, 620),
    part(1500, 1660, 0, 600),
];

/// A trunk between knee and thigh, on legs that let the light through between them.
pub const DOG: Figure = &[part(0, 860, 280, 640), part(60, 220, 0, 300), part(620, 780, 0, 300)];
