//! The simulated morning: who passes the gate and when, seen by eight barriers of which each errs now and then; and a
//! passage of the exit lane.
//!
//! No real data: the side views of `figures` move past the barriers at a walking pace, and a seeded generator flips
//! bits. Everything is whole numbers, so the recording is the same on every machine.

use crate::figures::{Figure, ADULT, CHILD, DOG, PUSHCHAIR_AND_PARENT, SKIER, SNOWBOARDER};
use crate::random::Random;
use crate::recording::Passage;
use crate::states::HEIGHTS;

const SEED: u64 = 20240101;
/// How often in a thousand samples a barrier errs, and how often a dirty one does.
const CLEAN: u64 = 8;
const DIRTY: u64 = 250;

/// One figure on its way: its front reaches the barriers at a sample, and it moves so many millimetres a sample.
struct Walk {
    figure: Figure,
    enters: i32,
    pace: i32,
    /// How far the figure is in when it stops, and for how many samples.
    stop: (i32, i32),
}

struct Scene {
    clock: &'static str,
    note: &'static str,
    length: i32,
    walks: Vec<Walk>,
    dirty: Option<usize>,
}

fn walk(figure: Figure, enters: i32, pace: i32) -> Walk {
    Walk {
        figure,
        enters,
        pace,
        stop: (0, 0),
    }
}

fn scene(clock: &'static str, note: &'static str, length: i32, walks: Vec<Walk>) -> Scene {
    Scene {
        clock,
        note,
        length,
        walks,
        dirty: None,
    }
}

fn scenes() -> Vec<Scene> {
    let mut scenes = calm_scenes();
    scenes.extend(busy_scenes());
    scenes
}

fn calm_scenes() -> Vec<Scene> {
    vec![
        scene("07:58:04", "an adult", 96, vec![walk(ADULT, 30, 30)]),
        scene("08:01:37", "a child", 88, vec![walk(CHILD, 26, 22)]),
        scene("08:02:10", "an adult with skis", 120, vec![walk(SKIER, 30, 30)]),
        scene("08:06:55", "nobody", 64, vec![]),
        scene("08:07:21", "a snowboarder", 110, vec![walk(SNOWBOARDER, 28, 38)]),
        scene(
            "08:11:48",
            "an adult with a pushchair",
            140,
            vec![walk(PUSHCHAIR_AND_PARENT, 34, 26)],
        ),
        scene("08:15:02", "a dog", 92, vec![walk(DOG, 24, 28)]),
        Scene {
            dirty: Some(5),
            ..scene("08:19:30", "an adult, barrier 5 dirty", 112, vec![walk(ADULT, 40, 28)])
        },
    ]
}

fn busy_scenes() -> Vec<Scene> {
    let standing = Walk {
        stop: (400, 70),
        ..walk(ADULT, 30, 30)
    };
    let children = vec![walk(CHILD, 22, 26), walk(CHILD, 52, 24), walk(CHILD, 88, 25)];
    let family = vec![
        walk(ADULT, 18, 28),
        walk(CHILD, 66, 24),
        walk(SKIER, 100, 30),
        walk(DOG, 178, 30),
    ];
    vec![
        scene(
            "08:24:16",
            "two adults, close",
            120,
            vec![walk(ADULT, 28, 30), walk(ADULT, 56, 30)],
        ),
        scene(
            "08:24:41",
            "an adult, a child close behind",
            124,
            vec![walk(ADULT, 28, 30), walk(CHILD, 56, 24)],
        ),
        scene("08:31:09", "an adult who stands in the gate", 168, vec![standing]),
        scene("08:33:58", "three children", 132, children),
        scene(
            "08:40:12",
            "a dog, then an adult",
            124,
            vec![walk(DOG, 22, 30), walk(ADULT, 64, 30)],
        ),
        scene(
            "08:45:27",
            "skis, then a snowboarder",
            168,
            vec![walk(SKIER, 26, 32), walk(SNOWBOARDER, 92, 36)],
        ),
        scene("08:52:33", "a slow child", 140, vec![walk(CHILD, 36, 9)]),
        scene("08:59:40", "an adult, a child, skis, a dog", 240, family),
    ]
}

/// The recording that morning.txt holds.
pub fn simulated() -> Vec<Passage> {
    let mut random = Random::from_seed(SEED);
    scenes().iter().map(|scene| recorded(scene, &mut random)).collect()
}

/// The passage that exit.txt holds: the lane stops recording one sample behind the last step, and in that sample the
/// dirty barrier errs.
pub fn simulated_exit_lane() -> Passage {
    let scene = Scene {
        dirty: Some(2),
        ..scene("09:12:25", "an adult, barrier 2 dirty", 52, vec![walk(ADULT, 23, 30)])
    };
    recorded(&scene, &mut Random::from_seed(SEED))
}

fn recorded(scene: &Scene, random: &mut Random) -> Passage {
    Passage {
        clock: scene.clock.to_string(),
        samples: (0..scene.length).map(|t| sample(scene, t, random)).collect(),
        note: scene.note.to_string(),
    }
}

fn sample(scene: &Scene, t: i32, random: &mut Random) -> u16 {
    let mut bits = 0;
    for (barrier, height) in HEIGHTS.into_iter().enumerate() {
        let errs = random.happens(if scene.dirty == Some(barrier) { DIRTY } else { CLEAN });
        let broken = scene.walks.iter().any(|walk| breaks(walk, t, height));
        bits |= u16::from(broken != errs) << barrier;
    }
    bits
}

/// Whether the slice of the figure between the posts at sample t reaches this height.
fn breaks(walk: &Walk, t: i32, height: i32) -> bool {
    let slice = inside(walk, t);
    let holds = |(from, to): (i32, i32), x: i32| from <= x && x < to;
    walk.figure
        .iter()
        .any(|part| holds(part.along, slice) && holds(part.height, height))
}

/// How far the figure is in at sample t, below 0 before it has come.
fn inside(walk: &Walk, t: i32) -> i32 {
    let (at, samples) = walk.stop;
    let moved = (t - walk.enters) * walk.pace;
    let late = moved - samples * walk.pace;
    if moved < at || samples == 0 {
        moved
    } else {
        late.max(at)
    }
}
