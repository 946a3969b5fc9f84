//! Times contestants in turn and prints their ratios.

use std::time::Instant;

/// How often each contestant has a turn, and how long a turn is at least.
const TURNS: usize = 15;
const SECONDS: f64 = 0.002;

/// One way to do the same work.
pub type Contestant<'a> = Box<dyn FnMut() + 'a>;

/// Plain Rust, and the others where they are at hand.
pub struct Contestants<'a> {
    pub plain: Contestant<'a>,
    pub bio: Option<Contestant<'a>>,
    pub library: Option<Contestant<'a>>,
}

/// Seconds for one run of each contestant: the best turn of each, the turns taken one after the other so that what else the
/// machine does falls on all alike.
pub struct Times {
    pub plain: f64,
    pub bio: Option<f64>,
    pub library: Option<f64>,
}

impl Contestants<'_> {
    pub fn times(mut self) -> Times {
        let mut times = Times {
            plain: f64::INFINITY,
            bio: self.bio.as_ref().map(|_| f64::INFINITY),
            library: self.library.as_ref().map(|_| f64::INFINITY),
        };
        for _ in 0..TURNS {
            times.plain = times.plain.min(turn(&mut self.plain));
            better(&mut times.bio, &mut self.bio);
            better(&mut times.library, &mut self.library);
        }
        times
    }

    /// Times the contestants and prints a line; each does so many calls in a run.
    pub fn print(self, name: &str, calls: usize) {
        let times = self.times();
        let absent = || "-".to_string();
        let nanoseconds =
            |time: Option<f64>| time.map_or_else(absent, |time| format!("{:.0}", time * 1e9 / calls as f64));
        let ratio = |over: Option<f64>, under: Option<f64>| match (over, under) {
            (Some(over), Some(under)) => format!("{:.2}", over / under),
            _ => absent(),
        };
        let plain = Some(times.plain);
        println!(
            "{name:<28} {:>12} {:>14} {:>15} {:>13} {:>12}",
            nanoseconds(times.library),
            nanoseconds(plain),
            ratio(times.library, plain),
            ratio(times.library, times.bio),
            ratio(times.bio, plain)
        );
    }
}

/// How many times as long the first takes as the second, by the best turn of each.
pub fn ratio(mut over: Contestant, mut under: Contestant) -> f64 {
    let (mut longer, mut shorter) = (f64::INFINITY, f64::INFINITY);
    for _ in 0..TURNS {
        longer = longer.min(turn(&mut over));
        shorter = shorter.min(turn(&mut under));
    }
    longer / shorter
}

fn better(best: &mut Option<f64>, contestant: &mut Option<Contestant>) {
    if let (Some(best), Some(contestant)) = (best, contestant) {
        *best = best.min(turn(contestant));
    }
}

/// Seconds for one run, from as many runs as fill a turn.
fn turn(contestant: &mut Contestant) -> f64 {
    let started = Instant::now();
    let mut runs = 0;
    loop {
        contestant();
        runs += 1;
        let seconds = started.elapsed().as_secs_f64();
        if seconds >= SECONDS {
            return seconds / f64::from(runs);
        }
    }
}

pub fn print_heading(title: &str) {
    println!(
        "\n{title:<28} {:>12} {:>14} {:>15} {:>13} {:>12}",
        "library, ns", "plain Rust, ns", "library / plain", "library / bio", "bio / plain"
    );
}
