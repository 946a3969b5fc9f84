//! The twelve states of the gate: their names, their fares, which barriers each breaks, and which state follows.

/// Barrier i is bit i of a sample, the lowest first.
pub const BARRIERS: usize = 8;
/// The heights of the barriers above the ground, in millimetres.
pub const HEIGHTS: [i32; BARRIERS] = [80, 300, 550, 800, 1050, 1300, 1550, 1850];
/// A sample is a byte: any set of barriers may be broken.
pub const SYMBOLS: usize = 1 << BARRIERS;

/// What somebody who passes has to pay for.
#[derive(Clone, Copy, Debug, PartialEq, Eq)]
pub enum Fare {
    Child,
    Adult,
    AdultWithSkis,
    Snowboarder,
    AdultWithPushchair,
}

pub const FARES: [Fare; 5] = [
    Fare::Child,
    Fare::Adult,
    Fare::AdultWithSkis,
    Fare::Snowboarder,
    Fare::AdultWithPushchair,
];

impl Fare {
    pub fn name(self) -> &'static str {
        match self {
            Fare::Child => "child",
            Fare::Adult => "adult",
            Fare::AdultWithSkis => "adult with skis",
            Fare::Snowboarder => "snowboarder",
            Fare::AdultWithPushchair => "adult with pushchair",
        }
    }
}

pub struct State {
    pub name: &'static str,
    /// The fare class of a body. What comes before or after a body (a step, skis, a board, a pushchair) has none, so
    /// that nobody pays twice; nor has the empty gate or a dog.
    pub fare: Option<Fare>,
    /// Of a hundred samples in this state, in how many each barrier is broken.
    pub broken: [u8; BARRIERS],
    /// Of a thousand samples in this state, how many are followed by each state.
    pub next: [u16; STATES],
    /// Of a thousand passages, how many begin in this state.
    pub first: u16,
    /// Of a thousand samples in this state, how many are the last of their passage. It counts at the exit lane alone.
    pub last: u16,
    pub colour: &'static str,
}

pub const STATES: usize = 12;
/// The number of the state `adult`.
pub const ADULT: usize = 4;

/// A step is a leg before or after the body. Skis lie on the shoulder, so that tips and tails go before and after the
/// head. A rider's board lies on the ground. A pushchair has its parent behind it.
#[rustfmt::skip]
pub const ALL: [State; STATES] = [
    State { name: "empty", fare: None, colour: "#e3e6ea", first: 989, last: 40,
        broken: [1, 1, 1, 1, 1, 1, 1, 1],
        next: [981, 3, 0, 6, 0, 3, 0, 2, 0, 3, 0, 2] },
    State { name: "child-step", fare: None, colour: "#f7d694", first: 1, last: 1,
        broken: [95, 90, 4, 2, 1, 1, 1, 1],
        next: [60, 800, 120, 8, 0, 4, 0, 3, 0, 3, 0, 2] },
    State { name: "child", fare: Some(Fare::Child), colour: "#e69f00", first: 1, last: 1,
        broken: [70, 80, 97, 97, 92, 3, 1, 1],
        next: [20, 60, 920, 0, 0, 0, 0, 0, 0, 0, 0, 0] },
    State { name: "adult-step", fare: None, colour: "#9cc9ea", first: 1, last: 1,
        broken: [95, 95, 85, 4, 1, 1, 1, 1],
        next: [45, 8, 0, 800, 120, 4, 15, 3, 0, 3, 0, 2] },
    State { name: "adult", fare: Some(Fare::Adult), colour: "#0072b2", first: 1, last: 1,
        broken: [70, 75, 90, 97, 98, 97, 93, 3],
        next: [10, 0, 0, 60, 930, 0, 0, 0, 0, 0, 0, 0] },
    State { name: "skis", fare: None, colour: "#c9bcec", first: 1, last: 1,
        broken: [30, 30, 25, 2, 1, 3, 93, 95],
        next: [20, 3, 0, 3, 0, 930, 40, 2, 0, 1, 0, 1] },
    State { name: "skier", fare: Some(Fare::AdultWithSkis), colour: "#6a4fb3", first: 1, last: 1,
        broken: [70, 75, 90, 97, 98, 97, 97, 96],
        next: [10, 0, 0, 10, 0, 50, 930, 0, 0, 0, 0, 0] },
    State { name: "board", fare: None, colour: "#97dcc6", first: 1, last: 1,
        broken: [96, 3, 1, 1, 1, 1, 1, 1],
        next: [20, 3, 0, 3, 0, 2, 0, 930, 40, 1, 0, 1] },
    State { name: "rider", fare: Some(Fare::Snowboarder), colour: "#009e73", first: 1, last: 1,
        broken: [98, 95, 96, 97, 98, 97, 93, 3],
        next: [10, 0, 0, 0, 0, 0, 0, 60, 930, 0, 0, 0] },
    State { name: "pushchair", fare: None, colour: "#f0bcd6", first: 1, last: 1,
        broken: [92, 95, 96, 90, 50, 2, 1, 1],
        next: [5, 0, 0, 0, 0, 0, 0, 0, 0, 950, 45, 0] },
    State { name: "parent", fare: Some(Fare::AdultWithPushchair), colour: "#c2478b", first: 1, last: 1,
        broken: [70, 75, 90, 97, 98, 97, 93, 3],
        next: [15, 0, 0, 55, 0, 0, 0, 0, 0, 0, 930, 0] },
    State { name: "dog", fare: None, colour: "#94765a", first: 1, last: 1,
        broken: [40, 95, 92, 4, 1, 1, 1, 1],
        next: [35, 3, 0, 8, 0, 2, 0, 1, 0, 1, 0, 950] },
];

#[cfg(test)]
mod tests {
    use super::*;

    #[test]
    fn the_adult_has_its_number() {
        assert_eq!(ALL[ADULT].name, "adult");
    }

    #[test]
    fn every_distribution_is_whole() {
        assert_eq!(ALL.iter().map(|state| state.first).sum::<u16>(), 1000);
        for state in &ALL {
            assert_eq!(state.next.iter().sum::<u16>(), 1000, "{}", state.name);
            assert!((1..1000).contains(&state.last), "{}", state.name);
            assert!(
                state.broken.iter().all(|percent| (1..100).contains(percent)),
                "{}",
                state.name
            );
        }
    }
}
