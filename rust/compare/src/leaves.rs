//! The leaves and kernels: the reference against bio, and the proved library against the reference.

use crate::engine::{Leaves, One, Two, REFERENCE};
use crate::random::Random;
use crate::verdict::{Intended, Verdict};
use oracle::{caught, Modes};
use reference::answer::{DONE, NEGATIVE_DIFFERENCE, NOT_GOOD, OVERSHOOT};
use reference::{leaves, Answer};

/// Numbers at the edges of what the leaves tell apart.
const EDGES: [f64; 24] = [
    0.0,
    -0.0,
    1.0,
    -1.0,
    2.0,
    0.5,
    -0.5,
    -0.693,
    -0.6930000000000001,
    -0.6929999999999998,
    -42.0,
    -42.97512519471661,
    -43.0,
    -500.0,
    -745.2,
    1e308,
    -1e308,
    f64::MAX,
    f64::MIN,
    f64::MIN_POSITIVE,
    -f64::MIN_POSITIVE,
    f64::INFINITY,
    f64::NEG_INFINITY,
    f64::NAN,
];

/// An argument: at an edge, ordinary, a probability, subnormal, or any bits at all.
pub fn argument(random: &mut Random) -> f64 {
    match random.below(8) {
        0 | 1 => random.pick(&EDGES),
        2 => -50.0 * random.unit(),
        3 => -random.unit(),
        4 => random.unit(),
        5 => f64::from_bits(random.bits() >> 12 | random.bits() << 63),
        6 => 1e-12 * (random.unit() - 0.5),
        _ => f64::from_bits(random.bits()),
    }
}

/// A second argument: often near the first or the same.
pub fn near(first: f64, random: &mut Random) -> f64 {
    match random.below(6) {
        0 => first,
        1 => f64::from_bits(first.to_bits().wrapping_add(random.below(5) as u64)),
        2 => f64::from_bits(first.to_bits().wrapping_sub(random.below(5) as u64)),
        3 => first - random.unit(),
        _ => argument(random),
    }
}

/// A slice of arguments of any length up to 40, seldom with a NaN.
pub fn slice(random: &mut Random) -> Vec<f64> {
    let same = argument(random);
    let length = random.below(41);
    (0..length)
        .map(|_| match random.below(4) {
            0 => near(same, random),
            1 => -random.unit(),
            _ => f64::max(-50.0 * random.unit(), argument(random)),
        })
        .collect()
}

/// A leaf's answer against bio's result, which is none where bio panics. Where ours refuses, bio has no refusal.
fn against(ours: Answer, theirs: Option<f64>, has_nan: bool) -> Verdict {
    let mut verdict = Verdict::default();
    match (ours.refusal, theirs) {
        (DONE, Some(theirs)) => verdict.number("value", ours.value, theirs),
        (NOT_GOOD, _) if has_nan => verdict.note(Intended::NotANumber),
        (NOT_GOOD, _) => verdict.note(Intended::OutsideDomain),
        (NEGATIVE_DIFFERENCE, None) => verdict.note(Intended::NegativeDifferencePanics),
        (OVERSHOOT, None) => verdict.note(Intended::OvershootPanics),
        (OVERSHOOT, Some(_)) if has_nan => verdict.note(Intended::NotANumberEpsilon),
        (refusal, theirs) => verdict.wrong = Some(format!("refusal {refusal}, and bio {theirs:?}")),
    }
    verdict
}

/// Adds what was asked to a verdict that is wrong.
fn of(asked: &[f64], mut verdict: Verdict) -> Verdict {
    verdict.wrong = verdict.wrong.map(|text| format!("{text}, of {asked:?}"));
    verdict
}

/// The verdicts of one round: every leaf on fresh arguments, with its name.
pub fn against_bio(modes: &Modes, random: &mut Random) -> Vec<(&'static str, Verdict)> {
    let x = argument(random);
    let y = near(x, random);
    let xs = slice(random);
    against_bio_on(modes, x, y, &xs)
}

/// The verdicts of every leaf on these arguments, with its name.
pub fn against_bio_on(modes: &Modes, x: f64, y: f64, xs: &[f64]) -> Vec<(&'static str, Verdict)> {
    let mut verdicts = one_argument(modes, x);
    verdicts.extend(two_arguments(modes, x, y));
    verdicts.extend(slices(modes, xs));
    verdicts
}

fn one_argument(modes: &Modes, x: f64) -> Vec<(&'static str, Verdict)> {
    let (kernels, published) = (modes.kernels.leaves, modes.published.leaves);
    let nan = x.is_nan();
    let compared =
        |name, ours: Answer, theirs: fn(f64) -> f64| (name, of(&[x], against(ours, caught(|| theirs(x)), nan)));
    let mut valid = Verdict::default();
    valid.whole(
        "is_valid",
        u64::from(leaves::is_valid(x)),
        u64::from((published.is_valid)(x)),
    );
    vec![
        compared(
            "ln_one_minus_exp",
            leaves::ln_one_minus_exp(x),
            kernels.ln_one_minus_exp,
        ),
        compared("Prob to LogProb", leaves::log_of_prob(x), kernels.log_of_prob),
        compared("LogProb to Prob", leaves::prob_of_log(x), kernels.prob_of_log),
        compared("LogProb to PHREDProb", leaves::phred_of_log(x), published.phred_of_log),
        compared("PHREDProb to LogProb", leaves::log_of_phred(x), published.log_of_phred),
        ("is_valid", of(&[x], valid)),
        ("Prob::checked", of(&[x], checked(x, (published.checked)(x)))),
    ]
}

/// `Prob::checked` refuses just where bio gives an error.
fn checked(x: f64, theirs: Option<f64>) -> Verdict {
    let ours = leaves::checked(x);
    let mut verdict = Verdict::default();
    let refused = u64::from(ours.refusal == NOT_GOOD);
    verdict.whole("refused", refused, u64::from(theirs.is_none()));
    if let Some(theirs) = theirs {
        verdict.number("value", ours.value, theirs);
    }
    verdict
}

fn two_arguments(modes: &Modes, x: f64, y: f64) -> Vec<(&'static str, Verdict)> {
    let (kernels, published) = (modes.kernels.leaves, modes.published.leaves);
    let nan = x.is_nan() || y.is_nan();
    let compared = |name, ours: Answer, theirs: fn(f64, f64) -> f64| {
        (name, of(&[x, y], against(ours, caught(|| theirs(x, y)), nan)))
    };
    vec![
        compared("ln_add_exp", leaves::ln_add_exp(x, y), kernels.ln_add_exp),
        compared("ln_sub_exp", leaves::ln_sub_exp(x, y), kernels.ln_sub_exp),
        compared(
            "cap_numerical_overshoot",
            leaves::cap_numerical_overshoot(x, y),
            published.cap_numerical_overshoot,
        ),
    ]
}

fn slices(modes: &Modes, xs: &[f64]) -> Vec<(&'static str, Verdict)> {
    let kernels = modes.kernels.leaves;
    let nan = xs.iter().any(|x| x.is_nan());
    let sum = against(leaves::ln_sum_exp(xs), caught(|| (kernels.ln_sum_exp)(xs)), nan);
    let mut out = vec![0.0; xs.len()];
    let answer = leaves::ln_cumsum_exp(xs, &mut out);
    let mut cumulative = Verdict::default();
    match answer.refusal {
        DONE => {
            let theirs = (kernels.ln_cumsum_exp)(xs);
            cumulative.table("sums", &out, &theirs);
            let last = theirs.last().copied().unwrap_or(f64::NEG_INFINITY);
            cumulative.number("value", answer.value, last);
        }
        NOT_GOOD if nan => cumulative.note(Intended::NotANumber),
        refusal => cumulative.wrong = Some(format!("refusal {refusal}")),
    }
    vec![("ln_sum_exp", of(xs, sum)), ("ln_cumsum_exp", of(xs, cumulative))]
}

/// The verdicts of one round of the library's leaves against the reference's.
pub fn library(library: &Leaves, random: &mut Random) -> Vec<(&'static str, Verdict)> {
    let ours = REFERENCE.leaves;
    let x = argument(random);
    let y = near(x, random);
    let xs = slice(random);
    let one = |leaf: fn(&Leaves) -> One| same(&[x], leaf(&ours)(x), leaf(library)(x));
    let two = |leaf: fn(&Leaves) -> Two| same(&[x, y], leaf(&ours)(x, y), leaf(library)(x, y));
    vec![
        ("exp", one(|leaves| leaves.exp)),
        ("ln", one(|leaves| leaves.ln)),
        ("ln_one_minus_exp", one(|leaves| leaves.ln_one_minus_exp)),
        ("ln_add_exp", two(|leaves| leaves.ln_add_exp)),
        ("ln_sub_exp", two(|leaves| leaves.ln_sub_exp)),
        ("cap_numerical_overshoot", two(|leaves| leaves.cap_numerical_overshoot)),
        (
            "ln_sum_exp",
            same(&xs, (ours.ln_sum_exp)(&xs), (library.ln_sum_exp)(&xs)),
        ),
        ("ln_cumsum_exp", cumulative(library, &xs, random)),
    ]
}

fn same(asked: &[f64], ours: Answer, theirs: Answer) -> Verdict {
    let mut verdict = Verdict::default();
    verdict.answer(&ours, &theirs);
    of(asked, verdict)
}

/// Cumulative sums into an output that is up to three longer, or too short.
fn cumulative(library: &Leaves, xs: &[f64], random: &mut Random) -> Verdict {
    let length = (xs.len() + random.below(5)).saturating_sub(1);
    let mut ours: Vec<f64> = (0..length).map(|_| f64::from_bits(random.bits())).collect();
    let mut theirs = ours.clone();
    let expected = (REFERENCE.leaves.ln_cumsum_exp)(xs, &mut ours);
    let mut verdict = same(xs, expected, (library.ln_cumsum_exp)(xs, &mut theirs));
    verdict.table("output 5", &ours, &theirs);
    verdict
}
