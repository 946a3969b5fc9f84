//! One case held against bio, or the proved library against the reference.

mod end_state;

use crate::case::Case;
use crate::damage::Named;
use crate::engine::{Engine, Given, REFERENCE};
use crate::lent::{fault, lend, Call, Output};
use crate::random::Random;
use crate::verdict::{Intended, Verdict};
use oracle::{caught, Bio, Trained, Walks};
use reference::answer::{DONE, FIRST_OUTPUT, NO_SAMPLES, ZERO_MASS};
use reference::Answer;

/// What the reference or somebody else gives to a call, with outputs of just their length.
pub struct Ours {
    pub given: Given,
    pub outputs: Vec<Output>,
}

fn ours(call: Call, case: &Case) -> Ours {
    ours_by(&REFERENCE, call, case)
}

/// The same of somebody else.
pub fn ours_by(engine: &Engine, call: Call, case: &Case) -> Ours {
    let mut outputs = lend(call, case, &mut Random::new(0));
    for (output, needed) in outputs.iter_mut().zip(call.needed(case)) {
        output.truncate(needed);
    }
    let given = (engine.call)(call, case, &mut outputs);
    Ours { given, outputs }
}

impl Ours {
    pub fn answer(&self) -> &Answer {
        &self.given.answer
    }

    pub fn numbers(&self, place: usize) -> &[f64] {
        match &self.outputs[place] {
            Output::Numbers(numbers) => numbers,
            Output::Bytes(_) => unreachable!("this output has numbers"),
        }
    }

    pub fn bytes(&self, place: usize) -> &[u8] {
        match &self.outputs[place] {
            Output::Bytes(bytes) => bytes,
            Output::Numbers(_) => unreachable!("this output has bytes"),
        }
    }
}

/// bio's model of a case.
pub fn bio_model(bio: &Bio, case: &Case) -> Box<dyn Walks> {
    (bio.model)(&case.model()).expect("the dimensions of a case are consistent")
}

/// The best path: both tables, path and value, bit for bit. Without an end state both of bio's discrete models give path
/// and value; with one bio leaves it out, and they follow from bio's tables.
pub fn viterbi(bio: &Bio, case: &Case) -> Verdict {
    viterbi_by(&REFERENCE, bio, case)
}

fn viterbi_by(engine: &Engine, bio: &Bio, case: &Case) -> Verdict {
    best_path(&ours_by(engine, Call::Viterbi, case), bio, case)
}

/// Path, values and predecessors against bio's on a case.
pub fn best_path(ours: &Ours, bio: &Bio, case: &Case) -> Verdict {
    let walks = bio_model(bio, case);
    let samples = case.wide_samples();
    let (values, from) = walks.viterbi_tables(&samples);
    let theirs = walks.viterbi(&samples);
    let mut verdict = Verdict::default();
    verdict.whole("refusal", u64::from(ours.answer().refusal), u64::from(DONE));
    verdict.table("values", ours.numbers(1), &values);
    verdict.bytes("from", ours.bytes(2), &from);
    if case.shape.ends {
        let closed = end_state::from_tables(case, &values, &from);
        decoded(&mut verdict, "bio's tables and the end table", ours, &closed);
        note_the_way_out(&mut verdict, ours, &theirs);
    } else {
        decoded(&mut verdict, "bio's model", ours, &theirs);
        let walks = (bio.model_without_end)(&case.model()).expect("the dimensions of a case are consistent");
        let theirs = walks.viterbi(&samples);
        decoded(&mut verdict, "bio's model without an end state", ours, &theirs);
    }
    verdict
}

/// Compares path and value with those of something, bit for bit.
fn decoded(verdict: &mut Verdict, of: &str, ours: &Ours, (path, value): &(Vec<u8>, f64)) {
    verdict.number(&format!("value of {of}"), ours.answer().value, *value);
    verdict.bytes(&format!("path of {of}"), ours.bytes(0), path);
}

/// Notes what the end table changes: the value, and the last state.
fn note_the_way_out(verdict: &mut Verdict, ours: &Ours, (path, value): &(Vec<u8>, f64)) {
    if ours.answer().value.to_bits() != value.to_bits() {
        verdict.note(Intended::EndEntry);
    }
    if ours.bytes(0).last() != path.last() {
        verdict.note(Intended::WayOut);
    }
}

/// The best path with an end state, by bio's own walk to the end state as a state like the others: the value, and the path
/// where there is a way out, bit for bit.
pub fn viterbi_to_the_end(bio: &Bio, case: &Case) -> Verdict {
    viterbi_to_the_end_by(&REFERENCE, bio, case)
}

fn viterbi_to_the_end_by(engine: &Engine, bio: &Bio, case: &Case) -> Verdict {
    best_path_to_the_end(&ours_by(engine, Call::Viterbi, case), bio, case)
}

/// Path and value against those of bio's walk to the end state as a state.
pub fn best_path_to_the_end(ours: &Ours, bio: &Bio, case: &Case) -> Verdict {
    let longer = end_state::as_a_state(case);
    let (path, value) = bio_model(bio, &longer).viterbi(&longer.wide_samples());
    let mut verdict = Verdict::default();
    verdict.number("value", ours.answer().value, value);
    if value > f64::NEG_INFINITY {
        verdict.bytes("path", ours.bytes(0), &path[..case.samples.len()]);
    }
    verdict
}

/// bio's best path of a case, and its value; with an end state they follow from bio's tables.
pub fn best_of_bio(bio: &Bio, case: &Case) -> (Vec<u8>, f64) {
    let walks = bio_model(bio, case);
    let samples = case.wide_samples();
    if !case.shape.ends {
        return walks.viterbi(&samples);
    }
    let (values, from) = walks.viterbi_tables(&samples);
    end_state::from_tables(case, &values, &from)
}

/// Forward: value and table, bit for bit.
pub fn forward(bio: &Bio, case: &Case) -> Verdict {
    table_and_value(Call::Forward, bio, case)
}

/// Backward: value and table, bit for bit.
pub fn backward(bio: &Bio, case: &Case) -> Verdict {
    table_and_value(Call::Backward, bio, case)
}

fn table_and_value(call: Call, bio: &Bio, case: &Case) -> Verdict {
    let ours = ours(call, case);
    let walks = bio_model(bio, case);
    let samples = case.wide_samples();
    let theirs = caught(|| match call {
        Call::Forward => walks.forward(&samples),
        _ => walks.backward(&samples),
    });
    match theirs {
        None if ours.answer().refusal == NO_SAMPLES => Verdict::only(Intended::NoSamples),
        None => Verdict::wrong("bio panics".to_string()),
        Some((values, value)) => {
            let mut verdict = Verdict::default();
            verdict.whole("refusal", u64::from(ours.answer().refusal), u64::from(DONE));
            verdict.number("value", ours.answer().value, value);
            verdict.table("values", ours.numbers(0), &values);
            verdict
        }
    }
}

/// One pass: the four new tables and `probx`, bit for bit but for the intended differences.
pub fn pass(bio: &Bio, case: &Case) -> Verdict {
    let ours = ours(Call::BaumWelch, case);
    let walks = bio_model(bio, case);
    let samples = case.wide_samples();
    let theirs = caught(|| walks.baum_welch(&samples));
    match (ours.answer().refusal, theirs) {
        (NO_SAMPLES, None) => Verdict::only(Intended::NoSamples),
        (ZERO_MASS, None) => Verdict::only(Intended::ZeroMassPanics),
        (ZERO_MASS, Some(theirs)) => zero_mass(case, ours.answer().place, &theirs),
        (DONE, Some(theirs)) => {
            let mut verdict = trained(case, &ours, &theirs);
            let (alpha, _) = walks.forward(&samples);
            let (beta, _) = walks.backward(&samples);
            verdict.number("probx", ours.answer().value, probx(bio, case, &alpha, &beta));
            verdict
        }
        (refusal, theirs) => Verdict::wrong(format!(
            "refusal {refusal}, and bio {}",
            if theirs.is_some() { "goes on" } else { "panics" }
        )),
    }
}

/// bio does not hand out `probx`: its sum over alpha and beta at the last sample.
fn probx(bio: &Bio, case: &Case, alpha: &[f64], beta: &[f64]) -> f64 {
    let states = case.shape.states;
    let last = &alpha[alpha.len() - states..];
    let terms: Vec<f64> = last.iter().zip(&beta[..states]).map(|(a, b)| a + b).collect();
    (bio.leaves.ln_sum_exp)(&terms)
}

/// Where a pass is refused for zero mass, bio's tables are not numbers that a model could have: some entry, of the
/// named state's rows where one is named, is NaN or +inf.
fn zero_mass(case: &Case, place: usize, theirs: &Trained) -> Verdict {
    let states = case.shape.states;
    let row = |table: &[f64]| {
        let columns = table.len() / states;
        match place < states {
            true => table[place * columns..(place + 1) * columns].to_vec(),
            false => table.to_vec(),
        }
    };
    let entries = [row(&theirs.transition), row(&theirs.emission)].concat();
    if entries.iter().any(|x| x.is_nan() || *x == f64::INFINITY) {
        Verdict::only(Intended::ZeroMassNotFinite)
    } else {
        Verdict::wrong("zero mass, and bio's rows are numbers".to_string())
    }
}

fn trained(case: &Case, ours: &Ours, theirs: &Trained) -> Verdict {
    let mut verdict = Verdict::default();
    let emission = all_columns(case, &theirs.emission);
    if emission.len() > theirs.emission.len() {
        verdict.note(Intended::AbsentSymbols);
    }
    let tables = [
        ("transition", &theirs.transition),
        ("emission", &emission),
        ("initial", &theirs.initial),
        ("end", &theirs.end),
    ];
    for (place, (name, table)) in tables.into_iter().enumerate() {
        let capped: Vec<f64> = table.iter().map(|x| if *x > 0.0 { 0.0 } else { *x }).collect();
        if table.iter().any(|x| *x > 0.0) {
            verdict.note(Intended::Cap);
        }
        verdict.table(name, ours.numbers(place), &capped);
    }
    verdict
}

/// bio's emission table with the columns of absent symbols at minus infinity.
fn all_columns(case: &Case, emission: &[f64]) -> Vec<f64> {
    let mut present: Vec<usize> = case.wide_samples();
    present.sort_unstable();
    present.dedup();
    let symbols = case.shape.symbols;
    let mut all = vec![f64::NEG_INFINITY; case.shape.states * symbols];
    for (row, theirs) in all.chunks_mut(symbols).zip(emission.chunks(present.len())) {
        for (symbol, entry) in present.iter().zip(theirs) {
            row[*symbol] = *entry;
        }
    }
    all
}

/// The distance of forward's value from bio's, 0 where they are equal.
pub fn forward_distance(bio: &Bio, case: &Case) -> f64 {
    let ours = ours(Call::Forward, case).answer().value;
    let (_, theirs) = bio_model(bio, case).forward(&case.wide_samples());
    if ours == theirs {
        return 0.0;
    }
    (ours - theirs).abs()
}

/// The proved library against the reference: answer and every bit of the lent memory, surplus included.
pub fn library(library: &Engine, call: Call, case: &Case, lent: Vec<Output>) -> Verdict {
    let (mut ours, mut theirs) = (lent.clone(), lent);
    let expected = (REFERENCE.call)(call, case, &mut ours);
    let given = (library.call)(call, case, &mut theirs);
    let mut verdict = Verdict::default();
    verdict.given(&expected, &given);
    for (number, (ours, theirs)) in (FIRST_OUTPUT..).zip(ours.iter().zip(&theirs)) {
        verdict.output(number, ours, theirs);
    }
    verdict
}

/// The reference against RULES 3.4 on lent memory, and, after damage, against the answer that it must lead to.
pub fn memory(call: Call, case: &Case, expected: Option<Named>, lent: Vec<Output>) -> Verdict {
    memory_by(&REFERENCE, call, case, expected, lent)
}

/// The same of somebody else.
pub fn memory_by(engine: &Engine, call: Call, case: &Case, expected: Option<Named>, lent: Vec<Output>) -> Verdict {
    let mut outputs = lent.clone();
    let given = (engine.call)(call, case, &mut outputs);
    let answer = given.answer;
    let mut verdict = Verdict {
        numbers: outputs.iter().map(|output| output.len() as u64).sum(),
        wrong: fault(call, case, &answer, &lent, &outputs),
        refusal: answer.refusal,
        ..Verdict::default()
    };
    if let Some((refusal, table, place)) = expected {
        let refused = Given::refused(call, Answer::refused(refusal, table, place));
        verdict.given(&given, &refused);
    }
    verdict
}
