//! The strongest rival at the middle sample of a passage, and at every sample, as the wrapper's margins need it.
//!
//! Plain Rust decodes as the reference does, its checks included, bars the chosen state, and walks on from that sample alone:
//! at the middle it makes one walk and a half. It finds out at the end whether there is a rival, when lent memory has
//! changed. The library changes none before it knows, so it makes four walks, two of them in rows of its own.

use crate::contest::{ratio, Contestant, Contestants};
use crate::walks::{case, on_lent_memory};
use compare::case::Case;
use compare::engine::{self, Engine, Given, REFERENCE};
use compare::lent::{lend, Call, Output};
use compare::likeness;
use compare::random::Random;
use reference::viterbi::walk_on;
use reference::Rivalry;
use std::hint::black_box;

/// Plain Rust as described above, for this call alone.
const PLAIN: Engine = Engine {
    call: plain,
    ..REFERENCE
};

pub fn contest(states: usize, samples: usize) {
    let case = case(states, samples).at(samples / 2);
    must_be_right(&case);
    let middle = by_both(&|engine| on_lent_memory(engine, Call::Rival, &case));
    middle.print(&format!("rival S {states} T {samples}, middle"), 1);
    let every = by_both(&|engine| at_every_sample(engine, &case));
    every.print(&format!("margins S {states} T {samples}"), 1);
    if let Some(library) = engine::library() {
        let [rival, viterbi] = [Call::Rival, Call::Viterbi].map(|call| on_lent_memory(library, call, &case));
        println!("{:<28} {:>12.2}", "rival / viterbi, library", ratio(rival, viterbi));
    }
}

/// Plain Rust, and the library where it is at hand.
fn by_both<'a>(contestant: &dyn Fn(Engine) -> Contestant<'a>) -> Contestants<'a> {
    Contestants {
        plain: contestant(PLAIN),
        bio: None,
        library: engine::library().map(contestant),
    }
}

/// Both contestants do all of the work, which is looked at before the clock starts.
fn must_be_right(case: &Case) {
    for engine in [Some(PLAIN), engine::library()].iter().flatten() {
        for index in 0..case.samples.len() {
            let case = case.at(index);
            let lent = lend(Call::Rival, &case, &mut Random::new(2));
            assert_eq!(likeness::library(engine, Call::Rival, &case, lent).wrong, None);
        }
    }
}

/// A rival at each sample in turn, each time on the same lent memory.
fn at_every_sample(engine: Engine, case: &Case) -> Contestant<'static> {
    let mut outputs = lend(Call::Rival, case, &mut Random::new(2));
    let mut case = case.clone();
    Box::new(move || {
        for index in 0..case.samples.len() {
            case.index = index;
            black_box((engine.call)(Call::Rival, black_box(&case), &mut outputs));
        }
    })
}

fn plain(_: Call, case: &Case, outputs: &mut [Output]) -> Given {
    let [Output::Bytes(path), Output::Bytes(rival_path), Output::Numbers(values), Output::Bytes(from)] = outputs else {
        unreachable!("a rival has these outputs");
    };
    let (model, samples) = (case.model(), &case.samples);
    let cells = model.shape.cells(samples.len());
    let best = reference::viterbi(&model, samples, path, values, from).value;
    let chosen = usize::from(path[case.index]);
    values[model.shape.cells(case.index) + chosen] = f64::NEG_INFINITY;
    let (values, from) = (&mut values[..cells], &mut from[..cells]);
    let answer = walk_on(&model, samples, case.index + 1, rival_path, values, from);
    Rivalry { answer, chosen, best }.into()
}
