//! The calls on a model.

use crate::contest::{Contestant, Contestants, Times};
use compare::case::{of_kinds, Case, Kind, Sizes};
use compare::engine::{self, Engine, Given, REFERENCE};
use compare::lent::{lend, Call, Output};
use compare::random::Random;
use oracle::Walks;
use reference::likelihood::{backward_as_written, forward_as_written};
use std::hint::black_box;

/// The reference with the exp that is a loop as RULES 4.1 reads, for the two calls that have it.
pub const AS_WRITTEN: Engine = Engine {
    call: as_written,
    ..REFERENCE
};

fn as_written(call: Call, case: &Case, outputs: &mut [Output]) -> Given {
    let answer = match (call, outputs) {
        (Call::Forward, [Output::Numbers(values)]) => forward_as_written(&case.model(), &case.samples, values),
        (Call::Backward, [Output::Numbers(values)]) => backward_as_written(&case.model(), &case.samples, values),
        _ => unreachable!("forward and backward are timed so"),
    };
    answer.into()
}

/// Times one call against plain Rust and bio, and prints a line.
pub fn contest(plain: Engine, call: Call, states: usize, samples: usize) {
    let case = case(states, samples);
    let wide = case.wide_samples();
    let model = oracle::modes().and_then(|modes| (modes.published.model)(&case.model()));
    let contestants = Contestants {
        plain: on_lent_memory(plain, call, &case),
        bio: model.as_ref().map(|model| bio(call, model.as_ref(), &wide)),
        library: engine::library().map(|library| on_lent_memory(library, call, &case)),
    };
    contestants.print(&format!("{} S {states} T {samples}", call.name()), 1);
}

/// Times Viterbi with an end state, whose table is the initial one, against plain Rust, and prints a line. bio leaves the
/// end table out, so that it does not do the same work.
pub fn viterbi_with_end_state(states: usize, samples: usize) {
    let mut case = case(states, samples);
    (case.shape.ends, case.end) = (true, case.initial.clone());
    without_bio(Call::Viterbi, &case).print(&format!("viterbi S {states} T {samples}"), 1);
}

/// Times forward at each number of states, and prints what a term of a sum costs, of which a cell has one for each state:
/// as a ratio to that at the last number, for plain Rust and for the library.
pub fn cost_of_a_term(states: &[usize], samples: usize) {
    let times: Vec<Times> = states.iter().map(|states| forward_alone(*states, samples)).collect();
    let line = |name: &str, time: &dyn Fn(&Times) -> Option<f64>| {
        let costs = states
            .iter()
            .zip(&times)
            .map(|(states, times)| Some(time(times)? / (states * states) as f64));
        if let Some(costs) = costs.collect::<Option<Vec<f64>>>() {
            let ratios = costs
                .iter()
                .map(|cost| format!(" {:>6.2}", cost / costs[costs.len() - 1]));
            println!("{name:<28}{}", ratios.collect::<String>());
        }
    };
    let heading = states.iter().map(|states| format!(" {:>6}", format!("S {states}")));
    println!(
        "\n{:<28}{}",
        format!("a term of forward, T {samples}"),
        heading.collect::<String>()
    );
    line("plain Rust", &|times| Some(times.plain));
    line("library", &|times| times.library);
}

fn forward_alone(states: usize, samples: usize) -> Times {
    without_bio(Call::Forward, &case(states, samples)).times()
}

/// Plain Rust, and the library where it is at hand.
pub fn without_bio(call: Call, case: &Case) -> Contestants<'_> {
    Contestants {
        plain: on_lent_memory(REFERENCE, call, case),
        bio: None,
        library: engine::library().map(|library| on_lent_memory(library, call, case)),
    }
}

/// A random model without an end state whose rows are distributions.
pub fn case(states: usize, samples: usize) -> Case {
    let sizes = Sizes {
        states,
        symbols: 64,
        samples,
    };
    of_kinds(sizes, [Kind::Normalised; 4], &mut Random::new(1)).without_end_state()
}

/// A call on a case, each time on the same lent memory.
pub fn on_lent_memory(engine: Engine, call: Call, case: &Case) -> Contestant<'_> {
    let mut outputs = lend(call, case, &mut Random::new(2));
    Box::new(move || {
        black_box((engine.call)(call, black_box(case), &mut outputs));
    })
}

fn bio<'a>(call: Call, model: &'a dyn Walks, samples: &'a [usize]) -> Contestant<'a> {
    match call {
        Call::Viterbi => Box::new(|| drop(black_box(model.viterbi(black_box(samples))))),
        Call::Forward => Box::new(|| drop(black_box(model.forward(black_box(samples))))),
        Call::Backward => Box::new(|| drop(black_box(model.backward(black_box(samples))))),
        Call::BaumWelch => Box::new(|| drop(black_box(model.baum_welch(black_box(samples))))),
        Call::WriteModel | Call::Rival => unreachable!("bio has neither a model file nor a rival"),
    }
}
