//! The reader and the writer of model files, on a model of 12 states and 256 symbols without an end state.
//!
//! Plain Rust makes the library's checks in its order. It goes over a body for its sum, again for its entries, as numbers,
//! and again to copy them. A reader that looked at the entries as whole numbers took a seventh more time.

use crate::contest::{Contestant, Contestants};
use crate::entries::good_model;
use crate::walks::without_bio;
use compare::engine::{self, Engine, REFERENCE};
use compare::lent::Call;
use compare::model_file::{by_the_rule, written_by_the_rule, Lent};
use compare::verdict::Verdict;
use reference::Tables;
use std::hint::black_box;

pub fn contest() {
    let good = good_model().without_end_state();
    print_reading("25,880 bytes read", &Lent::of(&good, [0; 4]));
    let mut last = good.clone();
    last.initial[11] = 0.5;
    print_reading("the last word bad", &Lent::of(&last, [0; 4]));
    must_be_right(|engine| written_by_the_rule(engine, &good));
    without_bio(Call::WriteModel, &good).print("25,880 bytes written", 1);
}

/// Times both readers on a file, and prints a line.
fn print_reading(name: &str, lent: &Lent) {
    must_be_right(|engine| by_the_rule(engine, lent));
    let contestants = Contestants {
        plain: reading(REFERENCE, lent),
        bio: None,
        library: engine::library().map(|library| reading(library, lent)),
    };
    contestants.print(name, 1);
}

/// Both contestants do all of the work, which is looked at before the clock starts.
fn must_be_right(judged: impl Fn(&Engine) -> Verdict) {
    for engine in [Some(REFERENCE), engine::library()].iter().flatten() {
        assert_eq!(judged(engine).wrong, None);
    }
}

/// A reading, each time into the same lent tables.
fn reading(engine: Engine, lent: &Lent) -> Contestant<'_> {
    let mut tables = lent.lengths.map(|length| vec![0.0; length]);
    Box::new(move || {
        let [transition, emission, initial, end] = &mut tables;
        let mut tables = Tables {
            transition,
            emission,
            initial,
            end,
        };
        black_box((engine.model_file.read)(black_box(&lent.file), &mut tables));
    })
}
