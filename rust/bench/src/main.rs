//! `bench`: the time of each call of the proved library, and against plain Rust over flat arrays and bio as published, in
//! one run, as ratios; and how the time grows with the states and the samples.
//!
//! Plain Rust is the independent reference, with the same rules, kernels and checks. Its exp is shaped for speed but where
//! a heading says that it is the loop as RULES 4.1 reads. The library and plain Rust count their checks; bio makes none,
//! and allocates what it returns. bio's Viterbi leaves an end state out, so that the line with one has no ratio to bio.
//! Where entries are checked, the library makes all checks of a call, and plain Rust is a loop over the entries alone.
//! Plain Rust's rival walks on from a row of the reference's best path.

mod contest;
mod entries;
mod leaves;
mod model_file;
mod rival;
mod walks;

use compare::engine::REFERENCE;
use compare::lent::{Call, CALLS};
use contest::print_heading;

fn main() {
    println!("{}", processor());
    print_heading("one passage");
    for call in CALLS {
        walks::contest(REFERENCE, call, 12, 240);
    }
    print_heading("with an end state");
    walks::viterbi_with_end_state(12, 240);
    print_heading("the strongest rival");
    rival::contest(12, 240);
    print_heading("entries checked");
    entries::contest();
    print_heading("model file");
    model_file::contest();
    print_heading("plain exp as written");
    for call in [Call::Forward, Call::Backward] {
        walks::contest(walks::AS_WRITTEN, call, 12, 240);
    }
    print_heading("more states");
    for call in CALLS {
        for states in [4, 8, 16, 32, 64] {
            walks::contest(REFERENCE, call, states, 240);
        }
    }
    walks::cost_of_a_term(&[2, 4, 8, 16, 32, 64], 240);
    print_heading("more samples");
    for call in CALLS {
        for samples in [64, 256, 1024, 4096] {
            walks::contest(REFERENCE, call, 12, samples);
        }
    }
    print_heading("leaves, each call");
    leaves::contest();
}

/// The processor's name, as Linux gives it.
fn processor() -> String {
    let facts = std::fs::read_to_string("/proc/cpuinfo").unwrap_or_default();
    let line = facts.lines().find(|line| line.starts_with("model name"));
    let name = line.and_then(|line| line.split(": ").nth(1));
    name.unwrap_or("a processor without a name").to_string()
}
