//! Makes a case that shows something as small as it can, so that it can be kept as a test.

use crate::case::Case;
use reference::Shape;

/// The smallest case found that still shows it: samples, states and symbols are dropped and entries made plain for as
/// long as `shows` holds.
pub fn smallest(case: &Case, shows: &dyn Fn(&Case) -> bool) -> Case {
    let mut best = case.clone();
    loop {
        let smaller = candidates(&best).find(|smaller| shows(smaller));
        match smaller {
            Some(smaller) => best = smaller,
            None => return best,
        }
    }
}

fn candidates(case: &Case) -> impl Iterator<Item = Case> + '_ {
    let fewer_samples = pieces(case.samples.len()).map(|(start, end)| without_samples(case, start, end));
    let states = case.shape.states;
    let fewer_states = (0..states)
        .filter(move |_| states > 1)
        .map(|state| without_state(case, state));
    let symbols = case.shape.symbols;
    let fewer_symbols = (0..symbols).filter_map(move |symbol| without_symbol(case, symbol));
    fewer_samples
        .chain(fewer_states)
        .chain(fewer_symbols)
        .chain(plainer_entries(case))
}

/// Runs to drop: halves first, then quarters, down to one at a time.
fn pieces(length: usize) -> impl Iterator<Item = (usize, usize)> {
    let sizes = std::iter::successors(Some(length / 2 + 1), |size| (*size > 1).then_some(size / 2));
    sizes.flat_map(move |size| {
        (0..length)
            .step_by(size)
            .map(move |start| (start, (start + size).min(length)))
    })
}

/// The index stays at its sample; where that is dropped, it goes to the first one after the run.
fn without_samples(case: &Case, start: usize, end: usize) -> Case {
    let mut smaller = case.clone();
    smaller.samples.drain(start..end);
    smaller.index = match case.index < end {
        true => case.index.min(start),
        false => case.index - (end - start),
    };
    smaller
}

fn without_state(case: &Case, state: usize) -> Case {
    let Shape { states, symbols, .. } = case.shape;
    let row_kept = |table: &[f64], columns: usize| -> Vec<f64> {
        let rows = table.chunks(columns).enumerate();
        rows.filter(|(k, _)| *k != state)
            .flat_map(|(_, row)| row.to_vec())
            .collect()
    };
    let square: Vec<f64> = row_kept(&case.transition, states);
    let transition = square
        .chunks(states)
        .flat_map(|row| [&row[..state], &row[state + 1..]].concat())
        .collect();
    Case {
        shape: Shape {
            states: states - 1,
            ..case.shape
        },
        transition,
        emission: row_kept(&case.emission, symbols),
        initial: row_kept(&case.initial, 1),
        end: row_kept(&case.end, 1),
        samples: case.samples.clone(),
        index: case.index,
    }
}

/// Without a symbol that no sample has.
fn without_symbol(case: &Case, symbol: usize) -> Option<Case> {
    let symbols = case.shape.symbols;
    if symbols == 1 || case.samples.contains(&(symbol as u16)) {
        return None;
    }
    let rows = case.emission.chunks(symbols);
    let emission = rows
        .flat_map(|row| [&row[..symbol], &row[symbol + 1..]].concat())
        .collect();
    let moved = |sample: &u16| sample - u16::from(usize::from(*sample) > symbol);
    Some(Case {
        shape: Shape {
            symbols: symbols - 1,
            ..case.shape
        },
        emission,
        samples: case.samples.iter().map(moved).collect(),
        ..case.clone()
    })
}

/// One entry made 0.0, or a whole number.
fn plainer_entries(case: &Case) -> impl Iterator<Item = Case> + '_ {
    (0..4).flat_map(move |table| {
        let length = case.model().tables()[table].len();
        (0..length).flat_map(move |place| {
            let entry = case.model().tables()[table][place];
            let plainer = [0.0, -1.0, entry.round()];
            let simpler = plainer
                .into_iter()
                .take_while(move |plain| plain.to_bits() != entry.to_bits());
            simpler.map(move |plain| {
                let mut smaller = case.clone();
                smaller.tables_mut()[table][place] = plain;
                smaller
            })
        })
    })
}
