//! The rivals of the morning: each is its own witness, and a plain search, which shares nothing with the library, says how
//! close a row of another fare can come.

use demo::decode::Lent;
use demo::model::{Tables, EMISSION, INITIAL, TRANSITION};
use demo::morning::{Explained, Morning};
use demo::picture::picture;
use demo::report::report;
use demo::states::{Fare, ALL, STATES, SYMBOLS};
use demo::stored::Stored;
use demo::words;
use std::sync::LazyLock;
use wasnugram::{margins, model_file};

const NEVER: f64 = f64::NEG_INFINITY;

/// Decoded once for all tests.
static PASSAGES: LazyLock<Vec<Explained>> = LazyLock::new(|| {
    let stored = Stored::read(include_bytes!("../model.bin").to_vec()).unwrap();
    Morning::of(include_str!("../morning.txt"), &stored).unwrap().passages
});

fn entry(tables: &Tables, table: usize, row: usize, column: usize) -> f64 {
    let columns = if table == EMISSION { SYMBOLS } else { STATES };
    tables.entries[table][row * columns + column]
}

/// A row's score from left to right.
fn score(tables: &Tables, samples: &[u16], row: &[u8]) -> f64 {
    let states: Vec<usize> = row.iter().map(|state| usize::from(*state)).collect();
    let emission = |at: usize| entry(tables, EMISSION, states[at], usize::from(samples[at]));
    let first = entry(tables, INITIAL, 0, states[0]) + emission(0);
    (1..row.len()).fold(first, |value, at| {
        value + entry(tables, TRANSITION, states[at - 1], states[at]) + emission(at)
    })
}

/// The margin is that of the row's own score, to the bit, and the row has another state at the sample.
#[test]
fn every_shown_rival_is_its_own_witness() {
    let tables = Tables::of_the_gate();
    for explained in PASSAGES.iter() {
        let Explained {
            passage,
            decoded,
            rivals,
        } = &explained;
        for rival in [rivals.closest(), rivals.closest_of_another_fare()]
            .into_iter()
            .flatten()
        {
            let margin = decoded.value - score(&tables, &passage.samples, &rival.row);
            assert_eq!(rival.margin.to_bits(), margin.to_bits(), "{}", passage.note);
            assert_eq!(rival.chosen, usize::from(decoded.row[rival.sample]), "{}", passage.note);
            assert_ne!(rival.state(), rival.chosen, "{}", passage.note);
        }
    }
}

#[test]
fn the_band_shows_the_margins_of_the_wrapper() {
    let tables = Tables::of_the_gate();
    let Lent {
        mut path,
        mut rival_path,
        mut values,
        mut from,
    } = Lent::filled(0);
    for Explained { passage, rivals, .. } in PASSAGES.iter() {
        let mut expected = vec![0.0; passage.samples.len()];
        let model = tables.lend();
        margins(
            &model,
            &passage.samples,
            &mut path,
            &mut rival_path,
            &mut values,
            &mut from,
            &mut expected,
        )
        .unwrap();
        let drawn: Vec<u64> = rivals.margins().map(f64::to_bits).collect();
        assert!(expected.into_iter().map(f64::to_bits).eq(drawn), "{}", passage.note);
    }
}

/// The fare follows from the rival's whole row: at its sample it has `pushchair` or `child-step`, which pay nothing. The
/// margin of passage 1 is the same from sample 35 to 51, and the first of them is shown.
#[test]
fn the_rival_of_another_fare_is_judged_by_its_row() {
    let passages = &PASSAGES;
    let nearly = |number: usize| {
        let rival = passages[number - 1].rivals.closest_of_another_fare()?;
        Some((rival.fares(), words::margin(rival), words::in_place(rival)))
    };
    let expected = |fares: &[Fare], margin: &str, states: &str| Some((fares.to_vec(), margin.into(), states.into()));
    let pushchair = expected(
        &[Fare::AdultWithPushchair],
        "margin 9.52 at sample 35",
        "pushchair, not adult-step",
    );
    assert_eq!(nearly(1), pushchair);
    let children = expected(&[Fare::Child; 2], "margin 8.88 at sample 44", "child-step, not child");
    assert_eq!(nearly(2), children);
    assert_eq!(nearly(7), None);
    assert_eq!(
        nearly(8),
        expected(&[Fare::Adult; 2], "margin 1.95 at sample 65", "adult, not adult-step")
    );
    let equals = passages[0].rivals.margins().skip(35).take(17);
    assert!(equals.eq([passages[0].rivals.closest_of_another_fare().unwrap().margin; 17]));
}

/// The best values of rows that end in each state, by how many of the fares they have paid, one after the other; the last
/// are those that have parted from the fares.
type Values = Vec<[f64; STATES]>;

/// How far a row has come that enters a state.
fn pay(fares: &[Fare], paid: usize, state: usize) -> usize {
    match ALL[state].fare {
        None => paid,
        fare if fares.get(paid).copied() == fare => paid + 1,
        _ => fares.len() + 1,
    }
}

fn first(tables: &Tables, fares: &[Fare], sample: usize) -> Values {
    let mut values = vec![[NEVER; STATES]; fares.len() + 2];
    for state in 0..STATES {
        let value = entry(tables, INITIAL, 0, state) + entry(tables, EMISSION, state, sample);
        values[pay(fares, 0, state)][state] = value;
    }
    values
}

fn next(tables: &Tables, fares: &[Fare], values: &Values, sample: usize) -> Values {
    let mut after = vec![[NEVER; STATES]; values.len()];
    for step in 0..values.len() * STATES * STATES {
        let (paid, before, state) = (step / STATES / STATES, step / STATES % STATES, step % STATES);
        let pays = if before == state { paid } else { pay(fares, paid, state) };
        let moved = values[paid][before] + entry(tables, TRANSITION, before, state);
        let value = &mut after[pays][state];
        *value = value.max(moved + entry(tables, EMISSION, state, sample));
    }
    after
}

/// The best value of all rows whose fares are not these.
fn best_of_another_fare(tables: &Tables, samples: &[u16], fares: &[Fare]) -> f64 {
    let (sample, rest) = samples.split_first().unwrap();
    let start = first(tables, fares, usize::from(*sample));
    let mut values = rest.iter().fold(start, |values, sample| {
        next(tables, fares, &values, usize::from(*sample))
    });
    values.remove(fares.len());
    values.into_iter().flatten().fold(NEVER, f64::max)
}

/// The nearest row of another fare is at least as far as the closest rival of all, and at most as far as the one that is
/// shown. In three passages it is nearer than that: it is the rival at no sample. The README states their margins.
#[test]
fn a_nearer_row_of_another_fare_is_seldom_unseen() {
    let tables = Tables::of_the_gate();
    let mut unseen = Vec::new();
    for (
        number,
        Explained {
            passage,
            decoded,
            rivals,
        },
    ) in (1..).zip(PASSAGES.iter())
    {
        let fares = demo::decode::fares(&decoded.row);
        let nearest = decoded.value - best_of_another_fare(&tables, &passage.samples, &fares);
        let shown = rivals
            .closest_of_another_fare()
            .map_or(f64::INFINITY, |rival| rival.margin);
        assert!(
            rivals.closest().unwrap().margin <= nearest && nearest <= shown,
            "{}",
            passage.note
        );
        if nearest < shown {
            unseen.push((number, format!("{nearest:.2}")));
        }
    }
    assert_eq!(
        unseen,
        [(4, "16.41"), (5, "18.33"), (7, "17.06")].map(|(number, nearest)| (number, nearest.to_string()))
    );
}

/// A gate at which `empty` alone can be: no sample has a rival, and the band is open.
#[test]
fn without_a_rival_the_band_is_open() {
    let mut tables = Tables::of_the_gate();
    tables.entries[INITIAL][1..].fill(NEVER);
    tables.entries[TRANSITION][1..STATES].fill(NEVER);
    let file = model_file(&tables.lend()).unwrap();
    let morning = Morning::of("07:58:04 007f00 an adult\n", &Stored { file, tables }).unwrap();
    assert!(morning.passages[0].rivals.margins().eq([f64::INFINITY; 3]));
    let report = report(&morning);
    assert!(report.contains("\n  rival   none: no other row explains the samples\n"));
    assert!(report.contains("\n  nearly  nothing else: no rival pays another fare\n"));
    let drawn = picture(&morning);
    assert!(drawn.contains(">nearly nothing else: no rival pays another fare</text>"));
    assert!(drawn.contains("<path fill=\"#a9b2bd\" d=\"\"/>\n<path fill=\"#c62828\" d=\"\"/>"));
}
