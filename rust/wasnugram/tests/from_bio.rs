//! The "after" lines of docs/FROM-BIO.md, compiled and run. The last test finds each block of the page in this file, so
//! that lines are broken as the page breaks them.

use wasnugram::*;

fn near(a: f64, b: f64) -> bool {
    (a - b).abs() < 1e-6
}

/// Lends the example of Borodovsky and Ekisheva, which bio's own documentation decodes, with bio's own logarithms.
#[rustfmt::skip]
fn with_model(test: impl FnOnce(Model) -> Result<(), Refused>) -> Result<(), Refused> {
    let logs = |table: &[f64]| table.iter().map(|p| p.ln()).collect::<Vec<f64>>();
    let transition = logs(&[0.5, 0.5, 0.4, 0.6]);
    let emission = logs(&[0.2, 0.3, 0.3, 0.2, 0.3, 0.2, 0.2, 0.3]);
    let initial = logs(&[0.5, 0.5]);
    let model = Model {
        shape: Shape { states: 2, symbols: 4, ends: false },
        transition: &transition,
        emission: &emission,
        initial: &initial,
        end: &[0.0, 0.0],
    };

    let end = logs(&[0.1, 0.2]);
    let ending = Model { shape: Shape { ends: true, ..model.shape }, end: &end, ..model };
    let whole = forward(&model, &[0], &mut [0.0; 2])?;
    assert!(forward(&ending, &[0], &mut [0.0; 2])? < whole, "the end table counts");
    test(model)
}

#[test]
#[rustfmt::skip]
fn best_path_rival_and_refusal() -> Result<(), Refused> {
    with_model(|model| {
        let samples = [2, 2, 1, 0, 1, 3, 2, 0, 0];
        let cells = model.shape.cells(samples.len());
        let (mut path, mut values, mut from) = (vec![0; samples.len()], vec![0.0; cells], vec![0; cells]);
        let decoded = viterbi(&model, &samples, &mut path, &mut values, &mut from)?;
        if !decoded.is_possible() {
            panic!("no path explains the samples: nothing may follow from decoded.path");
        }
        let log_prob = decoded.value;
        let per_sample = exp(log_prob / samples.len() as f64)?;
        let prob = log_prob.exp();
        assert_eq!(decoded.path, [0, 0, 0, 1, 1, 1, 1, 1, 1]);
        assert!((prob - 4.25e-8).abs() < 1e-9);
        assert!((per_sample.powi(9) - prob).abs() < 1e-12);

        let mut rival_path = vec![0; samples.len()];
        let found = rival(&model, &samples, 3, &mut path, &mut rival_path, &mut values, &mut from)?;
        assert_eq!(found.rival_path, [0, 0, 0, 0, 0, 1, 1, 1, 1]);
        let times_as_likely = found.margin().exp();
        assert!(near(times_as_likely, 1.44));
        assert_eq!((found.path, found.best), (&[0, 0, 0, 1, 1, 1, 1, 1, 1][..], log_prob));

        let emission = model.emission;
        let mut flipped = emission.to_vec();
        flipped[5] = f64::from_bits(flipped[5].to_bits() ^ 1 << 63);
        let broken = Model { emission: &flipped, ..model };
        let refused = viterbi(&broken, &samples, &mut path, &mut values, &mut from).unwrap_err();
        assert_eq!((refused.refusal, refused.table, refused.place), (Refusal::NotGood, Some(Table::Emission), 5));
        assert_eq!(refused.to_string(), "refusal 7 (NotGood): entry 5 of the emission table is not good");
        Ok(())
    })
}

/// bio's side of it is `the_end_entry_counts_in_the_choice_of_the_last_state` in compare/tests/intended_differences.rs.
#[test]
#[rustfmt::skip]
fn the_best_path_counts_the_end_state() -> Result<(), Refused> {
    let exit = Model {
        shape: Shape { states: 2, symbols: 1, ends: true },
        transition: &[0.0; 4],
        emission: &[0.0; 2],
        initial: &[-1.0, -2.0],
        end: &[-3.0, -1.0],
    };
    let (mut path, mut values, mut from) = ([0], [0.0; 2], [0; 2]);
    let decoded = viterbi(&exit, &[0], &mut path, &mut values, &mut from)?;
    assert_eq!((decoded.path, decoded.value), (&[1][..], -3.0));
    let tables = (values, from);

    let as_in_bio = Model { shape: Shape { ends: false, ..exit.shape }, end: &[0.0; 2], ..exit };
    let decoded = viterbi(&as_in_bio, &[0], &mut path, &mut values, &mut from)?;
    assert_eq!((decoded.path, decoded.value), (&[0][..], -1.0));
    assert_eq!((values, from), tables);
    Ok(())
}

#[test]
#[rustfmt::skip]
fn logarithms_are_carried_by_their_bits() -> Result<(), Refused> {
    with_model(|model| {
        let emission = model.emission;
        let bits: Vec<u64> = emission.iter().map(|entry| entry.to_bits()).collect();
        let carried: Vec<f64> = bits.iter().map(|entry| f64::from_bits(*entry)).collect();
        assert_eq!(carried, emission);

        let ours = [0.5, 0.5, 0.4, 0.6].map(ln);
        for (ours, theirs) in ours.iter().zip(model.transition) {
            assert!(near((*ours)?, *theirs));
        }
        Ok(())
    })
}

/// The page says how many of the rows of one to eight samples get another path with our logarithms, and that it is as
/// good. The platform's logarithms may have other last bits elsewhere, so the number itself is not held to.
#[test]
fn our_logarithms_change_some_paths() -> Result<(), Refused> {
    with_model(|model| {
        let own = |table: &[f64]| table.iter().map(|p| ln(*p)).collect::<Result<Vec<f64>, Refused>>();
        let transition = own(&[0.5, 0.5, 0.4, 0.6])?;
        let emission = own(&[0.2, 0.3, 0.3, 0.2, 0.3, 0.2, 0.2, 0.3])?;
        let initial = own(&[0.5, 0.5])?;
        let ours = Model {
            transition: &transition,
            emission: &emission,
            initial: &initial,
            ..model
        };
        let (mut rows, mut others) = (0, 0);
        for length in 1..=8 {
            for number in 0..4_u32.pow(length) {
                let samples: Vec<u16> = (0..length).map(|at| (number >> (2 * at) & 3) as u16).collect();
                let (theirs, value) = decoded(&model, &samples)?;
                let (path, _) = decoded(&ours, &samples)?;
                rows += 1;
                others += u32::from(path != theirs);
                assert!((score(&model, &samples, &path) - value).abs() < 1.0 / f64::from(1 << 24));
            }
        }
        println!("{others} of {rows} rows get another path");
        assert_eq!(rows, 87_380);
        assert!(others < 1_000);
        Ok(())
    })
}

fn decoded(model: &Model, samples: &[u16]) -> Result<(Vec<u8>, f64), Refused> {
    let (mut path, mut values, mut from) = ([0; 8], [0.0; 16], [0; 16]);
    let decoded = viterbi(model, samples, &mut path, &mut values, &mut from)?;
    Ok((decoded.path.to_vec(), decoded.value))
}

/// The score of a path, from left to right.
fn score(model: &Model, samples: &[u16], path: &[u8]) -> f64 {
    let emission = |at: usize| model.emission[usize::from(path[at]) * 4 + usize::from(samples[at])];
    let step = |at: usize| model.transition[usize::from(path[at - 1]) * 2 + usize::from(path[at])];
    let first = model.initial[usize::from(path[0])] + emission(0);
    (1..path.len()).fold(first, |score, at| score + step(at) + emission(at))
}

#[test]
fn likelihood_and_training() -> Result<(), Refused> {
    with_model(|model| {
        let cells = model.shape.cells(4);
        let (mut alpha, mut beta) = (vec![0.0; cells], vec![0.0; cells]);
        let log_likelihood = forward(&model, &[2, 2, 1, 0], &mut alpha)?;
        let same_likelihood = backward(&model, &[2, 2, 1, 0], &mut beta)?;
        assert!(is_possible(log_likelihood) && is_possible(same_likelihood));
        assert!(near(log_likelihood, same_likelihood));

        let mut new = Estimates {
            new_transition: &mut [0.0; 4],
            new_emission: &mut [0.0; 8],
            new_initial: &mut [0.0; 2],
            new_end: &mut [0.0; 2],
            alpha: &mut [0.0; 8],
            beta: &mut [0.0; 8],
        };
        let log_likelihood = baum_welch(&model, &[2, 2, 1, 0], &mut new)?;
        assert!(near(log_likelihood, same_likelihood));
        let absent = [new.new_emission[3], new.new_emission[7]];
        assert_eq!(absent, [f64::NEG_INFINITY; 2], "no sample is symbol 3");
        assert!(near(exp(new.new_initial[0])? + exp(new.new_initial[1])?, 1.0));
        Ok(())
    })
}

#[test]
#[rustfmt::skip]
fn training_on_several_recordings() -> Result<(), Refused> {
    with_model(|model| {
        let Model { shape, transition, emission, initial, .. } = model;
        let recordings = [vec![2, 2, 1, 0, 1, 3, 2, 0, 0], vec![3, 0, 1, 2, 2]];
        let mut tables = [transition.to_vec(), emission.to_vec(), initial.to_vec(), vec![0.0; 2]];
        let mut next = tables.clone();
        let cells = shape.cells(9);
        let (mut alpha, mut beta) = (vec![0.0; cells], vec![0.0; cells]);
        for _ in 0..10 {
            for samples in &recordings {
                let [transition, emission, initial, end] = &tables;
                let [new_transition, new_emission, new_initial, new_end] = &mut next;
                let model = Model { shape, transition, emission, initial, end };
                let (alpha, beta) = (&mut alpha, &mut beta);
                let mut new = Estimates { new_transition, new_emission, new_initial, new_end, alpha, beta };
                baum_welch(&model, samples, &mut new)?;
                std::mem::swap(&mut tables, &mut next);
            }
        }
        let last = &recordings[1];
        let [transition, emission, initial, end] = &tables;
        let trained = Model { shape, transition, emission, initial, end };
        assert!(forward(&trained, last, &mut alpha)? > forward(&model, last, &mut alpha)?);
        Ok(())
    })
}

#[test]
fn sums_of_log_probabilities() -> Result<(), Refused> {
    let half = ln(0.5)?;
    let quarter = ln(0.25)?;
    let sum = ln_sum_exp(&[half, quarter, quarter])?;
    let added = ln_add_exp(half, quarter)?;
    let left = ln_sub_exp(half, quarter)?;
    let rest = ln_one_minus_exp(quarter)?;
    let mut sums = [0.0; 2];
    ln_cumsum_exp(&[half, quarter], &mut sums)?;
    let capped = cap_numerical_overshoot(1e-12, 1e-9)?;
    assert!(near(sum, 0.0) && near(added, ln(0.75)?) && near(left, quarter) && near(rest, added));
    assert!(near(sums[0], half) && near(sums[1], added));
    assert_eq!(capped, 0.0);
    Ok(())
}

#[test]
fn every_block_of_the_page_is_in_this_file() {
    let bare = |text: &str| text.lines().map(str::trim).collect::<Vec<_>>().join("\n");
    let here = bare(include_str!("from_bio.rs"));
    let page = include_str!("../../../docs/FROM-BIO.md");
    let blocks: Vec<&str> = page
        .split("```rust\n")
        .skip(1)
        .map(|rest| rest.split("```").next().unwrap())
        .collect();
    assert_eq!(blocks.len(), 13);
    for block in blocks {
        assert!(here.contains(&bare(block)), "not compiled here:\n{block}");
    }
}
