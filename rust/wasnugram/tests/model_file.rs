//! Model files through the wrapper, with a model whose every entry is another, so that no two arguments can be taken
//! for each other.

use wasnugram::*;

const SHAPE: Shape = Shape {
    states: 2,
    symbols: 3,
    ends: true,
};
const MODEL: Model = Model {
    shape: SHAPE,
    transition: &[-1.0, -2.0, -3.0, -4.0],
    emission: &[-5.0, -6.0, -7.0, -8.0, -9.0, f64::NEG_INFINITY],
    initial: &[-0.0, 0.0],
    end: &[-10.0, -11.0],
};
const ENDLESS: Model = Model {
    shape: Shape { ends: false, ..SHAPE },
    end: &[0.0; 2],
    ..MODEL
};
/// Where the first body begins.
const FIRST: usize = 8 + 4 * 16;
/// What lent memory holds before a call.
const FILL: f64 = 0.25;

fn file(model: &Model) -> Vec<u8> {
    let mut file = vec![0xa5; model.shape.file_length() + 3];
    let length = write_model(model, &mut file).unwrap();
    assert_eq!(file[length..], [0xa5; 3], "surplus is left alone");
    file.truncate(length);
    file
}

fn bits(table: &[f64]) -> Vec<u64> {
    table.iter().map(|entry| entry.to_bits()).collect()
}

/// The words of all tables of a model, one table after the other.
fn words(model: &Model) -> Vec<u64> {
    bits(&[model.transition, model.emission, model.initial, model.end].concat())
}

/// Lent tables of these lengths.
struct Lent([Vec<f64>; 4]);

impl Lent {
    fn of(lengths: [usize; 4]) -> Lent {
        Lent(lengths.map(|length| vec![FILL; length]))
    }

    fn tables(&mut self) -> Tables<'_> {
        let [transition, emission, initial, end] = &mut self.0;
        Tables {
            transition,
            emission,
            initial,
            end,
        }
    }

    fn is_untouched(&self) -> bool {
        self.0.iter().flatten().all(|entry| *entry == FILL)
    }
}

#[test]
fn the_bodies_are_the_tables_in_their_order() {
    for (model, tables, entries) in [(MODEL, 4, 14), (ENDLESS, 3, 12)] {
        let file = file(&model);
        assert_eq!(file[..8], [2, 0, 3, 0, u8::from(model.shape.ends), 0, tables, 0]);
        let bodies = file[8 + 16 * usize::from(tables)..].chunks_exact(8);
        let bodies: Vec<u64> = bodies
            .map(|word| u64::from_le_bytes(word.try_into().unwrap()))
            .collect();
        assert_eq!(bodies, words(&model)[..entries]);
    }
}

#[test]
fn reading_what_was_written_gives_the_same_bits() {
    for model in [MODEL, ENDLESS] {
        let mut lent = Lent::of([5, 8, 4, 3]);
        let read = read_model(&file(&model), lent.tables()).unwrap();
        assert_eq!(read.shape, model.shape);
        assert_eq!(words(&read), words(&model));
        let surplus = lent
            .0
            .iter()
            .zip([4, 6, 2, 2])
            .flat_map(|(table, needed)| &table[needed..]);
        assert_eq!(surplus.filter(|entry| **entry == FILL).count(), 1 + 2 + 2 + 1);
    }
}

#[test]
fn each_lent_table_is_named_by_its_number() {
    let file = file(&MODEL);
    for (table, length) in [(0, 4), (1, 6), (2, 2), (3, 2)] {
        let mut lengths = [4, 6, 2, 2];
        lengths[table] = length - 1;
        let mut lent = Lent::of(lengths);
        let refused = read_model(&file, lent.tables()).unwrap_err();
        let expected = Refused {
            refusal: Refusal::OutputTooShort,
            table: Some(Table::Output(6 + table as u8)),
            place: length - 1,
        };
        assert_eq!(refused, expected);
        assert!(lent.is_untouched());
    }
}

#[test]
fn every_flipped_bit_is_refused() {
    let mut file = file(&MODEL);
    let mut lent = Lent::of([4, 6, 2, 2]);
    for at in 0..8 * file.len() {
        file[at / 8] ^= 1 << (at % 8);
        let refused = read_model(&file, lent.tables()).unwrap_err();
        assert!(
            matches!(refused.refusal.number(), 1 | 2 | 13 | 14),
            "bit {at}: {refused}"
        );
        file[at / 8] ^= 1 << (at % 8);
    }
    assert!(lent.is_untouched());
}

#[test]
fn every_cut_is_refused_at_its_length() {
    let file = file(&MODEL);
    let mut lent = Lent::of([4, 6, 2, 2]);
    for length in 0..file.len() {
        let cut = read_model(&file[..length], lent.tables()).unwrap_err();
        assert_eq!((cut.refusal, cut.table, cut.place), (Refusal::BadLayout, None, length));
    }
    assert!(lent.is_untouched());
}

/// An entry that is not good under a sum that is right: the writer refuses such a model, so it is put in by hand.
#[test]
fn the_reader_names_an_entry_that_is_not_good() {
    let mut file = file(&MODEL);
    let (last, sum) = (file.len() - 8, 8 + 3 * 16 + 8);
    file[last..].copy_from_slice(&0.5_f64.to_le_bytes());
    let words = (-10.0_f64).to_bits().wrapping_add(0.5_f64.to_bits());
    file[sum..sum + 8].copy_from_slice(&words.to_le_bytes());
    let mut lent = Lent::of([4, 6, 2, 2]);
    let refused = read_model(&file, lent.tables()).unwrap_err();
    assert_eq!(
        refused.to_string(),
        "refusal 7 (NotGood): entry 1 of the end table is not good"
    );
    assert!(lent.is_untouched());
}

#[test]
fn a_raw_reading_has_a_shape_where_it_is_done() {
    let mut file = file(&MODEL);
    let mut lent = Lent::of([4, 6, 2, 2]);
    let raw::Reading { answer, shape } = raw::read_model(&file, &mut lent.tables());
    assert_eq!((answer.refusal, answer.table, answer.place), (0, 0, 0));
    assert_eq!((answer.value.to_bits(), shape), (0, SHAPE));
    file[FIRST] ^= 1;
    let raw::Reading { answer, shape } = raw::read_model(&file, &mut lent.tables());
    assert_eq!((answer.refusal, answer.table, answer.place), (14, 0, 0));
    assert_eq!(answer.value, f64::NEG_INFINITY);
    assert_eq!((shape.states, shape.symbols, shape.ends), (0, 0, false));
}

#[cfg(feature = "alloc")]
#[test]
fn an_owned_model_is_the_one_in_its_file() {
    for model in [MODEL, ENDLESS] {
        let file = model_file(&model).unwrap();
        let owned = OwnedModel::read(&file).unwrap();
        assert_eq!(owned.model().shape, model.shape);
        assert_eq!(words(&owned.model()), words(&model));
        assert_eq!(model_file(&owned.model()).unwrap(), file);
    }
}
