//! The frozen list: cases with their whole answers as 8-byte words, for a program that has no Rust at hand.
//!
//! Words are little-endian. The first word is the number of cases. A case is the number of its words that follow, the
//! number of its call, the answer (refusal, table, place, the bits of the value), and its lists; a list is its length
//! and its elements, one to a word: whole numbers as they are, f64 by their bits. FROZEN.md says which lists each call
//! has, and how an altered case is marked.

use crate::case::Case;
use crate::engine::Given;
use crate::lent::{Call, Output};
use crate::model_file::{Left, Lent};
use reference::{Answer, Shape};

/// Outputs are filled with this byte before the call.
pub const FILL: u8 = 0xa5;

/// So an output of numbers is filled with this one.
pub const FILLED: f64 = f64::from_bits(u64::from_le_bytes([FILL; 8]));

/// The most words that a case has, its length not counted.
pub const MOST_WORDS: usize = 8192;

/// The call's number of an altered case is by so much greater.
pub const ALTERED: u64 = 64;

/// The calls of the list, by number.
pub const NAMES: [&str; 22] = [
    "viterbi",
    "forward",
    "backward",
    "baum_welch",
    "exp",
    "ln",
    "ln_one_minus_exp",
    "ln_sum_exp",
    "ln_add_exp",
    "ln_sub_exp",
    "ln_cumsum_exp",
    "cap_numerical_overshoot",
    "is_valid",
    "Prob::checked",
    "Prob to LogProb",
    "LogProb to Prob",
    "LogProb to PHREDProb",
    "PHREDProb to LogProb",
    "read_model",
    "write_model",
    "file_length",
    "rival",
];

/// One case of the list.
#[derive(Clone, Debug, PartialEq)]
pub struct Frozen {
    pub call: u64,
    /// Refusal, table, place and the bits of the value.
    pub answer: [u64; 4],
    pub lists: Vec<Vec<u64>>,
}

impl Frozen {
    /// A call on a model: the shape, the four tables, the samples and the index if it takes any, then what is beside the
    /// answer, if anything is, and each output as it is left.
    pub fn of_model(call: Call, case: &Case, given: &Given, after: &[Output]) -> Frozen {
        let mut lists = vec![shape_words(case.shape)];
        lists.extend(case.model().tables().iter().map(|table| bits(table)));
        if call.takes_samples() {
            lists.push(case.samples.iter().map(|sample| u64::from(*sample)).collect());
        }
        if call.takes_index() {
            lists.push(vec![case.index as u64]);
        }
        lists.extend(
            given
                .beside
                .map(|beside| vec![beside.chosen as u64, beside.best.to_bits()]),
        );
        lists.extend(after.iter().map(Output::bits));
        Frozen {
            call: number_of(call.name()),
            answer: answer_words(&given.answer),
            lists,
        }
    }

    /// The reader: the file, then the shape that it gives and the four tables as they are left.
    pub fn of_reading(lent: &Lent, left: &Left) -> Frozen {
        let mut lists = vec![lent.file.iter().map(|byte| u64::from(*byte)).collect()];
        lists.push(shape_words(left.reading.shape));
        lists.extend(left.tables.iter().map(|table| bits(table)));
        Frozen {
            call: number_of("read_model"),
            answer: answer_words(&left.reading.answer),
            lists,
        }
    }

    /// The length of a file: the shape.
    pub fn of_length(shape: Shape, length: usize) -> Frozen {
        Frozen {
            call: number_of("file_length"),
            answer: answer_words(&Answer::done(length as f64)),
            lists: vec![shape_words(shape)],
        }
    }

    /// A leaf: its arguments, then its output, if it has one, as it is left.
    pub fn of_leaf(name: &str, arguments: &[f64], answer: &Answer, output: Option<&[f64]>) -> Frozen {
        let mut lists = vec![bits(arguments)];
        lists.extend(output.map(bits));
        Frozen {
            call: number_of(name),
            answer: answer_words(answer),
            lists,
        }
    }

    /// Copies of the case, each marked as altered and with one fault: one bit of a word of the answer or of the first or
    /// last place of an output, the lowest or the highest, is another, or there is a list too many.
    pub fn altered(&self) -> Vec<Frozen> {
        let mut marked = self.clone();
        marked.call += ALTERED;
        let mut cases = vec![marked.clone()];
        cases[0].lists.push(Vec::new());
        for bit in [1, 1 << 63] {
            for word in 0..self.answer.len() {
                let mut case = marked.clone();
                case.answer[word] ^= bit;
                cases.push(case);
            }
            for list in self.inputs()..self.lists.len() {
                for place in [0, self.lists[list].len() - 1] {
                    let mut case = marked.clone();
                    case.lists[list][place] ^= bit;
                    cases.push(case);
                }
            }
        }
        cases
    }

    /// How many of the lists are what the call reads.
    fn inputs(&self) -> usize {
        match NAMES[self.call as usize] {
            "viterbi" | "forward" | "backward" | "baum_welch" => 6,
            "write_model" => 5,
            "rival" => 7,
            _ => 1,
        }
    }

    fn words(&self) -> Vec<u64> {
        let mut words = vec![self.call];
        words.extend(self.answer);
        for list in &self.lists {
            words.push(list.len() as u64);
            words.extend(list);
        }
        words
    }
}

/// The number of a call.
fn number_of(name: &str) -> u64 {
    let number = NAMES.iter().position(|known| *known == name);
    number.expect("a call of the list") as u64
}

/// States, symbols, and 1 for an end state.
fn shape_words(shape: Shape) -> Vec<u64> {
    vec![shape.states as u64, shape.symbols as u64, u64::from(shape.ends)]
}

fn bits(numbers: &[f64]) -> Vec<u64> {
    numbers.iter().map(|number| number.to_bits()).collect()
}

fn answer_words(answer: &Answer) -> [u64; 4] {
    [
        u64::from(answer.refusal),
        u64::from(answer.table),
        answer.place as u64,
        answer.value.to_bits(),
    ]
}

/// The bytes of a list.
pub fn write(cases: &[Frozen]) -> Vec<u8> {
    let mut words = vec![cases.len() as u64];
    for case in cases {
        let case = case.words();
        assert!(case.len() <= MOST_WORDS, "a case of {} words", case.len());
        words.push(case.len() as u64);
        words.extend(case);
    }
    words.iter().flat_map(|word| word.to_le_bytes()).collect()
}

/// The cases of a list.
pub fn read(bytes: &[u8]) -> Vec<Frozen> {
    let mut words = bytes
        .chunks_exact(8)
        .map(|chunk| u64::from_le_bytes(chunk.try_into().expect("eight bytes")));
    let mut take = |count: u64| -> Vec<u64> { words.by_ref().take(count as usize).collect() };
    let count = take(1)[0];
    (0..count)
        .map(|_| {
            let length = take(1)[0];
            case_of(&take(length))
        })
        .collect()
}

fn case_of(words: &[u64]) -> Frozen {
    let mut rest = &words[5..];
    let mut lists = Vec::new();
    while let Some((length, after)) = rest.split_first() {
        let (list, after) = after.split_at(*length as usize);
        lists.push(list.to_vec());
        rest = after;
    }
    Frozen {
        call: words[0],
        answer: [words[1], words[2], words[3], words[4]],
        lists,
    }
}

#[cfg(test)]
mod tests {
    use super::*;
    use crate::engine::REFERENCE;
    use reference::Rivalry;

    #[test]
    fn reading_gives_what_was_written() {
        let leaf = Frozen::of_leaf("exp", &[-1.0], &Answer::done(0.5), None);
        let sums = Frozen::of_leaf("ln_cumsum_exp", &[], &Answer::refused(7, 0, 3), Some(&[0.0, -0.0]));
        let cases = vec![leaf, sums];
        assert_eq!(read(&write(&cases)), cases);
    }

    /// How many altered copies a case has, after it was seen that each is marked and has one fault.
    fn altered(whole: &Frozen) -> usize {
        let altered = whole.altered();
        for case in &altered {
            assert_eq!(case.call, whole.call + ALTERED);
            let (whole, words) = (whole.words(), case.words());
            let others = words[1..].iter().zip(&whole[1..]).filter(|(a, b)| a != b).count();
            assert_eq!(others + words.len() - whole.len(), 1);
        }
        altered.len()
    }

    #[test]
    fn an_altered_case_is_marked_and_has_one_fault() {
        let sums = Frozen::of_leaf("ln_cumsum_exp", &[-1.0], &Answer::done(-1.0), Some(&[-1.0, 0.0]));
        assert_eq!(altered(&sums), 1 + 2 * (4 + 2));
    }

    /// One state and two symbols, on one sample.
    fn one_state() -> Case {
        Case {
            shape: Shape {
                states: 1,
                symbols: 2,
                ends: true,
            },
            transition: vec![-1.0],
            emission: vec![-2.0, -3.0],
            initial: vec![-4.0],
            end: vec![-5.0],
            samples: vec![1],
            index: 0,
        }
    }

    fn lengths(frozen: &Frozen) -> Vec<usize> {
        frozen.lists.iter().map(Vec::len).collect()
    }

    #[test]
    fn calls_on_model_files_have_their_lists() {
        let case = one_state();
        let lent = Lent::of(&case, [1; 4]);
        let reading = Frozen::of_reading(&lent, &lent.read_by(&REFERENCE));
        assert_eq!((reading.call, lengths(&reading)), (18, vec![112, 3, 2, 3, 2, 2]));
        assert_eq!(altered(&reading), 1 + 2 * (4 + 2 * 5));
        let file = [Output::Bytes(lent.file)];
        let writing = Frozen::of_model(Call::WriteModel, &case, &Answer::done(0.0).into(), &file);
        assert_eq!((writing.call, lengths(&writing)), (19, vec![3, 1, 2, 1, 1, 112]));
        assert_eq!(altered(&writing), 1 + 2 * (4 + 2));
        let length = Frozen::of_length(case.shape, 112);
        assert_eq!((length.call, lengths(&length)), (20, vec![3]));
        assert_eq!((altered(&length), length.answer[3]), (9, 112.0_f64.to_bits()));
        let cases = vec![reading, writing, length];
        assert_eq!(read(&write(&cases)), cases);
    }

    #[test]
    fn a_rival_has_an_index_and_what_is_beside_its_answer() {
        let case = one_state().at(7);
        let path = || Output::Bytes(vec![0; 2]);
        let outputs = [path(), path(), Output::Numbers(vec![-0.5; 2]), path()];
        let (answer, chosen, best) = (Answer::done(-2.0), 3, -1.0);
        let given = Rivalry { answer, chosen, best }.into();
        let rival = Frozen::of_model(Call::Rival, &case, &given, &outputs);
        assert_eq!(
            (rival.call, lengths(&rival)),
            (21, vec![3, 1, 2, 1, 1, 1, 1, 2, 2, 2, 2, 2])
        );
        assert_eq!(rival.lists[6..8], [vec![7], vec![3, (-1.0_f64).to_bits()]]);
        assert_eq!(rival.answer[3], (-2.0_f64).to_bits());
        assert_eq!(altered(&rival), 1 + 2 * (4 + 2 * 5));
        assert_eq!(read(&write(std::slice::from_ref(&rival))), [rival]);
    }
}
