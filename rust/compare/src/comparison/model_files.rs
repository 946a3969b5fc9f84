//! Model files: the reader, the writer and the length.

use super::{Amount, Comparison};
use crate::case::Case;
use crate::lent::Call;
use crate::model_file::{self, Lent};
use crate::verdict::Verdict;
use reference::answer::DONE;

/// The rounds whose files are read with every bit flipped, one after the other.
const FLIPPED: usize = 8;

/// The longest of these files.
const LONGEST: usize = 400;

/// The most bytes of a file that are shown.
const SHOWN: usize = 1024;

impl Comparison {
    /// The reference and the library by the rule on bytes, and the one against the other.
    pub(super) fn model_files(&mut self, amount: &Amount) {
        println!("model files: bio has none; reference and library are held to a rule on bytes and to each other");
        let mut flipped = 0;
        for number in 0..amount.files {
            let (case, files) = model_file::round(number, &mut self.random);
            self.written(&case);
            self.damaged_call(Call::WriteModel, number);
            files.iter().for_each(|lent| self.read(lent));
            if files[0].file.len() <= LONGEST && flipped < FLIPPED {
                flipped += 1;
                self.every_flip(&case, &files[0]);
            }
        }
        self.lengths();
    }

    /// A good model, written: its bytes, the lent memory, and what is read of them.
    fn written(&mut self, case: &Case) {
        self.lent_call(Call::WriteModel, case);
        for (name, engine) in self.engines() {
            let row = format!("write_model: {name}, rule on bytes");
            self.add(&row, case, &|case| model_file::written_by_the_rule(&engine, case));
            let row = format!("read_model of write_model: {name}, the model");
            self.add(&row, case, &|case| model_file::read_back(&engine, case));
        }
    }

    /// Any file, read, and where it is read, written again.
    fn read(&mut self, lent: &Lent) {
        let mut refusal = DONE;
        for (name, engine) in self.engines() {
            let verdict = model_file::by_the_rule(&engine, lent);
            refusal = verdict.refusal;
            self.file_row(&format!("read_model: {name}, rule on bytes"), &verdict, lent);
            if let Some(verdict) = model_file::written_again(&engine, lent) {
                self.file_row(&format!("write_model of read_model: {name}, the file"), &verdict, lent);
            }
        }
        self.tally.answered("read_model", refusal);
        if let Some(library) = self.library {
            let verdict = model_file::library(&library, lent);
            self.file_row("read_model: library, reference", &verdict, lent);
        }
    }

    /// The file of a model with each of its bits flipped, and cut at each of its bytes.
    fn every_flip(&mut self, case: &Case, whole: &Lent) {
        for place in 0..whole.file.len() {
            let mut cut = whole.clone();
            cut.file.truncate(place);
            self.read(&cut);
            for flipped in (0..8).map(|bit| whole.flipped(place, bit)) {
                self.read(&flipped);
                for (name, engine) in self.engines() {
                    let verdict = model_file::told_by_its_place(&engine, case.shape, &flipped, place);
                    self.file_row(
                        &format!("read_model, every bit flipped: {name}, its place"),
                        &verdict,
                        &flipped,
                    );
                }
            }
        }
    }

    /// Every shape.
    fn lengths(&mut self) {
        for shape in model_file::shapes() {
            for (name, engine) in self.engines() {
                let verdict = model_file::length_by_the_rule(&engine, shape);
                self.plain(&format!("file_length: {name}, rule on bytes"), &verdict, || {
                    format!("{shape:?}")
                });
            }
        }
    }

    fn file_row(&mut self, row: &str, verdict: &Verdict, lent: &Lent) {
        self.plain(row, verdict, || shown(lent));
    }
}

/// A file in hexadecimal digits, and what it is read into.
fn shown(lent: &Lent) -> String {
    let bytes: String = lent.file.iter().take(SHOWN).map(|byte| format!("{byte:02x}")).collect();
    format!("{} bytes: {bytes}\ninto {:?}", lent.file.len(), lent.lengths)
}
