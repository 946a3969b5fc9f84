//! Likelihoods: forward is never under Viterbi, by those who take part and by bio, each beside its own best path.

use super::{Amount, Comparison};
use crate::case::Case;
use crate::lent::lend;
use crate::likelihood::{self, model_a, Walks, WALKS};
use crate::likeness;
use crate::random::Random;
use crate::verdict::Verdict;

/// What the rows of further models, which are close, have in their names.
const CLOSE: &str = ", close models";

impl Comparison {
    /// Model A, by which backward is seen to be below, and further models on which the two are close.
    pub(super) fn likelihoods(&mut self, amount: &Amount) {
        println!("likelihood: forward is held to be never under Viterbi; backward, which may be below, is counted");
        self.gate_posts();
        self.close_likelihood_of(&model_a());
        for number in 0..amount.close {
            let case = likelihood::close(number, &mut self.random);
            self.close_likelihood_of(&case);
        }
        self.equal_gaps();
    }

    /// A good model: forward beside Viterbi, by those who take part and by bio without an end state.
    pub(super) fn likelihood_of(&mut self, which: &str, case: &Case) {
        for (name, engine) in self.engines() {
            let row = format!("forward never under viterbi: {name}{which}");
            let walks = Walks::by(&engine, case);
            self.gaps.add(name, &walks);
            let check = |case: &Case| Walks::by(&engine, case).never_under();
            self.add_found(&row, case, walks.never_under(), &check);
        }
        self.likelihood_of_bio(which, case);
    }

    fn likelihood_of_bio(&mut self, which: &str, case: &Case) {
        let bio = self.modes.map(|modes| modes.kernels);
        let Some((bio, walks)) = bio.and_then(|bio| Some((bio, Walks::of_bio(&bio, case)?))) else {
            return;
        };
        self.gaps.add("bio, no end state", &walks);
        let row = format!("forward never under viterbi: bio{which}");
        let check = |case: &Case| Walks::of_bio(&bio, case).map_or(Verdict::default(), |walks| walks.never_under());
        self.add_found(&row, case, walks.never_under(), &check);
    }

    /// A close model: the same, and on lent memory the library against the reference.
    fn close_likelihood_of(&mut self, case: &Case) {
        self.likelihood_of(CLOSE, case);
        let Some(library) = self.library else { return };
        for call in WALKS {
            let pattern = self.random.bits();
            let row = format!("{}: library, reference{CLOSE}", call.name());
            self.add(&row, case, &|case| {
                likeness::library(&library, call, case, lend(call, case, &mut Random::new(pattern)))
            });
        }
    }

    /// The gate posts A1 and A2. Backward is below there, so that what is counted of it is above 0.
    fn gate_posts(&mut self) {
        let by_engines = self
            .engines()
            .map(|(name, engine)| (name, Walks::by(&engine, &model_a())));
        let by_bio = self.modes.and_then(|modes| Walks::of_bio(&modes.kernels, &model_a()));
        let walks: Vec<(&str, Walks)> = by_engines.chain(by_bio.map(|walks| ("bio", walks))).collect();
        for (name, walks) in walks {
            let row = format!("gate posts A1 and A2: {name}");
            self.plain(&row, &walks.are_gate_posts(), || format!("{:?}", model_a()));
        }
    }

    /// What was seen of all gaps is the same of the library and of the reference.
    fn equal_gaps(&mut self) {
        let [reference, library] = ["reference", "library"].map(|name| self.gaps.of(name));
        let Some(library) = library else { return };
        let verdict = Verdict {
            numbers: 1,
            wrong: (reference != Some(library)).then(|| "other gaps".to_string()),
            ..Verdict::default()
        };
        self.plain("all gaps: library, reference", &verdict, || {
            format!("{library:?}\n{reference:?}")
        });
    }
}
