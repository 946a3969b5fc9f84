//! The proved library, by its raw calls.

use super::{estimates, Engine, Given, Leaves, ModelFile};
use crate::case::Case;
use crate::lent::{Call, Output};
use reference::{Answer, Reading, Rivalry, Shape, Tables};
use wasnugram::raw;

pub const LIBRARY: Engine = Engine {
    call,
    leaves: Leaves {
        exp: |d| answer(raw::exp(d)),
        ln: |x| answer(raw::ln(x)),
        ln_one_minus_exp: |p| answer(raw::ln_one_minus_exp(p)),
        ln_add_exp: |p0, p1| answer(raw::ln_add_exp(p0, p1)),
        ln_sub_exp: |p0, p1| answer(raw::ln_sub_exp(p0, p1)),
        cap_numerical_overshoot: |value, epsilon| answer(raw::cap_numerical_overshoot(value, epsilon)),
        ln_sum_exp: |probs| answer(raw::ln_sum_exp(probs)),
        ln_cumsum_exp: |probs, sums| answer(raw::ln_cumsum_exp(probs, sums)),
    },
    model_file: ModelFile {
        read,
        length: |shape| lent_shape(shape).file_length(),
    },
};

fn answer(given: raw::Answer) -> Answer {
    Answer {
        refusal: given.refusal,
        table: given.table,
        place: given.place,
        value: given.value,
    }
}

fn rivalry(given: raw::Rivalry) -> Rivalry {
    Rivalry {
        answer: answer(given.answer),
        chosen: given.chosen,
        best: given.best,
    }
}

fn call(call: Call, case: &Case, outputs: &mut [Output]) -> Given {
    let model = lent_model(case);
    let given = match (call, outputs) {
        (Call::Viterbi, [Output::Bytes(path), Output::Numbers(values), Output::Bytes(from)]) => {
            raw::viterbi(&model, &case.samples, path, values, from)
        }
        (Call::Forward, [Output::Numbers(values)]) => raw::forward(&model, &case.samples, values),
        (Call::Backward, [Output::Numbers(values)]) => raw::backward(&model, &case.samples, values),
        (Call::BaumWelch, outputs) => raw::baum_welch(&model, &case.samples, &mut lent(outputs)),
        (Call::WriteModel, [Output::Bytes(file)]) => raw::write_model(&model, file),
        (Call::Rival, [Output::Bytes(path), Output::Bytes(rival), Output::Numbers(values), Output::Bytes(from)]) => {
            return rivalry(raw::rival(&model, &case.samples, case.index, path, rival, values, from)).into();
        }
        _ => unreachable!("each call is lent its own outputs"),
    };
    answer(given).into()
}

fn read(file: &[u8], tables: &mut Tables) -> Reading {
    let mut lent = wasnugram::Tables {
        transition: tables.transition,
        emission: tables.emission,
        initial: tables.initial,
        end: tables.end,
    };
    let given = raw::read_model(file, &mut lent);
    Reading {
        answer: answer(given.answer),
        shape: Shape {
            states: given.shape.states,
            symbols: given.shape.symbols,
            ends: given.shape.ends,
        },
    }
}

fn lent_shape(shape: Shape) -> wasnugram::Shape {
    wasnugram::Shape {
        states: shape.states,
        symbols: shape.symbols,
        ends: shape.ends,
    }
}

fn lent_model(case: &Case) -> wasnugram::Model<'_> {
    wasnugram::Model {
        shape: lent_shape(case.shape),
        transition: &case.transition,
        emission: &case.emission,
        initial: &case.initial,
        end: &case.end,
    }
}

fn lent(outputs: &mut [Output]) -> wasnugram::Estimates<'_> {
    let new = estimates(outputs);
    wasnugram::Estimates {
        new_transition: new.new_transition,
        new_emission: new.new_emission,
        new_initial: new.new_initial,
        new_end: new.new_end,
        alpha: new.alpha,
        beta: new.beta,
    }
}
