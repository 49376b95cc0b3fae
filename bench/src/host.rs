//! The archive for hosts through its crate, `bindings/rust`: a replay by one call, and by a call for
//! each record.

use crate::each::each;
use bench::plain::replay::Ran;
use bench::plain::Answer;
use std::mem;
use thymewax::{Model, Queue, SetUp};

/// The set-up of `Work::bank`.
fn set_up(cap: u32) -> SetUp {
    let queue = |watermark| Queue {
        capacity: cap,
        watermark,
    };
    let (almost_empty, almost_full) = (queue(1), queue(cap - 1));
    SetUp {
        cmd: almost_empty,
        cmdr: almost_full,
        sdo: almost_empty,
        sdi: almost_full,
        ibi: almost_full,
        id: 0,
    }
}

/// A run on a fresh model over the caller's store, which the model has until the run ends.
fn on_model(cap: u32, store: &mut Vec<u32>, run: impl FnOnce(&mut Model) -> Ran) -> Ran {
    let fresh = Model::set_up(&set_up(cap)).expect("a set-up in range");
    let mut model = Model::from_parts(fresh.kept().clone(), mem::take(store), Vec::new());
    let ran = run(&mut model);
    (_, *store, _) = model.into_parts();
    ran
}

/// Section 0 by one call.
pub fn replay(cap: u32, store: &mut Vec<u32>, file: &[u8]) -> Ran {
    on_model(cap, store, |model| {
        let replayed = model.replay(file, 0, usize::MAX);
        Ran {
            made: replayed.count as u32,
            answer: told(replayed.last),
        }
    })
}

/// Section 0 by a call for each record; none if it is refused.
pub fn step_by_step(cap: u32, store: &mut Vec<u32>, file: &[u8]) -> Ran {
    let section = thymewax::section(file, 0).unwrap_or_default();
    on_model(cap, store, |model| {
        each(section.as_chunks().0, |letter, offset, first, second| {
            told(model.step_numbers(letter, offset, first, second))
        })
    })
}

/// As the plain engine has it.
fn told(answer: thymewax::Answer) -> Answer {
    Answer {
        value: answer.value,
        number: answer.number.get(),
    }
}
