//! What holds of every list before it is timed: both sides leave the same.

use crate::model::{Variant, VARIANTS};
use crate::work::Work;
use bench::plain::offset;
use bench::plain::replay::{replay, Ran};
use bench::trace::file::{file_of, record};
use bench::trace::{self, wrong, LETTERS};

/// How often at least a list has each letter done (02 §9).
const LEAST_ANSWERED: usize = 10_000;

/// How many calls of a letter a list has, and how many of them are answered 0.
#[derive(Clone, Copy, Default)]
pub struct Count {
    pub made: usize,
    pub answered: usize,
}

/// By a replay of each record: `replay` stays the only caller of the plain step, which is then
/// inlined there.
pub fn count(work: &Work) -> [Count; 9] {
    let mut counts = [Count::default(); 9];
    let (mut bank, mut store) = (work.bank(), work.store());
    for record in work.trace.records() {
        let ran = replay(&mut bank, &mut store, &file_of(&[&[*record]]), 0).ran;
        let at = LETTERS.iter().position(|&l| l == record[0]);
        let count = &mut counts[at.expect("a letter of the nine")];
        count.made += ran.made as usize;
        count.answered += usize::from(ran.answer.number == 0);
    }
    counts
}

pub fn is_mixed_enough(counts: &[Count; 9]) -> bool {
    counts.iter().all(|c| c.answered >= LEAST_ANSWERED)
}

/// The same count, last answer and store words as the plain engine's replay, which gives this number
/// and count. Where the plain engine goes another way, that is the side that is compared: the model's
/// is another variant's too.
fn same(work: &Work, variant: &Variant, file: &[u8], number: u32, made: usize) {
    let (mut plain, mut other) = (work.store(), work.store());
    let expected = work.replay_plain(&mut plain, file);
    let given = variant.plain.unwrap_or(variant.model)(work.cap, &mut other, file);
    let name = format!("{} on {}", variant.name, work.name);
    assert_eq!(given, expected.ran, "{name}");
    assert!(other == plain, "{name}");
    assert_eq!(expected.number, number, "{name}");
    assert_eq!(expected.ran.made as usize, made, "{name}");
    assert!(made > 0 || expected.ran == Ran::NONE, "{name}");
}

/// The list itself; the list and one read of a register more, for each register, which shows what
/// the list leaves in it; the list with a wrong record in its middle, and with a wrong mark.
pub fn verify(work: &Work) {
    let count = work.trace.count();
    for variant in &VARIANTS {
        let mut trace = work.trace.clone();
        same(work, variant, trace.file(), 0, count);
        for offset in trace::shown().chain([offset::CMDR, offset::SDI, offset::IBI]) {
            trace.push(record(b'R', offset, 0, 0));
            same(work, variant, trace.file(), 0, count + 1);
            trace.truncate(count);
        }
        trace.replace(count / 2, record(0, 0, 0, 0));
        same(work, variant, trace.file(), 27, count / 2);
        let mut file = work.trace.file().to_vec();
        file[0] = b'i';
        same(work, variant, &file, 24, 0);
    }
}

/// The list with each wrong record in its middle; the greatest right ones behind it; each wrong
/// file; of two sections the first.
pub fn verify_wrong(work: &Work) {
    let records = work.trace.records();
    let middle = records.len() / 2;
    for variant in &VARIANTS {
        for record in wrong::records() {
            let mut trace = work.trace.clone();
            trace.replace(middle, record);
            same(work, variant, trace.file(), 27, middle);
        }
        let greatest = [records, &wrong::greatest()].concat();
        same(work, variant, &file_of(&[&greatest]), 0, greatest.len());
        for (number, file) in wrong::files(records) {
            same(work, variant, &file, number, 0);
        }
        let (first, second) = records.split_at(middle);
        same(work, variant, &file_of(&[first, second]), 0, middle);
    }
}
