//! The plain engine behind a call of the archive's kind: exported and not inlined, the state by its
//! place, store and output lent, the numbers of a record, value and number in one word.

use crate::each::each;
use bench::plain::replay::Ran;
use bench::plain::{file, Answer};
use std::hint::black_box;
use std::slice;
use twin::plain::call::Call;
use twin::plain::replay::WRONG_RECORD;
use twin::plain::{Bank, NOT_WELL_FORMED};

type Step =
    unsafe extern "C" fn(*mut Bank, *mut u32, usize, *mut u32, usize, u32, u32, u32, u32) -> u64;

/// The call that a record's numbers name.
fn named(letter: u32, offset: u32, first: u32, second: u32) -> Option<Call> {
    let (letter, offset) = (letter.try_into().ok()?, offset.try_into().ok()?);
    Call::named(letter, 0, offset, first, second)
}

/// One call. 21 comes before 27, and that before the call's own numbers.
///
/// # Safety
///
/// The bank and the store live through the call, are lent to nobody else, and the store has its
/// length.
#[no_mangle]
#[inline(never)]
unsafe extern "C" fn plain_step(
    bank: *mut Bank,
    store: *mut u32,
    store_words: usize,
    _output: *mut u32,
    _output_words: usize,
    letter: u32,
    offset: u32,
    first: u32,
    second: u32,
) -> u64 {
    // SAFETY: what is asked for above.
    let (bank, store) = unsafe { (&mut *bank, slice::from_raw_parts_mut(store, store_words)) };
    let Some(call) = named(letter, offset, first, second) else {
        return u64::from(match bank.is_well_formed() {
            true => WRONG_RECORD,
            false => NOT_WELL_FORMED,
        }) << 32;
    };
    let answer = bank.step(store, call);
    u64::from(answer.value) | u64::from(answer.number) << 32
}

/// Section 0 by a call for each record, on the bank of `Work::bank`.
pub fn step_by_step(cap: u32, store: &mut Vec<u32>, file: &[u8]) -> Ran {
    let most = cap - 1;
    let mut bank = Bank::new([cap; 5], [1, most, 1, most, most], 0);
    let mut output = Vec::new();
    // By an address that the compiler does not know: it sees no more of the callee than a host does.
    let step: Step = black_box(plain_step);
    let records = file::section(file, 0).unwrap_or_default();
    each(records, |letter, offset, first, second| {
        // SAFETY: the three live through the call and do not overlap; each length is its slice's.
        let told = unsafe {
            step(
                &mut bank,
                store.as_mut_ptr(),
                store.len(),
                output.as_mut_ptr(),
                output.len(),
                letter.into(),
                offset.into(),
                first,
                second,
            )
        };
        Answer {
            value: told as u32,
            number: (told >> 32) as u32,
        }
    })
}
