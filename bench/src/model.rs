//! The proved model: the functions of the archives that `tools/build timing_list timing_each`
//! writes, and the ways to replay a trace by them and by libthymewax.a.

use crate::{called, host};
use bench::plain::replay::Ran;
use bench::plain::Answer;

// A slice is passed as its first element's place and its length.
type Exported =
    unsafe extern "C" fn(u32, *mut u32, usize, *const u8, usize, *mut u32, usize) -> u32;

#[link(name = "timing_list", kind = "static")]
extern "C" {
    fn replay_trace(
        cap: u32,
        store: *mut u32,
        store_len: usize,
        file: *const u8,
        file_len: usize,
        last: *mut u32,
        last_len: usize,
    ) -> u32;
}

#[link(name = "timing_each", kind = "static")]
extern "C" {
    fn replay_each(
        cap: u32,
        store: *mut u32,
        store_len: usize,
        file: *const u8,
        file_len: usize,
        last: *mut u32,
        last_len: usize,
    ) -> u32;
}

/// Sets up a bank with every capacity as given and replays section 0 of a trace file.
pub type Way = fn(u32, &mut Vec<u32>, &[u8]) -> Ran;

/// A way of the model, and one of the plain engine where that is not its replay.
pub struct Variant {
    pub name: &'static str,
    pub model: Way,
    pub plain: Option<Way>,
}

pub const VARIANTS: [Variant; 5] = [
    Variant {
        name: "one call for the trace",
        model: |cap, store, file| timed(replay_trace, cap, store, file),
        plain: None,
    },
    Variant {
        name: "record by record",
        model: |cap, store, file| timed(replay_each, cap, store, file),
        plain: None,
    },
    Variant {
        name: "libthymewax: one call for the trace",
        model: host::replay,
        plain: None,
    },
    Variant {
        name: "libthymewax: a call for each record",
        model: host::step_by_step,
        plain: None,
    },
    Variant {
        name: "libthymewax: a call for each record, and of the plain engine too",
        model: host::step_by_step,
        plain: Some(called::step_by_step),
    },
];

/// A replay by a function of the timing archives.
fn timed(exported: Exported, cap: u32, store: &mut [u32], file: &[u8]) -> Ran {
    // No answer has this number: the function must write its own.
    let mut last = [u32::MAX; 2];
    // SAFETY: each place and length is of a slice that lives through the call, and no two of the
    // three overlap. The function is proved safe for any contents.
    let made = unsafe {
        exported(
            cap,
            store.as_mut_ptr(),
            store.len(),
            file.as_ptr(),
            file.len(),
            last.as_mut_ptr(),
            last.len(),
        )
    };
    let answer = Answer {
        value: last[0],
        number: last[1],
    };
    Ran { made, answer }
}
