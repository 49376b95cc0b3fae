//! What is timed: a trace on a bank of some capacity, by the plain engine and by the model.

use bench::plain::replay::{replay, Replay};
use bench::plain::Bank;
use bench::trace::{self, file::Trace};

/// A list and the capacity of every queue of the bank that it runs on.
pub struct Work {
    pub name: String,
    pub cap: u32,
    pub trace: Trace,
}

/// The capacity of the mixed list and of those of one kind.
pub const CAP: u32 = 64;

const SEED: u64 = 42;

/// Calls in the list that is not timed.
const FEW: usize = 1_000;

/// The mixed list; one list for each kind; one mixed list on three capacities.
pub fn all() -> Vec<Work> {
    let mixed = Work {
        name: "mixed".to_string(),
        cap: CAP,
        trace: trace::mixed(CAP, trace::CALLS, SEED),
    };
    let kinds = trace::LETTERS.map(|letter| Work {
        name: format!("mostly {}", char::from(letter)),
        cap: CAP,
        trace: trace::kinds::list(letter, CAP, trace::CALLS, SEED),
    });
    let sweep = [4, 64, 1024].map(|cap| Work {
        name: "mixed for 4".to_string(),
        cap,
        trace: trace::mixed(4, trace::CALLS, SEED),
    });
    [mixed].into_iter().chain(kinds).chain(sweep).collect()
}

/// A short list, for the traces that are wrong.
pub fn short() -> Work {
    Work {
        name: "short".to_string(),
        cap: CAP,
        trace: trace::mixed(CAP, FEW, SEED),
    }
}

impl Work {
    pub fn store(&self) -> Vec<u32> {
        vec![0; 5 * self.cap as usize]
    }

    /// The bank of 01's session, but for its capacity: almost-empty watermarks 1, almost-full one
    /// less than the capacity, ID 0.
    pub fn bank(&self) -> Bank {
        let most = self.cap - 1;
        Bank::new([self.cap; 5], [1, most, 1, most, most], 0)
    }

    pub fn replay_plain(&self, store: &mut [u32], file: &[u8]) -> Replay {
        replay(&mut self.bank(), store, file, 0)
    }
}
