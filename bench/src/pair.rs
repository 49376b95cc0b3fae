//! The plain engine and the second program's, side by side: what one gives, the other gives.

use crate::plain::call::Call;
use crate::plain::replay::{replay, Ran, Replay};
use crate::plain::{offset, Answer, Bank};
use crate::trace::{self, file::Trace};
use reference::engine::{self, SetupNumbers};

/// A set-up, capacities and watermarks.
pub type SetUp = ([u32; 5], [u32; 5], u8);

pub const SET_UPS: [SetUp; 5] = [
    ([4, 4, 4, 4, 4], [1, 3, 1, 3, 3], 0),
    ([64, 64, 64, 64, 64], [1, 63, 1, 63, 63], 0),
    ([2, 1, 1, 2, 1], [0, 1, 1, 0, 0], 255),
    ([3, 5, 2, 7, 4], [3, 0, 2, 7, 2], 90),
    ([1024, 1024, 1024, 1024, 1024], [512, 4, 1024, 0, 1023], 1),
];

fn store_of(caps: [u32; 5]) -> Vec<u32> {
    vec![0; caps.iter().sum::<u32>() as usize]
}

fn reference_bank((caps, marks, id): SetUp) -> engine::Bank {
    let numbers = SetupNumbers {
        capacities: caps,
        watermarks: marks,
        id: u32::from(id),
    };
    let (bank, answer) = engine::set_up(&numbers);
    assert_eq!(answer.number, 0);
    bank
}

fn reference_call(call: Call) -> engine::Call {
    match call {
        Call::Read { offset } => engine::Call::Read { offset },
        Call::Write { offset, value } => engine::Call::Write { offset, value },
        Call::Start => engine::Call::Start,
        Call::Send => engine::Call::Send,
        Call::Receive { byte } => engine::Call::Receive { byte },
        Call::Finish { code } => engine::Call::Finish { code },
        Call::Interrupt { address, byte } => engine::Call::InterruptRequest { address, byte },
        Call::Request { first, second } => engine::Call::AddressRequest { first, second },
        Call::Take => engine::Call::AddressTake,
    }
}

/// An answer of the second program, in the plain engine's form.
fn plain_answer(answer: engine::Answer) -> Answer {
    Answer {
        value: answer.value,
        number: u32::from(answer.number),
    }
}

/// What a replay of the second program gave, in the plain engine's form.
fn plain_replay(replay: reference::trace::Replay) -> Replay {
    Replay {
        number: u32::from(replay.number),
        ran: Ran {
            made: replay.done as u32,
            answer: plain_answer(replay.last),
        },
    }
}

/// Numbers of calls are below this.
pub const NUMBERS: usize = 31;

/// Both engines, and how often each number was given.
pub struct Pair {
    pub plain: Bank,
    pub store: Vec<u32>,
    reference: engine::Bank,
    pub seen: [usize; NUMBERS],
}

impl Pair {
    pub fn new(set_up: SetUp) -> Pair {
        let (caps, marks, id) = set_up;
        Pair {
            plain: Bank::new(caps, marks, id),
            store: store_of(caps),
            reference: reference_bank(set_up),
            seen: [0; NUMBERS],
        }
    }

    fn both(&mut self, call: Call) -> Answer {
        let plain = self.plain.step(&mut self.store, call);
        let reference = self.reference.call(&reference_call(call), &mut []);
        assert_eq!(plain, plain_answer(reference), "{call:?}");
        plain
    }

    /// Every register whose read changes nothing.
    fn show(&mut self) {
        for offset in trace::shown() {
            self.both(Call::Read { offset });
        }
    }

    /// A call, then what the registers show. A refusal changes nothing.
    fn call(&mut self, call: Call) {
        let before = (self.plain.clone(), self.store.clone());
        let answer = self.both(call);
        self.seen[answer.number as usize] += 1;
        if answer.number != 0 && answer.number != 19 {
            assert_eq!(before, (self.plain.clone(), self.store.clone()), "{call:?}");
        }
        self.show();
    }

    pub fn list(&mut self, list: &Trace) {
        for record in list.records() {
            self.call(Call::of(record).expect("the record is right"));
        }
    }

    /// A section's replay, then what the registers show.
    pub fn replay(&mut self, file: &[u8], section: usize) -> Replay {
        let plain = replay(&mut self.plain, &mut self.store, file, section);
        let reference = reference::trace::replay(file, section, usize::MAX, &mut self.reference);
        assert_eq!(plain, plain_replay(reference), "section {section}");
        self.show();
        plain
    }

    /// The words that are still queued.
    pub fn drain(&mut self) {
        for offset in [offset::CMDR, offset::SDI, offset::IBI] {
            while self.both(Call::Read { offset }).number == 0 {}
        }
    }
}
