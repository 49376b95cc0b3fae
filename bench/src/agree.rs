//! The plain engine gives what the second program gives, after every call of several lists.

use crate::pair::{Pair, NUMBERS, SET_UPS};
use crate::plain::call::Call;
use crate::plain::transfer::{Kind, Phase, Requests, Transfer};
use crate::plain::{offset, Answer, Bank, Latest};
use crate::trace;

const CALLS_A_LIST: usize = 150_000;

#[test]
fn gives_what_the_second_program_gives() {
    let mut seen = [0; NUMBERS];
    let mut calls = 0;
    for (n, set_up) in SET_UPS.into_iter().enumerate() {
        let seed = 100 + n as u64;
        // A list for queues of four words is refused at times where they are smaller.
        let lists = [
            trace::mixed(4, CALLS_A_LIST, seed),
            trace::wild::list(CALLS_A_LIST, seed),
        ];
        let mut pair = Pair::new(set_up);
        for list in lists {
            pair.list(&list);
            pair.drain();
            calls += list.count();
        }
        for (all, more) in seen.iter_mut().zip(pair.seen) {
            *all += more;
        }
    }
    assert!(calls >= 1_000_000);
    // Those of banks, stores and traces have their own tests; the plain engine knows no bursts.
    for number in (0..=20).chain([30]) {
        assert!(seen[number] > 0, "number {number} was never given");
    }
}

#[test]
fn lists_of_one_kind_give_what_the_second_program_gives() {
    for letter in trace::LETTERS {
        let mut pair = Pair::new(SET_UPS[1]);
        pair.list(&trace::kinds::list(letter, 64, 10_000, 7));
        pair.drain();
    }
}

/// A call of each kind, with arguments that 18 would refuse.
const CALLS: [Call; 9] = [
    Call::Read { offset: 1 },
    Call::Write {
        offset: offset::SCRATCH,
        value: 1,
    },
    Call::Start,
    Call::Send,
    Call::Receive { byte: 0 },
    Call::Finish { code: 16 },
    Call::Interrupt {
        address: 128,
        byte: 0,
    },
    Call::Request {
        first: 0,
        second: 0,
    },
    Call::Take,
];

fn answers_all_with(bank: &Bank, store: &[u32], number: u32) {
    for call in CALLS {
        let (mut left, mut words) = (bank.clone(), store.to_vec());
        let answer = left.step(&mut words, call);
        assert_eq!(answer, Answer { value: 0, number }, "{bank:?} {call:?}");
        assert_eq!((&left, &words[..]), (bank, store));
    }
}

fn released() -> Bank {
    let (caps, marks, id) = SET_UPS[0];
    let mut bank = Bank::new(caps, marks, id);
    bank.held = false;
    bank
}

const TRANSFER: Transfer = Transfer {
    kind: Kind::Direct,
    header: false,
    attached: true,
    length: 6,
    moved: 5,
    part: 0x5a00_0000,
};

#[test]
fn a_bank_that_is_not_well_formed_is_21() {
    let held = |change: fn(&mut Bank)| {
        let mut bank = released();
        bank.held = true;
        change(&mut bank);
        bank
    };
    let open = |change: fn(&mut Bank)| {
        let mut bank = released();
        change(&mut bank);
        bank
    };
    let banks = [
        open(|b| b.cmd.cap = 1),
        open(|b| b.cmdr.cap = 0),
        open(|b| b.sdo.cap = 0),
        open(|b| b.sdi.cap = 1),
        open(|b| b.ibi.cap = 0),
        open(|b| b.ibi.cap = 1025),
        open(|b| b.cmd.mark = 5),
        open(|b| b.cmdr.mark = u32::MAX),
        open(|b| b.sdo.head = 4),
        open(|b| b.sdi.head = u32::MAX),
        open(|b| b.ibi.level = 5),
        open(|b| b.cmd.level = u32::MAX),
        open(|b| b.ops = 128),
        open(|b| b.config = 4),
        open(|b| b.selected = 128),
        open(|b| b.pending = 1),
        open(|b| b.flags[0] = 8),
        open(|b| b.flags[63] = 0x80),
        open(|b| b.flags[127] = 9),
        open(|b| {
            b.phase = Phase::Reading(Transfer {
                length: 4096,
                ..TRANSFER
            })
        }),
        open(|b| {
            b.phase = Phase::Reading(Transfer {
                moved: 7,
                ..TRANSFER
            })
        }),
        open(|b| {
            b.phase = Phase::Reading(Transfer {
                attached: false,
                ..TRANSFER
            })
        }),
        // One byte is gathered, or three are left.
        open(|b| {
            b.phase = Phase::Reading(Transfer {
                part: 0x5a5a_0000,
                ..TRANSFER
            })
        }),
        open(|b| {
            b.phase = Phase::Writing(Transfer {
                part: 0x5a5a_5a5a,
                ..TRANSFER
            })
        }),
        open(|b| {
            b.phase = Phase::Writing(Transfer {
                moved: 4,
                ..TRANSFER
            })
        }),
        held(|b| b.cmd.head = 1),
        held(|b| b.cmdr.level = 1),
        held(|b| b.sdo.head = 1),
        held(|b| b.sdi.level = 1),
        held(|b| b.ibi.head = 1),
        held(|b| b.sync = 1),
        held(|b| b.ibi_sync = 1),
        held(|b| b.pending = 32),
        held(|b| b.latest.cmdr = 1),
        held(|b| b.latest.sdi = 1 << 31),
        held(|b| b.latest.ibi = u32::MAX),
        held(|b| b.phase = Phase::Assigning(Requests::None)),
        Bank::new([0; 5], [0; 5], 0),
        Bank::new([4, 4, 4, 4, 1025], [0; 5], 0),
    ];
    for bank in banks {
        // The store's length is wrong besides, and 21 goes first.
        answers_all_with(&bank, &[7; 19], 21);
        answers_all_with(&bank, &[7; 20], 21);
    }
}

#[test]
fn a_bank_with_an_open_transfer_is_well_formed() {
    for phase in [Phase::Reading(TRANSFER), Phase::Writing(TRANSFER)] {
        let mut bank = released();
        bank.phase = phase;
        let read = Call::Read {
            offset: offset::OPS,
        };
        assert_eq!(bank.step(&mut [0; 20], read).number, 0);
    }
}

#[test]
fn a_released_bank_may_have_read_any_word() {
    let latest = Latest {
        cmdr: 1,
        sdi: 1 << 31,
        ibi: u32::MAX,
    };
    for (offset, value) in [
        (offset::CMDR, latest.cmdr),
        (offset::SDI, latest.sdi),
        (offset::IBI, latest.ibi),
    ] {
        let mut bank = released();
        bank.latest = latest;
        let before = bank.clone();
        let answer = bank.step(&mut [0; 20], Call::Read { offset });
        assert_eq!(answer, Answer { value, number: 3 });
        assert_eq!(bank, before);
    }
}

#[test]
fn a_store_of_another_length_is_22() {
    for store in [&[][..], &[7; 19], &[7; 21]] {
        answers_all_with(&released(), store, 22);
    }
}
