//! A million calls over many set-ups, to the archive and to the engine of `reference/`, which was
//! written from the papers by itself: value, number, output and every register whose read changes
//! nothing are the same. What was had is counted, so that no answer goes untried.

#[path = "common/chance.rs"]
mod chance;
#[path = "common/lcg.rs"]
mod lcg;
#[path = "common/pair.rs"]
mod pair;
#[path = "common/walk.rs"]
mod walk;

use lcg::Lcg;
use pair::Pair;
use std::collections::BTreeMap;
use thymewax::{Answer, Call, Queue, SetUp};
use walk::Walk;

/// Short walks over many set-ups, long ones so that syncs come round.
const SHORT: (usize, usize) = (400, 1_500);
const LONG: (usize, usize) = (10, 40_000);
/// The fewest times that each answer must have been had.
const FEWEST: usize = 100;

/// The numbers that each call can be answered with, by the orders of docs/ANSWERS.md. 21 and 22
/// have their own tests; 13 at every event is that of a burst with an output that is too short.
const ANSWERS: [(&str, &[u32]); 10] = [
    ("write", &[0, 1, 2, 4, 5, 6, 30]),
    ("read", &[0, 3, 4]),
    ("start", &[0, 5, 6, 8, 9, 13, 15]),
    ("send", &[0, 5, 7, 10, 11, 12, 13, 20]),
    ("receive", &[0, 5, 7, 10, 11, 13, 20]),
    ("finish", &[0, 5, 7, 13, 14, 18]),
    ("interrupt", &[0, 5, 6, 13, 16, 17, 18]),
    ("request", &[0, 5, 7, 10, 13]),
    ("take_address", &[0, 5, 7, 10, 12, 13, 19]),
    ("trigger", &[0, 5, 6, 8, 13, 28, 29]),
];

fn name(call: Call) -> &'static str {
    match call {
        Call::Write { .. } => "write",
        Call::Read { .. } => "read",
        Call::Start => "start",
        Call::Send => "send",
        Call::Receive { .. } => "receive",
        Call::Finish { .. } => "finish",
        Call::Interrupt { .. } => "interrupt",
        Call::Request { .. } => "request",
        Call::TakeAddress => "take_address",
        Call::Trigger => "trigger",
    }
}

/// What was had.
#[derive(Default)]
struct Had {
    calls: usize,
    answers: BTreeMap<(&'static str, u32), usize>,
    /// Receipts with the last sync before it comes round; interrupts likewise.
    last_receipts: usize,
    last_interrupts: usize,
    /// Calls that changed the output.
    outputs: usize,
    /// Transfers that finished, by code.
    endings: BTreeMap<u8, usize>,
}

impl Had {
    fn count(&mut self, call: Call, answer: Answer) {
        self.calls += 1;
        *self
            .answers
            .entry((name(call), answer.number.get()))
            .or_default() += 1;
        let last = answer.is_done() && answer.value & 0xff == 0xff;
        match call {
            Call::Finish { code } if answer.is_done() => {
                *self.endings.entry(code).or_default() += 1;
                self.last_receipts += usize::from(last);
            }
            Call::Interrupt { .. } => self.last_interrupts += usize::from(last),
            _ => {}
        }
    }
}

/// One walk from a fresh set-up.
fn walk(had: &mut Had, lcg: &mut Lcg, calls: usize, resets: bool) {
    let mut pair = Pair::set_up(&chance::set_up(lcg)).expect("a set-up in range");
    let mut walk = Walk::new(resets);
    pair.compare();
    for _ in 0..calls {
        if lcg.one_in(20) {
            // Mostly long enough for the bursts.
            pair.lend(lcg.pick(&[0, 1, 2, 15, 15, 15, 15, 15, 16, 16]));
        }
        let before = pair.model.output().to_vec();
        let (call, answer) = walk.step(&mut pair, lcg);
        had.count(call, answer);
        had.outputs += usize::from(pair.model.output() != before);
        pair.compare();
    }
    pair.drain();
}

#[test]
fn a_million_calls_agree() {
    let mut had = Had::default();
    let mut lcg = Lcg::new(14);
    for (walks, calls) in [SHORT, LONG] {
        for number in 0..walks {
            // Long walks have few resets, so that syncs come round.
            walk(&mut had, &mut lcg, calls, calls < 10_000 && number % 2 == 0);
        }
    }
    for ((name, number), times) in &had.answers {
        println!("{name:>12} {number:>2}: {times}");
    }
    println!(
        "{} calls; last syncs: {} receipts, {} interrupts; outputs: {}",
        had.calls, had.last_receipts, had.last_interrupts, had.outputs
    );
    println!("finishes by code: {:?}", had.endings);
    assert_eq!(had.calls, 1_000_000);
    let expected = ANSWERS
        .iter()
        .flat_map(|(name, numbers)| numbers.iter().map(move |number| (*name, *number)));
    let mut known = 0;
    for answer in expected {
        let times = had.answers.get(&answer).copied().unwrap_or(0);
        assert!(times >= FEWEST, "{answer:?} was had {times} times");
        known += 1;
    }
    assert_eq!(had.answers.len(), known, "an answer that no order has");
    assert!(had.last_receipts > 0 && had.last_interrupts > 0);
    assert!(had.outputs >= FEWEST);
    let codes: Vec<u8> = had.endings.keys().copied().collect();
    assert_eq!(codes, [0, 1, 4, 6, 8]);
    assert!(had.endings.values().all(|times| *times >= FEWEST));
}

/// Set-ups in range and at, near and far off each bound: both sides take or refuse the same.
#[test]
fn set_ups_agree() {
    const NUMBERS: [u32; 12] = [0, 1, 2, 3, 4, 255, 256, 1023, 1024, 1025, 1 << 31, u32::MAX];
    let mut lcg = Lcg::new(23);
    let mut taken = 0;
    let mut refused = 0;
    for _ in 0..40_000 {
        let mut set_up = chance::set_up(&mut lcg);
        let SetUp {
            cmd,
            cmdr,
            sdo,
            sdi,
            ibi,
            id,
        } = &mut set_up;
        for Queue {
            capacity,
            watermark,
        } in [cmd, cmdr, sdo, sdi, ibi]
        {
            if lcg.one_in(8) {
                *capacity = lcg.pick(&NUMBERS);
            }
            match lcg.below(16) {
                0 => *watermark = lcg.pick(&NUMBERS),
                1 => *watermark = capacity.wrapping_add(1),
                _ => {}
            }
        }
        if lcg.one_in(8) {
            *id = lcg.pick(&NUMBERS);
        }
        match Pair::set_up(&set_up) {
            Ok(mut pair) => {
                pair.compare();
                taken += 1;
            }
            Err(_) => refused += 1,
        }
    }
    println!("{taken} taken, {refused} refused");
    assert!(taken > 4_000 && refused > 4_000);
}
