//! The plain engine's replay: it leaves what the calls one by one leave, stops where 02 says, and
//! gives what the second program's replay gives.

use crate::pair::{Pair, SET_UPS};
use crate::plain::call::{Call, RECORD};
use crate::plain::replay::{replay, Ran, Replay};
use crate::plain::{file, Answer, Bank};
use crate::trace::file::{file_of, record, Trace};
use crate::trace::{self, wrong};

const CAP: u32 = 4;
const RECORDS: usize = 1000;

/// A bank, its store, and what a replay gave.
type Left = (Bank, Vec<u32>, Replay);

/// Two fresh banks of this capacity.
fn pair() -> Pair {
    Pair::new(SET_UPS[0])
}

fn bank() -> Bank {
    pair().plain
}

/// The plain engine and the second program find the same stretch of the file, or refuse it with the
/// same number.
fn finds_the_same(file: &[u8], section: usize) {
    let plain = file::section(file, section).map(|records| records.as_flattened());
    let reference = match reference::trace::section(file, section) {
        (records, 0) => Ok(records),
        (_, number) => Err(u32::from(number)),
    };
    let place = |records: &[u8]| records.as_ptr_range();
    assert_eq!(plain.map(place), reference.map(place), "section {section}");
}

/// What the plain replay leaves on a fresh bank. The second program's gives the same, and leaves a
/// bank that shows the same, with the same words to read.
fn replayed(file: &[u8], section: usize) -> Left {
    finds_the_same(file, section);
    let mut pair = pair();
    let replay = pair.replay(file, section);
    let left = (pair.plain.clone(), pair.store.clone(), replay);
    pair.drain();
    left
}

/// What the calls of these records leave one by one, and a number.
fn one_by_one(records: &[[u8; RECORD]], number: u32) -> Left {
    let (mut bank, mut store) = (bank(), vec![0; 5 * CAP as usize]);
    let mut ran = Ran::NONE;
    for record in records {
        let call = Call::of(record).expect("the record is right");
        ran.answer = bank.step(&mut store, call);
        ran.made += 1;
    }
    (bank, store, Replay { number, ran })
}

fn list() -> Trace {
    trace::mixed(CAP, RECORDS, 11)
}

#[test]
fn bytes_are_those_of_02() {
    let mut trace = Trace::empty();
    trace.push(record(b'W', 0x02c4, 0x0403_0201, 0));
    trace.push(record(b'I', 0, 8, 0x5a));
    let mark_and_contents = b"I3TR\x01\x00\x0e\x00\x00\x00\x02\x00\x00\x00";
    let records = b"W\x00\xc4\x02\x01\x02\x03\x04\x00\x00\x00\x00I\x00\x00\x00\x08\x00\x00\x00\x5a\x00\x00\x00";
    assert_eq!(trace.file(), [&mark_and_contents[..], records].concat());
}

#[test]
fn a_list_leaves_what_its_calls_leave() {
    let list = list();
    assert_eq!(replayed(list.file(), 0), one_by_one(list.records(), 0));
    let most = wrong::greatest();
    assert_eq!(replayed(&file_of(&[&most]), 0), one_by_one(&most, 0));
}

#[test]
fn a_section_is_replayed_by_itself() {
    let list = list();
    let (first, second) = list.records().split_at(RECORDS / 3);
    let file = file_of(&[first, &[], second]);
    assert_eq!(replayed(&file, 0), one_by_one(first, 0));
    assert_eq!(replayed(&file, 1), one_by_one(&[], 0));
    assert_eq!(replayed(&file, 2), one_by_one(second, 0));
    for not_there in [3, 4, usize::MAX] {
        assert_eq!(replayed(&file, not_there), one_by_one(&[], 26));
    }
    assert_eq!(reference::trace::check(&file), 0);
    assert_eq!(replayed(&file_of(&[&[][..]; 64]), 63), one_by_one(&[], 0));
}

/// Each on the banks that the sections before it left.
#[test]
fn sections_in_order_leave_what_the_list_leaves() {
    let list = trace::mixed(CAP, 20 * RECORDS, 12);
    let mut sections: Vec<_> = list.records().chunks(RECORDS).collect();
    sections.insert(2, &[]);
    let file = file_of(&sections);
    for set_up in SET_UPS {
        let mut pair = Pair::new(set_up);
        for (n, records) in sections.iter().enumerate() {
            let replay = pair.replay(&file, n);
            assert_eq!(replay.number, 0);
            assert_eq!(replay.ran.made as usize, records.len());
        }
        let mut whole = Pair::new(set_up);
        whole.replay(list.file(), 0);
        assert_eq!((&pair.plain, &pair.store), (&whole.plain, &whole.store));
        pair.drain();
    }
}

#[test]
fn a_wrong_record_stops_it() {
    for record in wrong::records() {
        for place in [0, RECORDS / 2, RECORDS - 1] {
            let mut list = list();
            list.replace(place, record);
            let earlier = &list.records()[..place];
            assert_eq!(replayed(list.file(), 0), one_by_one(earlier, 27));
        }
    }
}

#[test]
fn a_wrong_file_is_refused() {
    for (number, file) in wrong::files(list().records()) {
        assert_eq!(u32::from(reference::trace::check(&file)), number);
        for section in [0, 1] {
            assert_eq!(replayed(&file, section), one_by_one(&[], number));
        }
    }
}

#[test]
fn every_record_is_answered_21_or_22_where_a_call_is() {
    let list = list();
    for (mut bank, words, number) in [
        (Bank::new([0; 5], [0; 5], 0), 20, 21),
        (bank(), 19, 22),
        (bank(), 21, 22),
    ] {
        let replay = replay(&mut bank, &mut vec![0; words], list.file(), 0);
        let answer = Answer { value: 0, number };
        let made = RECORDS as u32;
        let ran = Ran { made, answer };
        assert_eq!(replay, Replay { number: 0, ran });
    }
}
