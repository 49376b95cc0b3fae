//! Sessions with bursts: right ones, and faults where a burst and commands meet (02 §3).

use super::*;

/// A direct write, a burst of a write and a read, a direct read, a reset in a burst;
/// then the same on a bank with other capacities.
fn session_with_bursts() -> Session {
    let part = [
        RELEASE,
        "W 0180 00001102",
        "W 02c0 00000110",
        "W 02c4 00000211",
        "W 0300 a5000000",
        "W 00dc 5a000000",
        "W 00d4 00000110",
        "S",
        "T",
        "F 0",
        "W 00d4 00000111",
        "W 0100 00000005",
        "G",
        "R 0100",
        "S",
        "W 0100 00000000",
        "T",
        "F 0",
        "G",
        "X 01",
        "F 0",
        "F 0",
        "P 0",
        "W 0100 00000004",
        "S",
        "X 02",
        "F 0",
        RECEIPT,
        RECEIPT,
        RECEIPT,
        "W 0100 00000005",
        "G",
        "T",
        RESET,
    ];
    let lines = ["O 1"]
        .iter()
        .chain(&part)
        .chain(&["B 2 2 1 2 1 0 0 0 0 0 0", "O 2"])
        .chain(&part)
        .map(|line| line.to_string());
    Session::run_in(Mode::Test, &lines.collect::<Vec<_>>())
}

#[test]
fn bursts_count_for_none() {
    let session = session_with_bursts();
    assert_eq!(session.count("G", DONE), 4);
    assert_eq!(session.count("G", TRANSFER_OPEN), 2);
    assert_eq!(session.count(RECEIPT, DONE), 4);
    assert_broken(&session, &[]);
}

#[test]
fn a_finish_past_the_burst() {
    let mut session = session_with_bursts();
    let last = session.find(0, "F 0", NO_TRANSFER);
    session.set(last, 0, DONE);
    // Its value then counts as a receipt, so that the next sync and read are wrong too.
    assert_eq!(session.broken()[0], (Clause::OneReceiptEach, last));
}

#[test]
fn a_receipt_of_a_burst_transfer() {
    let mut session = session_with_bursts();
    let first = session.find(0, RECEIPT, DONE);
    session.insert(first, RECEIPT, 0x0000_0100, DONE);
    assert_broken(&session, &[(Clause::ReceiptsRead, first + 1)]);
}

#[test]
fn a_command_started_by_the_trigger() {
    let mut session = session_with_bursts();
    let start = session.find(session.find(0, "P 0", DONE), "S", DONE);
    session.set(start, 0, NO_COMMAND);
    assert_eq!(session.broken()[0], (Clause::RestWaits, start));
}

/// The rows of the first burst: its trigger, its events, its two finishes.
fn first_burst(session: &Session) -> (usize, usize, usize) {
    let trigger = session.find(0, "G", DONE);
    let first = session.find(trigger, "F 0", DONE);
    (trigger, first, session.find(first + 1, "F 0", DONE))
}

#[test]
fn a_burst_s_finish_with_a_value() {
    let session = session_with_bursts();
    let (_, first, last) = first_burst(&session);
    for row in [first, last] {
        // As a receipt would be, and any other value.
        for value in [0x0000_0101, 1, 0x8000_0000] {
            let mut session = session.clone();
            session.set(row, value, DONE);
            assert_broken(&session, &[(Clause::OneReceiptEach, row)]);
        }
    }
}

/// The trigger is done while the direct write, or the direct read behind the burst, is open.
#[test]
fn a_trigger_while_a_command_is_open() {
    let session = session_with_bursts();
    let write = session.find(0, "S", DONE);
    let read = session.find(write + 1, "S", DONE);
    for start in [write, read] {
        let mut session = session.clone();
        session.insert(start + 1, "G", 0, DONE);
        assert_broken(&session, &[(Clause::ApartFromBursts, start + 1)]);
    }
}

#[test]
fn a_start_in_an_open_burst() {
    let mut session = session_with_bursts();
    let (trigger, ..) = first_burst(&session);
    let start = session.find(trigger, "S", TRANSFER_OPEN);
    session.set(start, 0x0000_0111, DONE);
    assert_broken(&session, &[(Clause::ApartFromBursts, start)]);
}

#[test]
fn a_trigger_in_an_open_burst() {
    let mut session = session_with_bursts();
    let (trigger, ..) = first_burst(&session);
    let again = session.find(trigger, "G", TRANSFER_OPEN);
    session.set(again, 0, DONE);
    assert_broken(&session, &[(Clause::ApartFromBursts, again)]);
}

/// Between a release and the reset behind it; the next release begins anew.
#[test]
fn a_fault_after_the_next_release_is_found() {
    let mut session = session_with_bursts();
    let (trigger, ..) = first_burst(&session);
    let start = session.find(trigger, "S", TRANSFER_OPEN);
    session.set(start, 0x0000_0111, DONE);
    let next = session.find(start, "B", DONE);
    let receipt = session.find(next, RECEIPT, DONE);
    session.set(receipt, 0x77, DONE);
    assert_broken(
        &session,
        &[
            (Clause::ApartFromBursts, start),
            (Clause::ReceiptsRead, receipt),
        ],
    );
}

/// A burst has no ENTDAA, so that these are refused in it too.
#[test]
fn address_events_in_a_burst() {
    for (line, value, number) in [
        ("A", 8, WRONG_PARITY),
        ("A", 8, DONE),
        ("D 00000001 00000002", 0, DONE),
    ] {
        let mut session = session_with_bursts();
        let (trigger, ..) = first_burst(&session);
        session.insert(trigger + 1, line, value, number);
        assert_broken(&session, &[(Clause::EventsOfItsKind, trigger + 1)]);
    }
}

/// A burst sends offload data words, and its reads go to the output.
#[test]
fn data_words_that_a_burst_moved() {
    let session = session_with_bursts();
    let (trigger, _, last) = first_burst(&session);
    let mut taken = session.clone();
    taken.insert(last + 1, "R 00c8", 3, DONE);
    taken.insert(trigger, "W 00dc 01020304", 0, DONE);
    assert_broken(&taken, &[]);
    taken.set(last + 2, 4, DONE);
    assert_broken(&taken, &[(Clause::DataWaits, last + 2)]);
    let mut queued = session.clone();
    queued.insert(last + 1, "R 00e0", 0x0100_0000, DONE);
    assert_broken(&queued, &[(Clause::DataRead, last + 1)]);
}
