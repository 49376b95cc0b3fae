//! Values of refused calls: faults in them (01; 02 §5).

use super::*;

/// The rows of a queue's reads that find it empty, from a row on.
fn empty_reads(session: &Session, from: usize, read: &str) -> Vec<usize> {
    let rows = from..session.rows.len();
    rows.filter(|row| session.is(*row, read, EMPTY)).collect()
}

/// 01's first reading of an empty queue.
#[test]
fn an_empty_read_that_shows_0() {
    for read in QUEUE_READS {
        let mut session = long_session();
        let reads = empty_reads(&session, 0, read);
        let row = *reads.iter().find(|row| session.value(**row) > 0).unwrap();
        session.set(row, 0, EMPTY);
        assert_broken(&session, &[(Clause::EmptyReads, row)]);
    }
}

#[test]
fn an_empty_read_that_shows_another_queue_s_word() {
    let mut session = long_session();
    let row = session.find(transfer(&session, "ENTDAA", 9), "R 00e0", EMPTY);
    let receipt = session.find(transfer(&session, "ENTDAA", 9), RECEIPT, DONE);
    session.set(row, session.value(receipt), EMPTY);
    assert_broken(&session, &[(Clause::EmptyReads, row)]);
}

/// The word before the last.
#[test]
fn an_empty_read_that_shows_an_older_word() {
    let mut session = long_session();
    let row = session.find(session.mark("four receipts"), RECEIPT, EMPTY);
    assert!(session.is(row - 2, RECEIPT, DONE));
    session.set(row, session.value(row - 2), EMPTY);
    assert_broken(&session, &[(Clause::EmptyReads, row)]);
}

#[test]
fn an_empty_read_that_shows_a_word_none_has_read() {
    let mut session = long_session();
    let row = session.find(session.mark("careless part"), "R 00e4", EMPTY);
    session.set(row, 0x0010_5a00, EMPTY);
    assert_broken(&session, &[(Clause::EmptyReads, row)]);
}

/// In reset, and after the release behind it.
#[test]
fn a_word_read_last_that_a_reset_kept() {
    let session = long_session();
    let reset = session.mark("reset in a read");
    let release = session.mark("careless part");
    assert!(reset < release);
    for read in QUEUE_READS {
        let before = (0..reset)
            .rfind(|row| session.is(*row, read, DONE))
            .unwrap();
        for from in [reset, release] {
            let mut session = session.clone();
            let row = empty_reads(&session, from, read)[0];
            session.set(row, session.value(before), EMPTY);
            assert_broken(&session, &[(Clause::EmptyReads, row)]);
        }
    }
}

/// Whatever the number, whatever the call, in reset too; `WRONG_PARITY` alone has a value.
#[test]
fn a_refusal_with_a_value() {
    let session = long_session();
    let refused: Vec<usize> = (0..session.rows.len())
        .filter(|row| session.rows[*row].answer.is_some())
        .filter(|row| {
            [DONE, EMPTY, WRONG_PARITY]
                .iter()
                .all(|n| !session.is(*row, "", *n))
        })
        .collect();
    let reset = session.mark("reset in a read");
    assert!(refused
        .iter()
        .any(|row| session.is(*row, "S", HELD_IN_RESET) && *row > reset));
    let mut lines = std::collections::BTreeSet::new();
    for row in refused {
        let letter = session.rows[row].line.chars().next();
        let number = session.rows[row].answer.as_ref().unwrap()[9..].to_string();
        if lines.insert((letter, number.clone())) {
            let mut session = session.clone();
            session.set(row, 1, number.parse().unwrap());
            assert_broken(&session, &[(Clause::RefusalsBare, row)]);
        }
    }
    assert!(lines.len() > 15);
}

/// A register without a queue is not empty, so that the number is a refusal as any other.
#[test]
fn an_empty_read_of_no_queue() {
    let mut session = long_session();
    let end = session.mark("end of the careless part");
    session.insert(end, "R 0008", 0x33, EMPTY);
    assert_broken(&session, &[(Clause::RefusalsBare, end)]);
}

#[test]
fn a_refused_set_up_with_a_value() {
    let lines = [RELEASE, "B 0 0 0 0 0 0 0 0 0 0 0", "R 00d8"].map(String::from);
    let mut session = Session::run_in(Mode::Test, &lines);
    assert!(session.is(1, "B", SET_UP_OUT_OF_RANGE));
    assert_broken(&session, &[]);
    session.set(1, 1, SET_UP_OUT_OF_RANGE);
    assert_broken(&session, &[(Clause::RefusalsBare, 1)]);
}
