//! Faults in data words, on their way out and in (02 §13).

use super::*;

/// The rows from a mark on that begin so and have this number, as many as are asked for.
fn rows<const N: usize>(session: &Session, mark: usize, line: &str, number: u8) -> [usize; N] {
    let mut from = mark;
    [(); N].map(|()| {
        let row = session.find(from, line, number);
        from = row + 1;
        row
    })
}

/// The n-th byte of a word, from 0, as it is sent.
fn byte(word: u32, n: usize) -> u32 {
    u32::from(word.to_be_bytes()[n])
}

/// The second time that the session has this transfer.
fn second(session: &Session, name: &str) -> usize {
    transfer(session, name, 1)
}

/// Three words are there; the rows of a write of five bytes, of one of six, and the words.
fn in_advance(session: &Session) -> ([usize; 5], [usize; 6], [u32; 3]) {
    let mark = second(session, "data in advance");
    let sends: [usize; 11] = rows(session, mark, "T", DONE);
    let words = rows(session, mark, "W 00dc", DONE).map(|row: usize| session.written(row));
    let (first, second) = sends.split_at(5);
    (first.try_into().unwrap(), second.try_into().unwrap(), words)
}

// Words sent.

#[test]
fn the_sends_are_those_of_the_words() {
    let session = long_session();
    let (first, second, words) = in_advance(&session);
    let values = |rows: &[usize]| -> Vec<u32> { rows.iter().map(|r| session.value(*r)).collect() };
    assert_eq!(values(&first[..4]), [0, 1, 2, 3].map(|n| byte(words[0], n)));
    assert_eq!(values(&first[4..]), [byte(words[1], 0)]);
    assert_eq!(
        values(&second[..4]),
        [0, 1, 2, 3].map(|n| byte(words[2], n))
    );
}

#[test]
fn a_word_sent_twice() {
    // In one write, and by the next one.
    let session = long_session();
    let (first, second, words) = in_advance(&session);
    for (row, word) in [(first[4], words[0]), (second[0], words[1])] {
        let mut session = session.clone();
        assert_ne!(session.value(row), byte(word, 0));
        session.set(row, byte(word, 0), DONE);
        assert_broken(&session, &[(Clause::DataSent, row)]);
    }
}

/// The word after it comes in its place.
#[test]
fn a_word_lost_in_sdo() {
    let mut session = long_session();
    let (first, _, words) = in_advance(&session);
    session.set(first[4], byte(words[2], 0), DONE);
    assert_broken(&session, &[(Clause::DataSent, first[4])]);
}

/// The answers of a program that says it took the word of this row, but has lost it.
fn lose_word(session: &Session, row: usize) -> Session {
    let mut lines = session.lines();
    let line = lines.remove(row);
    let mut lost = Session::run(&lines);
    lost.insert(row, &line, 0, DONE);
    lost
}

#[test]
fn a_lost_word_and_sdo_empty() {
    let session = long_session();
    // The room shows it.
    let mark = second(&session, "data in advance");
    let [.., word]: [usize; 3] = rows(&session, mark, "W 00dc", DONE);
    let room = session.find(word, "R 00c8", DONE);
    assert_broken(&lose_word(&session, word), &[(Clause::DataWaits, room)]);
    // So does a send, if the room is not read.
    let lines = session.lines().into_iter().filter(|line| line != "R 00c8");
    let session = Session::run(&lines.collect::<Vec<_>>());
    let mark = second(&session, "data in advance");
    let [.., word]: [usize; 3] = rows(&session, mark, "W 00dc", DONE);
    let sends: [usize; 6] = rows(&session, mark, "T", DONE);
    assert_broken(&lose_word(&session, word), &[(Clause::DataWaits, sends[5])]);
    // And an address take.
    let [word] = rows(&session, second(&session, "ENTDAA"), "W 00dc", DONE);
    assert!(session.is(word + 1, "A", WRONG_PARITY));
    let lost = lose_word(&session, word);
    assert!(lost.is(word + 1, "A", SDO_EMPTY));
    assert_broken(&lost, &[(Clause::DataWaits, word + 1)]);
}

#[test]
fn two_words_swapped_in_sdo() {
    let mut session = long_session();
    let (first, _, words) = in_advance(&session);
    for (n, row) in first[..4].iter().enumerate() {
        session.set(*row, byte(words[1], n), DONE);
    }
    session.set(first[4], byte(words[0], 0), DONE);
    assert_broken(&session, &[(Clause::DataSent, first[0])]);
}

#[test]
fn a_byte_changed_in_sdo() {
    let session = long_session();
    let (first, ..) = in_advance(&session);
    for row in [first[0], first[4]] {
        for bit in 0..32 {
            let mut session = session.clone();
            session.set(row, session.value(row) ^ 1 << bit, DONE);
            assert_broken(&session, &[(Clause::DataSent, row)]);
        }
    }
}

#[test]
fn bytes_sent_from_the_other_end() {
    let mut session = long_session();
    let (first, _, words) = in_advance(&session);
    for (n, row) in first[..4].iter().enumerate() {
        session.set(*row, byte(words[0], 3 - n), DONE);
    }
    assert_broken(&session, &[(Clause::DataSent, first[0])]);
}

/// What the first write has past its length is sent by the second.
#[test]
fn a_rest_sent_later() {
    let mut session = long_session();
    let (_, second, words) = in_advance(&session);
    session.set(second[0], byte(words[1], 1), DONE);
    assert_broken(&session, &[(Clause::DataSent, second[0])]);
}

/// It counts as moved all the same.
#[test]
fn a_byte_sent_of_no_word() {
    let mut session = long_session();
    let row = session.find(second(&session, "data in advance"), "T", SDO_EMPTY);
    let finish = session.find(row, "F", DONE);
    session.set(row, 0x5a, DONE);
    let expected = [(Clause::ReceiptLength, finish), (Clause::DataSent, row)];
    assert_broken(&session, &expected);
}

#[test]
fn a_word_from_before_the_reset_sent() {
    let mut session = long_session();
    let row = session.find(session.mark("full data queues"), "T", DONE);
    let reset = session.mark("end of the careless part");
    let is_data = |row: &usize| session.is(*row, "W 00dc", DONE);
    let before = session.written((0..reset).rfind(is_data).unwrap());
    assert_ne!(session.value(row), byte(before, 0));
    session.set(row, byte(before, 0), DONE);
    assert_broken(&session, &[(Clause::DataSent, row)]);
}

/// A word that SDO did not take.
#[test]
fn a_dropped_data_word_sent() {
    let mut session = long_session();
    let mark = session.mark("full data queues");
    let dropped = session.find(mark, "W 00dc", DROPPED_FULL);
    let row: [usize; 16] = rows(&session, mark, "T", DONE);
    session.set(row[12], byte(session.written(dropped), 0), DONE);
    assert_broken(&session, &[(Clause::DataSent, row[12])]);
}

// Words removed.

#[test]
fn a_removed_word_sent_later() {
    for n in 0..2 {
        let mut session = long_session();
        let mark = second(&session, "failed with more data");
        let data: [usize; 3] = rows(&session, mark, "W 00dc", DONE);
        let row = session.find(mark, "T", DONE);
        assert_eq!(session.value(row), byte(session.written(data[2]), 0));
        session.set(row, byte(session.written(data[n]), 0), DONE);
        assert_broken(&session, &[(Clause::DataSent, row)]);
    }
}

/// The rooms that show one word more, or one fewer, behind each failed transfer: a write with
/// more words there, one with fewer, a read, an ENTDAA.
#[test]
fn too_many_or_too_few_words_removed() {
    for (name, finish) in [
        ("failed with more data", "F 4"),
        ("failed with less data", "F 6"),
        ("ENTDAA unanswered", "F 4"),
    ] {
        let session = long_session();
        let finish = session.find(second(&session, name), finish, DONE);
        let row = session.find(finish, "R 00c8", DONE);
        let next_finish = session.find(finish + 1, "F", DONE);
        for row in [row, session.find(next_finish, "R 00c8", DONE)] {
            for room in [session.value(row) - 1, session.value(row) + 1] {
                let mut session = session.clone();
                session.set(row, room, DONE);
                assert_broken(&session, &[(Clause::DataWaits, row)]);
            }
        }
    }
}

/// A wrong reading of 02 §2: the words that come later go too, until the length is reached.
#[test]
fn a_later_word_removed() {
    let session = long_session();
    let mark = second(&session, "failed with less data");
    let [_, later] = rows(&session, mark, "W 00dc", DONE);
    let room = session.find(later, "R 00c8", DONE);
    assert_broken(&lose_word(&session, later), &[(Clause::DataWaits, room)]);
}

// Address words.

#[test]
fn the_word_of_wrong_parity_taken_again() {
    let mut session = long_session();
    let mark = second(&session, "ENTDAA");
    let wrong = session.find(mark, "A", WRONG_PARITY);
    let right = session.find(wrong, "A", DONE);
    session.set(right, session.value(wrong), WRONG_PARITY);
    assert_broken(&session, &[(Clause::AddressesTaken, right)]);
}

/// It stays in SDO, and the next write has it.
#[test]
fn the_word_of_wrong_parity_sent_again() {
    let mut session = long_session();
    let mark = second(&session, "ENTDAA");
    let wrong = session.find(mark, "A", WRONG_PARITY);
    let word = session.written(wrong - 1);
    let row = session.find(mark, "T", DONE);
    session.set(row, byte(word, 0), DONE);
    assert_broken(&session, &[(Clause::DataSent, row)]);
}

/// The parity is judged by the word, both ways.
#[test]
fn a_wrong_answer_to_an_address_word() {
    let session = long_session();
    let mark = second(&session, "ENTDAA");
    let wrong = session.find(mark, "A", WRONG_PARITY);
    let right = session.find(mark, "A", DONE);
    for (row, number) in [(wrong, DONE), (right, WRONG_PARITY)] {
        let mut session = session.clone();
        session.set(row, session.value(row), number);
        assert_broken(&session, &[(Clause::AddressesTaken, row)]);
    }
    for (row, number) in [(wrong, WRONG_PARITY), (right, DONE)] {
        for bit in 0..32 {
            let mut session = session.clone();
            session.set(row, session.value(row) ^ 1 << bit, number);
            assert_broken(&session, &[(Clause::AddressesTaken, row)]);
        }
    }
}

#[test]
fn an_address_word_lost() {
    let mut session = long_session();
    let mark = second(&session, "ENTDAA");
    let wrong = session.find(mark, "A", WRONG_PARITY);
    // The take that had it is gone, so the next one shows a later word.
    session.rows.remove(wrong);
    let next = session.find(wrong, "A", DONE);
    assert_broken(&session, &[(Clause::AddressesTaken, next)]);
}

#[test]
fn an_address_taken_of_no_word() {
    let mut session = long_session();
    let row = session.find(session.mark("full data queues"), "A", SDO_EMPTY);
    session.set(row, 8, DONE);
    assert_broken(&session, &[(Clause::AddressesTaken, row)]);
}

// Words that wait.

#[test]
fn a_fifth_data_word_taken() {
    let mut session = long_session();
    let row = session.find(session.mark("full data queues"), "W 00dc", DROPPED_FULL);
    session.set(row, 0, DONE);
    assert_broken(&session, &[(Clause::DataWaits, row)]);
}

#[test]
fn an_entdaa_started_with_data_waiting() {
    let mut session = long_session();
    let row = session.find(session.mark("ENTDAA refused"), "S", SDO_NOT_EMPTY);
    let command: [usize; 2] = rows(&session, session.mark("ENTDAA refused"), "W 00d4", DONE);
    session.set(row, session.written(command[0]), DONE);
    assert_broken(&session, &[(Clause::DataWaits, row)]);
}

#[test]
fn an_entdaa_refused_with_sdo_empty() {
    let mut session = long_session();
    let start = session.find(second(&session, "ENTDAA"), "S", DONE);
    session.insert(start, "S", 0, SDO_NOT_EMPTY);
    assert_broken(&session, &[(Clause::DataWaits, start)]);
}

// Words received.

#[test]
fn a_padded_byte_that_is_not_0() {
    // One, two and three bytes received.
    for (n, pads) in [(1, [0, 1, 2]), (2, [0, 1, 1]), (3, [0, 0, 0])] {
        for pad in pads {
            let mut session = long_session();
            let mark = transfer(&session, "private read", n);
            let row = session.find(mark, "R 00e0", DONE);
            assert_eq!(session.value(row) & 0xff, 0);
            session.set(row, session.value(row) | 1 << (8 * pad), DONE);
            session.follow_reads();
            assert_broken(&session, &[(Clause::DataRead, row)]);
        }
    }
}

#[test]
fn words_of_an_address_request_swapped() {
    let mut session = long_session();
    let mark = second(&session, "ENTDAA");
    let [first, second] = rows(&session, mark, "R 00e0", DONE);
    assert_eq!(session.value(first), 0x1234_5678);
    assert_eq!(session.value(second), 0x9abc_def0);
    session.set(first, 0x9abc_def0, DONE);
    session.set(second, 0x1234_5678, DONE);
    assert_broken(&session, &[(Clause::DataRead, first)]);
}

#[test]
fn a_word_lost_in_sdi() {
    let session = long_session();
    let mark = second(&session, "ENTDAA");
    let [row] = rows(&session, mark, "R 00e0", DONE);
    // The read that took it is gone; the read is empty; the level is too low.
    let mut gone = session.clone();
    gone.rows.remove(row);
    assert_broken(&gone, &[(Clause::DataRead, row)]);
    let mut empty = session.clone();
    for row in row..row + 4 {
        empty.set(row, 0, EMPTY);
    }
    empty.follow_reads();
    assert_broken(&empty, &[(Clause::DataQueued, row)]);
    let mut low = session.clone();
    let row = low.find(second(&low, "read in parts"), "R 00cc", DONE);
    assert_eq!(low.value(row), 2);
    low.set(row, 1, DONE);
    assert_broken(&low, &[(Clause::DataQueued, row)]);
}

#[test]
fn a_word_read_twice() {
    let mut session = long_session();
    let mark = second(&session, "ENTDAA");
    let [row] = rows(&session, mark, "R 00e0", DONE);
    session.insert(row + 1, "R 00e0", session.value(row), DONE);
    assert_broken(&session, &[(Clause::DataRead, row + 1)]);
    let mut session = long_session();
    let row = session.find(second(&session, "read in parts"), "R 00e0", EMPTY);
    session.set(row, session.value(row), DONE);
    assert_broken(&session, &[(Clause::DataRead, row)]);
}

#[test]
fn a_word_changed_in_sdi() {
    for bit in 0..32 {
        let mut session = long_session();
        let row = session.find(second(&session, "read in parts"), "R 00e0", DONE);
        session.set(row, session.value(row) ^ 1 << bit, DONE);
        assert_broken(&session, &[(Clause::DataRead, row)]);
    }
}

#[test]
fn bytes_packed_from_the_other_end() {
    let mut session = long_session();
    let row = session.find(second(&session, "read in parts"), "R 00e0", DONE);
    session.set(row, session.value(row).swap_bytes(), DONE);
    assert_broken(&session, &[(Clause::DataRead, row)]);
}

/// A part word belongs to SDI only with the finish.
#[test]
fn a_part_word_before_the_finish() {
    let mut session = long_session();
    let mark = second(&session, "read in parts");
    let row = session.find(mark, "R 00cc", DONE);
    session.set(row, 3, DONE);
    assert_broken(&session, &[(Clause::DataQueued, row)]);
    let mut session = long_session();
    let row = session.find(mark, "R 00e0", EMPTY);
    let finish = session.find(row, "F", DONE);
    let part = session.value(session.find(finish, "R 00e0", DONE));
    session.set(row, part, DONE);
    assert_broken(&session, &[(Clause::DataRead, row)]);
}

#[test]
fn a_word_from_before_the_reset_read() {
    let mut session = long_session();
    let row = session.find(session.mark("careless part"), "R 00e0", EMPTY);
    session.set(row, 0x0102_0000, DONE);
    session.follow_reads();
    assert_broken(&session, &[(Clause::DataRead, row)]);
}

#[test]
fn a_fifth_word_queued_in_sdi() {
    let mut session = long_session();
    let row = session.find(session.mark("full data queues"), "D", NO_ROOM);
    session.set(row, 0, DONE);
    assert_broken(&session, &[(Clause::DataQueued, row)]);
}

#[test]
fn a_status_that_shows_words_of_sdi_wrongly() {
    let session = long_session();
    let mark = second(&session, "read in parts");
    let [full, empty] = rows(&session, mark, "R 00e8", DONE);
    assert_eq!([full, empty].map(|row| session.value(row) & 4), [0, 4]);
    for row in [full, empty] {
        let mut session = session.clone();
        session.set(row, session.value(row) ^ 4, DONE);
        assert_broken(&session, &[(Clause::DataQueued, row)]);
    }
}

// What is not judged.

/// After a start that is not the next command's its length is unknown, so that what a failed
/// write removes is too; what is sent before that is judged.
#[test]
fn data_after_a_wrong_start() {
    let session = long_session();
    let mark = second(&session, "data in advance");
    let start = session.find(mark, "S", DONE);
    let mut wrong = session.clone();
    wrong.set(start, session.value(start) ^ 0x8000_0000, DONE);
    assert_broken(&wrong, &[(Clause::StartedInOrder, start)]);
    let send = session.find(start, "T", DONE);
    wrong.set(send, session.value(send) ^ 1, DONE);
    let expected = [(Clause::StartedInOrder, start), (Clause::DataSent, send)];
    assert_broken(&wrong, &expected);
}

/// A write to SDO refused without need is left to demand 2: 02 §13 speaks of words taken.
#[test]
fn a_data_word_dropped_with_room() {
    let mut session = long_session();
    let end = session.mark("end of the careless part");
    session.insert(end, "W 00dc 00000000", 0, DROPPED_FULL);
    assert_broken(&session, &[]);
}
