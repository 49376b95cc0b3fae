//! Tests of the checker: a correct session is kept; of answers with one fault
//! exactly the clauses that the fault breaks are reported, at its line.

mod bursts;
mod data;
mod random;
mod refusals;
mod session;

use super::clause::Clause;
use super::*;
use crate::number::*;
use session::{long_session, Session, QUEUE_READS, RECEIPT, RELEASE, RESET, ROOM};

const NO_RECEIPT_ERROR: u32 = !(0xf << 20);

/// The row of the n-th transfer of a kind, at its mark.
fn transfer(session: &Session, name: &str, n: usize) -> usize {
    let line = format!("# {name}");
    let mut marks = (0..session.rows.len()).filter(|row| session.rows[*row].line == line);
    marks.nth(n).unwrap()
}

#[track_caller]
fn assert_broken(session: &Session, expected: &[(Clause, usize)]) {
    assert_eq!(session.broken(), expected);
}

#[test]
fn a_correct_session_is_kept() {
    let session = long_session();
    assert_broken(&session, &[]);
    // What the faults below rely on.
    assert!(session.count("F", DONE) > 300);
    assert!(session.count("A", WRONG_PARITY) > 40);
    assert!(session.count("W 00d4", DROPPED_FULL) > 40);
    assert!(session.count("F", NO_ROOM) == 21);
    assert!(session.count("S", SDO_NOT_EMPTY) == 1);
    assert!(session.count("S", NO_COMMAND) > 40);
    assert!(session.count("T", NOT_THIS_KIND) > 40);
    assert!(session.count("T", SDO_EMPTY) == 6);
    assert!(session.count("A", SDO_EMPTY) == 2);
    assert!(session.count("W 00dc", DROPPED_FULL) == 1);
    assert!(session.count("X", NO_ROOM) == 1);
    assert!(session.count("D", NO_ROOM) == 1);
    for name in ["a read", "a write", "a CCC", "ENTDAA"] {
        let reset = session.mark(&format!("reset in {name}"));
        assert_eq!(session.rows[reset + 1].line, RESET);
    }
}

// Commands.

#[test]
fn a_lost_command() {
    let mut session = long_session();
    let start = session.find(transfer(&session, "private read", 20), "S", DONE);
    // Taken in front of the command that is started next, and never started.
    session.insert(start - 1, "W 00d4 ff000010", 0, DONE);
    assert_broken(&session, &[(Clause::StartedInOrder, start + 1)]);
}

#[test]
fn a_doubled_command() {
    let mut lines = long_session().lines();
    let session = Session::run(&lines);
    let mark = transfer(&session, "private read", 20);
    let start = session.find(mark, "S", DONE);
    let finish = session.find(mark, "F", DONE);
    // The engine gets the command once more; the checked script has it once.
    let command = lines[start - 1].clone();
    lines.insert(finish + 1, command);
    lines.splice(finish + 2..finish + 2, ["S", "F 0"].map(String::from));
    let mut session = Session::run(&lines);
    assert_eq!(session.value(start), session.value(finish + 2));
    session.rows.remove(finish + 1);
    assert_broken(&session, &[(Clause::StartedInOrder, finish + 1)]);
}

#[test]
fn two_commands_reordered() {
    let session = long_session();
    let first = session.find(transfer(&session, "full queues", 3), "W 00d4", DONE);
    let start = session.find(first, "S", DONE);
    let mut lines = session.lines();
    lines.swap(first + 1, first + 2);
    let mut session = Session::run(&lines);
    session.rows.swap(first + 1, first + 2);
    let second_start = session.find(start + 1, "S", DONE);
    assert_broken(&session, &[(Clause::StartedInOrder, second_start)]);
}

#[test]
fn a_command_changed_in_the_queue() {
    let mut session = long_session();
    let start = session.find(transfer(&session, "broadcast CCC", 7), "S", DONE);
    session.set(start, session.value(start) ^ 0x8000_0000, DONE);
    assert_broken(&session, &[(Clause::StartedInOrder, start)]);
}

#[test]
fn a_start_with_no_command() {
    let mut session = long_session();
    let end = session.mark("end of the careless part");
    session.insert(end, "S", 0x10, DONE);
    assert_broken(&session, &[(Clause::StartedInOrder, end)]);
}

#[test]
fn a_ccc_started_without_its_second_word() {
    let mut session = long_session();
    let start = session.find(transfer(&session, "broadcast CCC", 7), "S", NO_COMMAND);
    session.set(start, session.value(start + 3), DONE);
    let second_start = start + 3;
    assert_eq!(session.rows[second_start].line, "S");
    assert_broken(
        &session,
        &[
            (Clause::StartedInOrder, start),
            (Clause::OneOpen, second_start),
        ],
    );
}

#[test]
fn a_command_from_before_the_reset() {
    let mut session = long_session();
    let end = session.mark("end of the careless part");
    assert_eq!(session.rows[end + 2].line, RELEASE);
    // A reset that keeps the queue: the command waits over it.
    session.insert(end + 1, "W 00d4 00000010", 0, DONE);
    let start = session.find(end + 4, "S", DONE);
    session.set(start, 0x10, DONE);
    assert_broken(&session, &[(Clause::StartedInOrder, start)]);
}

#[test]
fn a_start_without_command_although_one_waits() {
    let mut session = long_session();
    let start = session.find(transfer(&session, "direct CCC", 7), "S", DONE);
    session.insert(start, "S", 0, NO_COMMAND);
    assert_broken(&session, &[(Clause::RestWaits, start)]);
}

#[test]
fn a_start_refused_for_sdo_although_no_entdaa_waits() {
    let mut session = long_session();
    let start = session.find(transfer(&session, "data in advance", 1), "S", DONE);
    session.insert(start, "S", 0, SDO_NOT_EMPTY);
    assert_broken(&session, &[(Clause::RestWaits, start)]);
}

/// A wrong reading: a place that a start frees stays used (01, 'Readings that look right').
#[test]
fn a_room_that_counts_words_ever_written() {
    let mut session = long_session();
    let first = session.find(session.mark("careful part"), ROOM, DONE);
    let mut room = first;
    let mut written = 0;
    let end = session.mark("reset in a read");
    for row in first..end {
        if session.rows[row].line.starts_with("W 00d4") {
            written += 1;
        }
        if session.rows[row].line == ROOM {
            if room == first && session.value(row) != 4_u32.saturating_sub(written) {
                room = row;
            }
            session.set(row, 4_u32.saturating_sub(written), DONE);
        }
    }
    assert!(room > first);
    assert_broken(&session, &[(Clause::RestWaits, room)]);
}

#[test]
fn a_fifth_word_taken() {
    let mut session = long_session();
    let write = session.find(session.mark("last part"), "W 00d4", DROPPED_FULL);
    session.set(write, 0, DONE);
    assert_broken(&session, &[(Clause::RestWaits, write)]);
}

#[test]
fn a_dropped_word_said_to_be_taken() {
    let mut session = long_session();
    let mark = transfer(&session, "full queues", 5);
    let write = session.find(mark, "W 00d4", DROPPED_FULL);
    session.set(write, 0, DONE);
    // The four before it are started; then the command that the model never had.
    let mut start = write;
    for _ in 0..5 {
        start = session.find(start + 1, "S", DONE);
    }
    assert_broken(
        &session,
        &[(Clause::StartedInOrder, start), (Clause::RestWaits, write)],
    );
}

// The open command.

#[test]
fn a_start_before_the_finish() {
    let mut session = long_session();
    let write = session.find(session.mark("last part"), "W 00d4", DROPPED_FULL);
    let next = session.rows[write - 4].line[7..].to_string();
    session.insert(write, "S", u32::from_str_radix(&next, 16).unwrap(), DONE);
    assert_broken(&session, &[(Clause::OneOpen, write)]);
}

#[test]
fn a_start_with_a_transfer_open_although_all_finished() {
    let mut session = long_session();
    let start = session.find(transfer(&session, "direct CCC", 7), "S", DONE);
    session.insert(start, "S", 0, TRANSFER_OPEN);
    assert_broken(&session, &[(Clause::OneOpen, start)]);
}

#[test]
fn an_interrupt_with_a_transfer_open_although_all_finished() {
    let mut session = long_session();
    let row = session.find(session.mark("careful part"), "I", DONE);
    session.set(row, 0, TRANSFER_OPEN);
    assert_broken(&session, &[(Clause::OneOpen, row)]);
}

#[test]
fn a_finish_without_transfer_although_a_command_is_open() {
    let mut session = long_session();
    let finish = session.find(transfer(&session, "ENTDAA", 7), "F", DONE);
    session.insert(finish, "F 0", 0, NO_TRANSFER);
    assert_broken(&session, &[(Clause::OneOpen, finish)]);
}

#[test]
fn a_status_that_shows_no_transfer_while_one_is_open() {
    let mut session = long_session();
    let row = session.find(transfer(&session, "private write", 7), "R 0100", DONE);
    session.set(row, session.value(row) ^ 0x80, DONE);
    assert_broken(&session, &[(Clause::OneOpen, row)]);
}

// Events of the command's kind.

#[test]
fn a_send_for_a_read() {
    let mut session = long_session();
    // Round 1: length 5, one byte moved.
    let mark = transfer(&session, "private read", 1);
    let send = session.find(mark, "T", NOT_THIS_KIND);
    let finish = session.find(mark, "F", DONE);
    session.set(send, 0xa5, DONE);
    session.set_receipt(finish, session.value(finish) + 0x100);
    assert_broken(&session, &[(Clause::EventsOfItsKind, send)]);
}

#[test]
fn a_receive_for_a_write() {
    let mut session = long_session();
    // Round 3: length 3, refused with a code before any byte.
    let mark = transfer(&session, "not acknowledged", 3);
    let finish = session.find(mark, "F 6", DONE);
    session.insert(finish, "X 00", 0, DONE);
    session.set_receipt(finish + 1, session.value(finish + 1) + 0x100);
    assert_broken(&session, &[(Clause::EventsOfItsKind, finish)]);
}

#[test]
fn an_address_request_for_a_write() {
    let mut session = long_session();
    let row = session.find(transfer(&session, "private write", 3), "D", NOT_THIS_KIND);
    session.set(row, 0, DONE);
    assert_broken(&session, &[(Clause::EventsOfItsKind, row)]);
}

#[test]
fn an_address_take_for_a_read() {
    let mut session = long_session();
    let row = session.find(transfer(&session, "private read", 3), "A", NOT_THIS_KIND);
    session.set(row, 8, DONE);
    assert_broken(&session, &[(Clause::EventsOfItsKind, row)]);
}

/// ENTDAA's commanded length is 0, so a byte counted breaks that too.
#[test]
fn a_byte_moved_for_entdaa() {
    for event in ["T", "X"] {
        let mut session = long_session();
        let mark = transfer(&session, "ENTDAA", 3);
        let row = session.find(mark, event, NOT_THIS_KIND);
        let finish = session.find(mark, "F", DONE);
        session.set(row, 0, DONE);
        session.set_receipt(finish, session.value(finish) + 0x100);
        assert_broken(
            &session,
            &[
                (Clause::EventsOfItsKind, row),
                (Clause::CommandedLength, finish),
            ],
        );
    }
}

#[test]
fn events_with_no_command_open() {
    for event in ["T", "X 00", "D 1 2", "A"] {
        let mut session = long_session();
        let mark = transfer(&session, "private read", 3);
        session.insert(mark, event, 0, DONE);
        assert_broken(&session, &[(Clause::EventsOfItsKind, mark)]);
    }
}

/// `WRONG_PARITY` says that a word was taken, which only an ENTDAA does.
#[test]
fn a_wrong_parity_with_no_entdaa_open() {
    for name in ["private write", "private read"] {
        let mut session = long_session();
        let row = session.find(transfer(&session, name, 3), "A", NOT_THIS_KIND);
        session.set(row, 8, WRONG_PARITY);
        assert_broken(&session, &[(Clause::EventsOfItsKind, row)]);
    }
    let mut session = long_session();
    let mark = transfer(&session, "private read", 3);
    session.insert(mark, "A", 8, WRONG_PARITY);
    assert_broken(&session, &[(Clause::EventsOfItsKind, mark)]);
}

// Receipts.

#[test]
fn a_finish_with_no_command_open() {
    let mut session = long_session();
    let end = session.mark("end of the careless part");
    session.insert(end, "F 0", 0x65, DONE);
    assert_broken(&session, &[(Clause::OneReceiptEach, end)]);
}

#[test]
fn a_wrong_sync() {
    let mut session = long_session();
    let finish = session.find(transfer(&session, "ENTDAA", 30), "F", DONE);
    session.set_receipt(finish, session.value(finish) ^ 0x40);
    assert_broken(&session, &[(Clause::ReceiptSync, finish)]);
}

#[test]
fn a_sync_that_stays_at_255() {
    let mut session = long_session();
    let mut finish = session.mark("careful part");
    for _ in 0..257 {
        finish = session.find(finish + 1, "F", DONE);
    }
    assert_eq!(session.value(finish) & 0xff, 0);
    session.set_receipt(finish, session.value(finish) | 0xff);
    assert_broken(&session, &[(Clause::ReceiptSync, finish)]);
}

#[test]
fn a_sync_kept_over_a_reset() {
    let mut session = long_session();
    let finish = session.find(session.mark("last part"), "F", DONE);
    session.set_receipt(finish, session.value(finish) | 0x66);
    assert_broken(&session, &[(Clause::ReceiptSync, finish)]);
}

/// A wrong reading: a finish that found no room has used up a sync (01, 'Readings that look
/// right').
#[test]
fn a_sync_raised_by_a_refused_finish() {
    let mut session = long_session();
    let refused = session.find(session.mark("no room for the receipt"), "F", NO_ROOM);
    let end = session.mark("end of the careless part");
    let first = session.find(refused, "F", DONE);
    let done: Vec<usize> = (refused..end)
        .filter(|row| session.is(*row, "", DONE))
        .collect();
    let finishes = done.iter().filter(|row| session.is(**row, "F", DONE));
    // Four receipts were queued before the refused finish.
    let reads = done.iter().filter(|row| session.is(**row, RECEIPT, DONE));
    let raised: Vec<usize> = finishes.chain(reads.skip(4)).copied().collect();
    assert!(raised.len() > 180);
    for row in raised {
        session.set(row, session.value(row) + 1, DONE);
    }
    session.follow_reads();
    assert_broken(&session, &[(Clause::ReceiptSync, first)]);
}

#[test]
fn a_wrong_length() {
    let mut session = long_session();
    // Round 3: three bytes received of seven.
    let finish = session.find(transfer(&session, "private read", 3), "F", DONE);
    assert_eq!(session.value(finish) >> 8, 3);
    session.set_receipt(finish, session.value(finish) - 0x100);
    assert_broken(&session, &[(Clause::ReceiptLength, finish)]);
}

#[test]
fn a_length_that_is_the_commanded_one() {
    let mut session = long_session();
    let finish = session.find(transfer(&session, "private read", 3), "F", DONE);
    session.set_receipt(finish, session.value(finish) & 0xff | 7 << 8);
    assert_broken(&session, &[(Clause::ReceiptLength, finish)]);
}

#[test]
fn a_receipt_without_the_bytes_moved() {
    let mut session = long_session();
    // A byte is refused that the receipt counts.
    let mark = transfer(&session, "direct CCC", 5);
    let receive = session.find(mark, "X", DONE);
    let finish = session.find(mark, "F", DONE);
    session.set(receive, 0, NO_ROOM);
    // It is in SDI too.
    let word = session.find(finish, "R 00e0", DONE);
    assert_broken(
        &session,
        &[(Clause::ReceiptLength, finish), (Clause::DataRead, word)],
    );
}

#[test]
fn a_length_above_the_commanded_length() {
    let mut session = long_session();
    let mark = transfer(&session, "private write", 5);
    let send = session.find(mark, "T", LENGTH_REACHED);
    let finish = session.find(mark, "F", DONE);
    // The next byte of the word.
    session.set(send, session.written(mark + 2) >> 16 & 0xff, DONE);
    session.set_receipt(finish, session.value(finish) + 0x100);
    assert_broken(&session, &[(Clause::CommandedLength, finish)]);
}

#[test]
fn a_wrong_code() {
    let mut session = long_session();
    let finish = session.find(transfer(&session, "not acknowledged", 9), "F 6", DONE);
    session.set_receipt(finish, session.value(finish) & NO_RECEIPT_ERROR | 4 << 20);
    assert_broken(&session, &[(Clause::ReceiptError, finish)]);
}

#[test]
fn a_code_above_15_accepted() {
    let mut session = long_session();
    let finish = session.find(transfer(&session, "private read", 9), "F 0", DONE);
    session.rows[finish].line = "F 10".to_string();
    assert_broken(&session, &[(Clause::ReceiptError, finish)]);
}

#[test]
fn a_receipt_with_bits_above_its_fields() {
    for bit in 24..32 {
        let mut session = long_session();
        let finish = session.find(transfer(&session, "private read", 9), "F 0", DONE);
        session.set_receipt(finish, session.value(finish) | 1 << bit);
        assert_broken(&session, &[(Clause::ReceiptTop, finish)]);
    }
}

// Receipts read and queued.

#[test]
fn a_missing_receipt() {
    let mut session = long_session();
    let row = session.mark("four receipts") + 2;
    assert_eq!(session.rows[row].line, RECEIPT);
    // The read that took it is gone, so the next one shows a later receipt.
    session.rows.remove(row);
    assert_broken(&session, &[(Clause::ReceiptsRead, row)]);
}

#[test]
fn a_missing_receipt_and_cmdr_empty() {
    let mut session = long_session();
    let row = session.find(transfer(&session, "ENTDAA", 9), RECEIPT, DONE);
    session.set(row, 0, EMPTY);
    session.follow_reads();
    assert_broken(&session, &[(Clause::ReceiptsQueued, row)]);
}

#[test]
fn a_doubled_receipt() {
    let mut session = long_session();
    for mark in [
        session.mark("four receipts"),
        transfer(&session, "ENTDAA", 9),
    ] {
        let row = session.find(mark, RECEIPT, DONE);
        let mut session = session.clone();
        session.insert(row + 1, RECEIPT, session.value(row), DONE);
        assert_broken(&session, &[(Clause::ReceiptsRead, row + 1)]);
    }
    // Doubled at the end of a part.
    let end = session.mark("end of the careless part");
    session.insert(end, RECEIPT, 0, DONE);
    assert_broken(&session, &[(Clause::ReceiptsRead, end)]);
}

#[test]
fn two_receipts_reordered() {
    let mut session = long_session();
    let row = session.mark("four receipts") + 1;
    let (first, second) = (session.value(row), session.value(row + 1));
    session.set(row, second, DONE);
    session.set(row + 1, first, DONE);
    assert_broken(&session, &[(Clause::ReceiptsRead, row)]);
}

#[test]
fn a_receipt_changed_in_the_queue() {
    for bit in 0..32 {
        let mut session = long_session();
        let row = session.find(transfer(&session, "direct CCC", 9), RECEIPT, DONE);
        session.set(row, session.value(row) ^ 1 << bit, DONE);
        assert_broken(&session, &[(Clause::ReceiptsRead, row)]);
    }
}

#[test]
fn a_receipt_of_an_unfinished_transfer() {
    let mut session = long_session();
    let finish = session.find(transfer(&session, "private read", 9), "F", DONE);
    session.insert(finish, RECEIPT, session.value(finish), DONE);
    assert_broken(&session, &[(Clause::ReceiptsRead, finish)]);
}

#[test]
fn a_receipt_from_before_the_reset() {
    let mut session = long_session();
    let row = session.mark("careless part") + 2;
    session.insert(row, RECEIPT, 0x33, DONE);
    session.follow_reads();
    assert_broken(&session, &[(Clause::ReceiptsRead, row)]);
}

#[test]
fn a_wrong_level_of_receipts() {
    let mut session = long_session();
    let row = session.find(session.mark("careless part"), "R 00c4", DONE);
    assert_eq!(session.value(row), 4);
    session.set(row, 3, DONE);
    assert_broken(&session, &[(Clause::ReceiptsQueued, row)]);
}

#[test]
fn a_status_that_shows_a_receipt_when_all_are_read() {
    let mut session = long_session();
    let read = session.find(transfer(&session, "private write", 9), RECEIPT, DONE);
    let row = session.find(read, "R 00e8", DONE);
    session.set(row, session.value(row) ^ 1, DONE);
    assert_broken(&session, &[(Clause::ReceiptsQueued, row)]);
}

#[test]
fn a_fifth_receipt_queued() {
    let mut session = long_session();
    let refused = session.find(session.mark("no room for the receipt"), "F", NO_ROOM);
    let finish = session.find(refused, "F", DONE);
    session.set(refused, session.value(finish), DONE);
    session.rows.remove(finish);
    assert_broken(&session, &[(Clause::ReceiptsQueued, refused)]);
}

// The room.

#[test]
fn a_word_dropped_although_the_room_was_read() {
    let mut session = long_session();
    let end = session.mark("end of the careless part");
    session.insert(end, ROOM, 4, DONE);
    session.insert(end + 1, "R 00c4", 0, DONE);
    session.insert(end + 2, "W 00d4 00000010", 0, DROPPED_FULL);
    assert_broken(&session, &[(Clause::TakenAfterRoom, end + 2)]);
}

#[test]
fn a_word_held_in_reset_although_the_room_was_read() {
    let mut session = long_session();
    let end = session.mark("end of the careless part");
    session.insert(end, ROOM, 4, DONE);
    session.insert(end + 1, "W 00d4 00000010", 0, HELD_IN_RESET);
    assert_broken(&session, &[(Clause::TakenAfterRoom, end + 1)]);
}

#[test]
fn a_word_dropped_although_the_room_was_1() {
    let mut session = long_session();
    let fifth = session.find(session.mark("last part"), "W 00d4", DROPPED_FULL);
    session.set(fifth - 1, 0, DROPPED_FULL);
    session.insert(fifth - 1, ROOM, 1, DONE);
    assert_broken(&session, &[(Clause::TakenAfterRoom, fifth)]);
}

/// A later read of 0 does not undo the earlier one: no word was written between.
#[test]
fn a_room_that_shrinks_with_no_word_written() {
    let mut session = long_session();
    let end = session.mark("end of the careless part");
    session.insert(end, ROOM, 4, DONE);
    session.insert(end + 1, ROOM, 0, DONE);
    session.insert(end + 2, "W 00d4 00000010", 0, DROPPED_FULL);
    assert_broken(
        &session,
        &[
            (Clause::RestWaits, end + 1),
            (Clause::TakenAfterRoom, end + 2),
        ],
    );
}

/// Each word of the careful part is written so, and now a command is missing.
#[test]
fn a_missing_command_where_each_word_is_written_after_a_room_read() {
    let mut session = long_session();
    let mark = transfer(&session, "not attached", 20);
    session.insert(mark, ROOM, 4, DONE);
    session.insert(mark + 1, "W 00d4 00000010", 0, DROPPED_FULL);
    assert_broken(
        &session,
        &[
            (Clause::TakenAfterRoom, mark + 1),
            (Clause::NoneMissing, mark + 1),
        ],
    );
}

// What demand 3 does not ask.

#[test]
fn refusals_that_demand_3_allows() {
    let mut session = long_session();
    let end = session.mark("end of the careless part");
    // Another word written between, be it taken or refused.
    session.insert(end, ROOM, 4, DONE);
    session.insert(end + 1, "W 00d4 00000010", 0, DONE);
    session.insert(end + 2, "W 00d4 00000010", 0, DROPPED_FULL);
    session.insert(end + 3, "W 00d4 00000010", 0, DROPPED_FULL);
    // No read of the room since the release, one before it.
    let release = session.find(end + 4, RELEASE, DONE);
    session.insert(release, ROOM, 4, DONE);
    session.insert(release + 2, "W 00d4 00000010", 0, DROPPED_FULL);
    // A read of 0.
    let full = session.find(transfer(&session, "full queues", 2), ROOM, DONE);
    assert_eq!(session.value(full), 0);
    session.insert(full + 1, "W 00d4 00000010", 0, DROPPED_FULL);
    assert_broken(&session, &[]);
}

/// The value of a refused read of the room is wrong, but it is no room that was read.
#[test]
fn a_room_read_with_another_number() {
    let mut session = long_session();
    let release = session.find(session.mark("end of the careless part"), RELEASE, DONE);
    session.insert(release + 1, ROOM, 4, NO_REGISTER);
    session.insert(release + 2, "W 00d4 00000010", 0, DROPPED_FULL);
    assert_broken(&session, &[(Clause::RefusalsBare, release + 1)]);
}

#[test]
fn calls_in_reset_are_not_counted() {
    let mut session = long_session();
    let release = session.mark("careless part") + 1;
    for (line, value) in [
        ("W 00d4 00000010", 0),
        ("S", 0x10),
        ("T", 0xa5),
        ("F 0", 0x100),
        (RECEIPT, 0x77),
        ("W 00dc 00000001", 0),
        ("R 00e0", 0x77),
        ("R 00c8", 9),
        ("R 00cc", 9),
        ("A", 8),
        (ROOM, 9),
        ("R 0100", 0),
    ] {
        session.insert(release, line, value, DONE);
    }
    assert_broken(&session, &[]);
}

/// A write to ENABLE that was refused is no reset, a second 0 no release.
#[test]
fn only_writes_that_are_done_reset_and_release() {
    let mut session = long_session();
    let mark = session.find(transfer(&session, "private write", 9), "F", DONE);
    session.insert(mark, RESET, 0, DROPPED_READ_ONLY);
    session.insert(mark, RELEASE, 0, DONE);
    session.insert(mark, "W 4040 00000001", 0, DONE);
    assert_broken(&session, &[]);
}

#[test]
fn a_script_with_no_release_is_kept() {
    let session = Session::run(&["S", "R 00d8", "W 00d4 1"].map(String::from));
    assert_broken(&session, &[]);
}

// Input and output.

fn unusable(script: &str, answers: &str) -> String {
    judge(script.as_bytes(), answers.as_bytes(), Mode::Session)
        .unwrap_err()
        .to_string()
}

#[test]
fn a_wrong_count_of_answers_is_unusable() {
    assert_eq!(
        unusable("S\nx\nT", "00000000 05\n"),
        "the script has 2 calls, the answers 1 lines"
    );
    assert_eq!(
        unusable("S\nB 1\n", "00000000 05\n00000000 05"),
        "the script has 1 calls, the answers 2 lines"
    );
    assert_eq!(
        unusable("", "\n"),
        "the script has 0 calls, the answers 1 lines"
    );
}

#[test]
fn a_malformed_answer_is_unusable() {
    for answer in [
        "",
        "0000000 00",
        "000000000 00",
        "0000000A 00",
        "+0000000 00",
        "00000000  00",
        "00000000 0",
        "00000000 000",
        "00000000 0a",
        "00000000 +1",
        "00000000 00 ",
        "00000000 00\r",
        "00000000\t00",
        " 00000000 00",
        "0000000\u{e9} 00",
    ] {
        let text = unusable("S\nS\nS", &format!("00000000 05\n{answer}\n00000000 05"));
        assert!(text.starts_with("answers, line 2: "), "{answer:?}: {text}");
    }
}

#[test]
fn answers_of_the_last_line_without_a_newline() {
    assert!(judge(&b"S"[..], &b"00000000 05"[..], Mode::Session)
        .unwrap()
        .all_kept());
    assert!(judge(&b""[..], &b""[..], Mode::Session).unwrap().all_kept());
}

/// 01's worked session, whole and with one fault.
#[test]
fn the_report_has_a_line_for_each_clause() {
    let script = "W 0040 00000000\nW 0180 00001102\nW 00dc a5c30000\nW 00d4 00000210\nS\nT\n\
                  \nT\nF 0\nR 00d8\nR 00d8\n";
    let mut session = Session::run(&script.lines().map(String::from).collect::<Vec<_>>());
    let report = |session: &Session| {
        let script = session.script();
        let answers = session.answers();
        let mut output = Vec::new();
        let findings = judge(script.as_bytes(), answers.as_bytes(), Mode::Session).unwrap();
        findings.print(&mut output).unwrap();
        String::from_utf8(output).unwrap()
    };
    let kept = "\
kept: commands started in order, each once: 1 cases
kept: commands not started still wait: 1 cases
kept: started commands finished, save the last while open: 1 cases
kept: commands and bursts open one at a time: 1 cases
kept: events of the open command's kind: 2 cases
kept: one receipt for each finished command: 1 cases
kept: receipt sync: 1 cases
kept: receipt length is the bytes moved: 1 cases
kept: receipt length at most the commanded length: 1 cases
kept: receipt error is the finish's code: 1 cases
kept: receipt bits 31:24 are 0: 1 cases
kept: receipts read in order: 1 cases
kept: receipts not read still queued: 2 cases
kept: command word after a room read above 0 taken: 0 cases
kept: no command missing where each is written so: 0 cases
kept: data words sent in order, each once: 2 cases
kept: address words taken in order, each once: 0 cases
kept: other data words still wait, save those removed: 1 cases
kept: words received read in order: 0 cases
kept: words received and not read still queued: 0 cases
kept: an empty read shows the word read last: 1 cases
kept: other refusals have value 0: 0 cases
kept
";
    assert_eq!(report(&session), kept);
    // Line 7 is no call, so the finish is on line 9.
    session.set_receipt(8, 0x0000_0100);
    session.follow_reads();
    let broken = kept
        .replace(
            "kept: receipt length is the bytes moved: 1 cases",
            "broken: receipt length is the bytes moved: line 9: expected length 2, saw 1",
        )
        .replace("0 cases\nkept\n", "0 cases\nbroken\n");
    assert_eq!(report(&session), broken);
}
