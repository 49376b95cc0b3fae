//! Tests of offload bursts (02 §3).

use super::*;

/// What a word of the output is before a burst.
const UNTOUCHED: u32 = 0xdead_beef;

/// Private commands for device 8, which is attached, and device 9, which is not.
const WRITE: u32 = 0x10;
const READ: u32 = 0x11;
const OTHER_READ: u32 = 0x13;
const ATTACH_OTHER: u32 = 0x1302;
const DETACH: u32 = 0x1100;

fn length(count: u32) -> u32 {
    count << 8
}

/// Mode 1 and the offload length.
fn burst_ops(count: usize) -> u32 {
    (count as u32) << 1 | 1
}

/// Device 8 attached, the commands and data in place, the trigger still to come.
fn ready(commands: &[u32], data: &[u32]) -> Bank {
    let mut bank = with_device();
    for (n, word) in (0..).zip(commands) {
        assert_eq!(bank.write(0x2c0 + 4 * n, *word), done(0));
    }
    for (n, word) in (0..).zip(data) {
        assert_eq!(bank.write(0x300 + 4 * n, *word), done(0));
    }
    assert_eq!(bank.write(0x100, burst_ops(commands.len())), done(0));
    bank
}

fn triggered(commands: &[u32], data: &[u32], output: &[u32]) -> Bank {
    let mut bank = ready(commands, data);
    assert_eq!(bank.trigger(output), done(0));
    bank
}

fn all_events() -> Vec<Call> {
    vec![
        Call::Start,
        Call::Send,
        Call::Receive { byte: 1 },
        Call::Finish { code: 0 },
        Call::InterruptRequest {
            address: 8,
            byte: 1,
        },
        Call::AddressRequest {
            first: 1,
            second: 2,
        },
        Call::AddressTake,
        Call::Trigger,
    ]
}

/// Asserts that the call is refused and leaves bank and output as they were.
#[track_caller]
fn assert_refused(bank: &mut Bank, call: &Call, output: &mut [u32], number: u8) {
    let (bank_before, output_before) = (bank.clone(), output.to_vec());
    assert_eq!(bank.call(call, output), refuse(number), "{call:?}");
    assert_eq!(*bank, bank_before);
    assert_eq!(output, output_before);
}

/// The whole of a burst by hand. Data words go to the writes in turn, so the second write,
/// which is the third command, has the second word.
#[test]
fn a_worked_burst() {
    let commands = [
        WRITE | length(2),
        READ | length(3),
        WRITE | length(4),
        READ | length(4),
    ];
    let data = [0xa5c3_0102, 0x1122_3344, 0x5566_7788];
    let mut output = [UNTOUCHED; 3];
    let mut bank = ready(&commands, &data);
    assert_eq!(value_at(&mut bank, 0x100), 0x89);
    assert_eq!(bank.trigger(&output), done(0));
    assert_eq!(value_at(&mut bank, 0x100), 0x09);

    assert_eq!(bank.send(&output), done(0xa5));
    assert_eq!(bank.send(&output), done(0xc3));
    assert_eq!(bank.send(&output), refuse(LENGTH_REACHED));
    assert_eq!(bank.receive(0, &output), refuse(NOT_THIS_KIND));
    assert_eq!(bank.finish(0, &mut output), done(0));
    assert_eq!(value_at(&mut bank, 0x100), 0x09);

    for byte in 1..=3 {
        assert_eq!(bank.receive(byte, &output), done(0));
    }
    assert_eq!(bank.receive(4, &output), refuse(LENGTH_REACHED));
    assert_eq!(bank.send(&output), refuse(NOT_THIS_KIND));
    assert_eq!(output, [UNTOUCHED; 3]);
    assert_eq!(bank.finish(0, &mut output), done(0));
    assert_eq!(output, [0x0102_0300, UNTOUCHED, UNTOUCHED]);

    for byte in [0x11, 0x22, 0x33, 0x44] {
        assert_eq!(bank.send(&output), done(byte));
    }
    assert_eq!(bank.finish(0, &mut output), done(0));

    for byte in 5..=8 {
        assert_eq!(bank.receive(byte, &output), done(0));
    }
    assert_eq!(bank.finish(0, &mut output), done(0));
    assert_eq!(output, [0x0102_0300, 0x0506_0708, UNTOUCHED]);
    assert_eq!(value_at(&mut bank, 0x100), 0x89);
    assert_eq!(bank.finish(0, &mut output), refuse(NO_TRANSFER));

    // No receipt, no sync, nothing in the queues.
    assert_eq!(bank, ready(&commands, &data));
}

/// After the last finish a trigger begins at the first command and the first data word.
#[test]
fn bursts_one_after_another() {
    let mut bank = ready(&[READ | length(1), WRITE | length(1)], &[0x7700_0000]);
    let mut output = [UNTOUCHED];
    for round in 1..=3 {
        assert_eq!(bank.trigger(&output), done(0));
        assert_eq!(bank.receive(round, &output), done(0));
        assert_eq!(bank.finish(0, &mut output), done(0));
        assert_eq!(output, [u32::from(round) << 24]);
        assert_eq!(bank.send(&output), done(0x77));
        assert_eq!(bank.finish(0, &mut output), done(0));
    }
}

/// Each direction, length and count of bytes that a burst can have.
#[test]
fn lengths_0_to_4() {
    let padded = [0, 0xa000_0000, 0xa0a1_0000, 0xa0a1_a200, 0xa0a1_a2a3];
    for commanded in 0..=4 {
        let mut bank = triggered(&[WRITE | length(commanded)], &[0x0102_0304], &[]);
        for byte in 1..=commanded {
            assert_eq!(bank.finish(0, &mut []), refuse(ENDING_NOT_ALLOWED));
            assert_eq!(bank.send(&[]), done(byte));
        }
        assert_eq!(bank.send(&[]), refuse(LENGTH_REACHED));
        assert_eq!(bank.finish(0, &mut []), done(0));

        for moved in 0..=commanded {
            let mut output = [UNTOUCHED];
            let mut bank = triggered(&[READ | length(commanded)], &[], &output);
            for byte in 0..moved {
                assert_eq!(bank.receive(0xa0 + byte as u8, &output), done(0));
            }
            if moved == commanded {
                assert_eq!(bank.receive(0, &output), refuse(LENGTH_REACHED));
            }
            assert_eq!(bank.finish(0, &mut output), done(0));
            assert_eq!(output, [padded[moved as usize]]);
        }
    }
}

/// From one command to fifteen; the output must have a word for each read.
#[test]
fn each_length_of_a_burst() {
    for count in 1..=15 {
        // A command past the length is not looked at.
        let mut commands = vec![READ | length(1); count];
        commands.push(CCC);
        let mut bank = ready(&commands, &[]);
        assert_eq!(bank.write(0x100, burst_ops(count)), done(0));
        let mut output = [UNTOUCHED; 16];
        assert_refused(&mut bank, &Call::Trigger, &mut output[..count - 1], NO_ROOM);
        assert_eq!(bank.trigger(&output), done(0));
        for n in 0..count {
            assert_eq!(bank.receive(n as u8, &output), done(0));
            assert_eq!(bank.finish(0, &mut output), done(0));
            assert_eq!(value_at(&mut bank, 0x100) >> 7, u32::from(n + 1 == count));
        }
        // The rest of a longer output stays as it was.
        for (n, word) in output.iter().enumerate() {
            let expected = if n < count {
                (n as u32) << 24
            } else {
                UNTOUCHED
            };
            assert_eq!(*word, expected);
        }
    }
}

/// Only writes use data words: fifteen writes use fifteen.
#[test]
fn each_write_has_its_data_word() {
    let data: Vec<u32> = (0..16).map(|n| (0xb0 + n) << 24).collect();
    let mut bank = triggered(&[WRITE | length(1); 15], &data, &[]);
    for n in 0..15 {
        assert_eq!(bank.send(&[]), done(0xb0 + n));
        assert_eq!(bank.finish(0, &mut []), done(0));
    }
    assert_eq!(value_at(&mut bank, 0x100) >> 7, 1);
}

/// A write has its data word also at length 0, not attached or not acknowledged.
#[test]
fn a_write_without_bytes_has_its_data_word() {
    for (first, code) in [
        (WRITE, 0),
        (WRITE | length(4), 6),
        (HEADER | WRITE | length(4), 4),
        (0x12 | length(1), 8),
    ] {
        let commands = [first, READ, WRITE | length(1)];
        let mut output = [UNTOUCHED];
        let mut bank = triggered(&commands, &[0xaa00_0000, 0xbb00_0000], &output);
        assert_eq!(bank.finish(code, &mut output), done(0));
        assert_eq!(bank.finish(0, &mut output), done(0));
        assert_eq!(bank.send(&output), done(0xbb));
    }
}

// Refusals.

/// Each refusal while those behind it would hold too.
#[test]
fn trigger_order() {
    let trigger = &Call::Trigger;
    let none: &mut [u32] = &mut [];
    // In reset all the later conditions hold too.
    let mut bank = fresh();
    bank.write(0x2c0, CCC);
    assert_refused(&mut bank, trigger, none, HELD_IN_RESET);
    // A direct transfer is open; the output is not looked at.
    let mut bank = with_device();
    bank.write(0x2c0, CCC);
    bank.write(0x2c4, READ);
    started(&mut bank, &[PRIVATE_WRITE_2]);
    for ops in [0, burst_ops(0), burst_ops(1), burst_ops(2)] {
        bank.write(0x100, ops);
        assert_refused(&mut bank, trigger, none, TRANSFER_OPEN);
    }
    assert_eq!(bank.finish(6, none), done(0x0060_0000));
    // Mode 0, whatever the length field says.
    for ops in [0, 2, 4, 0x7e] {
        bank.write(0x100, ops);
        assert_refused(&mut bank, trigger, none, NOT_IN_THIS_MODE);
    }
    bank.write(0x100, 0x61);
    assert_refused(&mut bank, trigger, none, BURST_HAS_NO_COMMANDS);
    // Not carried, the output too short as well.
    for count in 1..=2 {
        bank.write(0x100, burst_ops(count));
        assert_refused(&mut bank, trigger, none, NOT_CARRIED);
    }
    bank.write(0x2c0, READ);
    assert_refused(&mut bank, trigger, none, NO_ROOM);
    assert_refused(&mut bank, trigger, &mut [UNTOUCHED], NO_ROOM);
    assert_eq!(bank.trigger(&[UNTOUCHED; 2]), done(0));
}

/// A CCC or a longer length, at each place of the burst.
#[test]
fn commands_not_carried() {
    for word in [
        CCC,
        CCC | 0xff,
        WRITE | length(5),
        READ | length(0x104),
        READ | length(0xfff),
    ] {
        for place in 0..3 {
            let mut commands = [WRITE; 3];
            commands[place] = word;
            let mut bank = ready(&commands, &[]);
            assert_refused(&mut bank, &Call::Trigger, &mut [], NOT_CARRIED);
        }
    }
    // Unnamed bits, the header and Sr are no bar.
    let mut bank = ready(&[0xffb0_0010 | length(4)], &[]);
    assert_eq!(bank.trigger(&[]), done(0));
}

/// With too short an output no event works, the trigger included; reads that have finished
/// still count. `OUT_OF_RANGE` goes before that.
#[test]
fn each_event_wants_the_output() {
    let mut output = [UNTOUCHED; 2];
    let mut bank = triggered(&[READ, WRITE | length(1), READ | length(1)], &[], &output);
    for _ in 0..3 {
        for event in all_events() {
            assert_refused(&mut bank, &event, &mut output[..1], NO_ROOM);
            assert_refused(&mut bank, &event, &mut [], NO_ROOM);
        }
        let out_of_range = [
            Call::Finish { code: 16 },
            Call::InterruptRequest {
                address: 128,
                byte: 0,
            },
        ];
        for event in out_of_range {
            assert_refused(&mut bank, &event, &mut [], OUT_OF_RANGE);
        }
        // Accesses have no output.
        assert_eq!(bank.read(0x0), done(0x100));
        assert_eq!(bank.write(0x8, 1), done(0));
        bank.send(&output);
        assert_eq!(bank.finish(0, &mut output), done(0));
    }
    // No burst is open any more.
    assert_eq!(bank.finish(0, &mut []), refuse(NO_TRANSFER));
    assert_eq!(bank.interrupt_request(8, 0, &[]), refuse(NOT_HEARD));
}

/// Events in an open burst with enough output, by 01's lists.
#[test]
fn refused_events_in_a_burst() {
    let mut output = [UNTOUCHED];
    let mut bank = triggered(&[READ | length(1), 0x12 | length(1)], &[], &output);
    bank.write(0x140, 3);
    bank.write(0xdc, 0x1000_0000);
    bank.write(0xd4, PRIVATE_WRITE_2);
    let refused = [
        (Call::Start, TRANSFER_OPEN),
        (Call::Trigger, TRANSFER_OPEN),
        (all_events()[4], TRANSFER_OPEN),
        (all_events()[5], NOT_THIS_KIND),
        (Call::AddressTake, NOT_THIS_KIND),
        (Call::Send, NOT_THIS_KIND),
        (Call::Finish { code: 1 }, ENDING_NOT_ALLOWED),
        (Call::Finish { code: 4 }, ENDING_NOT_ALLOWED),
        (Call::Finish { code: 8 }, ENDING_NOT_ALLOWED),
    ];
    for (event, number) in refused {
        assert_refused(&mut bank, &event, &mut output, number);
    }
    assert_eq!(bank.finish(6, &mut output), done(0));
    // Device 9 is not attached.
    for (event, number) in [
        (Call::Send, NOT_ATTACHED),
        (Call::Receive { byte: 0 }, NOT_ATTACHED),
        (Call::Finish { code: 0 }, ENDING_NOT_ALLOWED),
        (Call::Finish { code: 6 }, ENDING_NOT_ALLOWED),
    ] {
        assert_refused(&mut bank, &event, &mut output, number);
    }
    assert_eq!(bank.finish(8, &mut output), done(0));
    assert_eq!(bank.start(&output), refuse(NOT_IN_THIS_MODE));
}

/// OPS and the offload memories refuse every write in a burst, and no other register does.
#[test]
fn locked_registers() {
    let mut bank = triggered(&[WRITE], &[], &[]);
    let locked = [0x100].into_iter().chain((0x2c0..=0x33c).step_by(4));
    for offset in locked {
        let write = Call::Write {
            offset,
            value: u32::MAX,
        };
        assert_refused(&mut bank, &write, &mut [], TRANSFER_OPEN);
        // `NO_REGISTER` goes first; reads are free.
        assert_eq!(bank.write(offset + 1, 0), refuse(NO_REGISTER));
        assert_eq!(bank.read(offset).number, DONE);
    }
    for offset in [0x2bc, 0x340] {
        assert_eq!(bank.write(offset, 0), refuse(NO_REGISTER));
    }
    // The other registers are as ever.
    assert_eq!(bank.write(0x88, 0), refuse(DROPPED_READ_ONLY));
    for offset in [0x8, 0x40, 0x80, 0x84, 0xd4, 0xdc, 0x140, 0x180] {
        assert_eq!(bank.write(offset, 0), done(0));
    }
    assert_eq!(bank.finish(0, &mut []), done(0));
    assert_eq!(bank.write(0x100, 0), done(0));
    assert_eq!(bank.write(0x2c0, 1), done(0));
    assert_eq!(bank.write(0x33c, 1), done(0));
    // A direct transfer locks nothing.
    assert_eq!(bank.start(&[]), done(0));
    assert_eq!(bank.write(0x100, 1), done(0));
    assert_eq!(bank.write(0x2c0, 2), done(0));
}

// What a burst does along its way.

/// The burst goes on after each of them. A read that got nothing has a word too.
#[test]
fn error_codes_in_the_middle() {
    let commands = [
        READ | length(2),
        OTHER_READ | length(4),
        HEADER | WRITE | length(2),
        HEADER | READ | length(1),
        READ | length(2),
    ];
    let mut output = [UNTOUCHED; 4];
    let mut bank = triggered(&commands, &[], &output);
    for (code, words) in [(6, 1), (8, 2), (4, 2), (4, 3)] {
        assert_eq!(bank.finish(code, &mut output), done(0));
        assert_eq!(output[..words], [0; 4][..words]);
        assert_eq!(output[words..], [UNTOUCHED; 4][words..]);
    }
    assert_eq!(bank.receive(0xc0, &output), done(0));
    // Bytes moved, so that code 6 is none.
    assert_eq!(bank.finish(6, &mut output), refuse(ENDING_NOT_ALLOWED));
    assert_eq!(bank.finish(0, &mut output), done(0));
    assert_eq!(output, [0, 0, 0, 0xc000_0000]);
    assert_eq!(value_at(&mut bank, 0x100) >> 7, 1);
}

/// A reset ends the burst without a word for the open read.
#[test]
fn reset_in_the_middle() {
    let commands = [READ | length(2), READ | length(2), WRITE];
    let mut output = [UNTOUCHED; 2];
    let mut bank = triggered(&commands, &[], &output);
    assert_eq!(bank.receive(1, &output), done(0));
    assert_eq!(bank.finish(0, &mut output), done(0));
    assert_eq!(bank.receive(2, &output), done(0));
    assert_eq!(bank.write(0x40, 1), done(0));
    assert_eq!(output, [0x0100_0000, UNTOUCHED]);
    // Nothing is locked and no output is asked for.
    assert_eq!(value_at(&mut bank, 0x100), 0x87);
    assert_eq!(bank.write(0x100, burst_ops(1)), done(0));
    assert_eq!(bank.finish(0, &mut []), refuse(HELD_IN_RESET));
    assert_eq!(bank.trigger(&[]), refuse(HELD_IN_RESET));
    assert_eq!(bank.write(0x40, 0), done(0));
    assert_eq!(bank.finish(0, &mut []), refuse(NO_TRANSFER));
    assert_eq!(bank.trigger(&[]), refuse(NO_ROOM));
    // It begins anew, with no byte gathered.
    assert_eq!(bank.trigger(&output), done(0));
    assert_eq!(bank.receive(9, &output), done(0));
    assert_eq!(bank.finish(0, &mut output), done(0));
    assert_eq!(output, [0x0900_0000, UNTOUCHED]);
    // Writing 0 when released leaves an open burst.
    assert_eq!(bank.trigger(&output), done(0));
    assert_eq!(bank.write(0x40, 0), done(0));
    assert_eq!(bank.trigger(&output), refuse(TRANSFER_OPEN));
}

/// A write to DEV_CHAR counts for the transfers that open after it, not for the open one.
#[test]
fn attachment_is_noted_as_each_transfer_opens() {
    let commands = [
        READ | length(2),
        READ | length(2),
        OTHER_READ | length(2),
        OTHER_READ | length(2),
    ];
    let mut output = [UNTOUCHED; 4];
    let mut bank = triggered(&commands, &[], &output);
    bank.write(0x180, DETACH);
    assert_eq!(bank.receive(1, &output), done(0));
    assert_eq!(bank.finish(0, &mut output), done(0));
    // The second one opened with that finish.
    bank.write(0x180, 0x1102);
    assert_eq!(bank.receive(2, &output), refuse(NOT_ATTACHED));
    assert_eq!(bank.finish(8, &mut output), done(0));
    // The third opened before device 9 was attached.
    bank.write(0x180, ATTACH_OTHER);
    assert_eq!(bank.receive(3, &output), refuse(NOT_ATTACHED));
    assert_eq!(bank.finish(0, &mut output), refuse(ENDING_NOT_ALLOWED));
    assert_eq!(bank.finish(8, &mut output), done(0));
    assert_eq!(bank.receive(4, &output), done(0));
    assert_eq!(bank.finish(0, &mut output), done(0));
    assert_eq!(output, [0x0100_0000, 0, 0, 0x0400_0000]);
}

/// Direct transfers before and after go on as if no burst had been; full queues and
/// pending bits are no bar and stay.
#[test]
fn queues_stay_as_they_were() {
    let mut bank = ready(&[READ | length(4), WRITE | length(4)], &[0x0102_0304]);
    bank.write(0x100, 0);
    bank.write(0x140, 3);
    bank.write(0x180, 0x1106);
    for sync in 0..4 {
        bank.interrupt_request(8, 0, &[]);
        started(&mut bank, &[READ | length(4)]);
        for byte in 0..4 {
            bank.receive(byte, &[]);
        }
        assert_eq!(bank.finish(0, &mut []), done(0x400 | sync));
        bank.write(0xdc, sync);
    }
    for _ in 0..4 {
        bank.write(0xd4, 0x10);
    }
    bank.write(0x100, burst_ops(2));
    for clear in [0, 0xe0] {
        bank.write(0x84, clear);
        let before = bank.clone();
        let mut output = [UNTOUCHED];
        assert_eq!(bank.trigger(&output), done(0));
        for byte in 5..9 {
            assert_eq!(bank.receive(byte, &output), done(0));
        }
        assert_eq!(bank.finish(0, &mut output), done(0));
        for byte in 1..=4 {
            assert_eq!(bank.send(&output), done(byte));
        }
        assert_eq!(bank.finish(0, &mut output), done(0));
        assert_eq!(output, [0x0506_0708]);
        assert_eq!(bank, before);
    }
    assert_eq!(bank.read(0xd8), done(0x400));
    bank.write(0x100, 0);
    assert_eq!(bank.start(&[]), done(0x10));
    assert_eq!(bank.finish(0, &mut []), done(4));
}

/// Each event may get another output; the word goes to the finish's.
#[test]
fn the_output_is_lent_to_each_event() {
    let mut bank = triggered(&[READ | length(1)], &[], &[UNTOUCHED]);
    assert_eq!(bank.receive(0x5a, &[UNTOUCHED; 3]), done(0));
    let mut output = [UNTOUCHED; 2];
    assert_eq!(bank.finish(0, &mut output), done(0));
    assert_eq!(output, [0x5a00_0000, UNTOUCHED]);
}
