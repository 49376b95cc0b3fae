//! When a bank is well formed: a statement over the 203 numbers of an image. Nothing of
//! the engine is used.
//!
//! A clause that names no other place is one of 01, 'Numbers that come back', or of 02 §3
//! or §5.
//! NOTES.md, Well formed, has the decisions.

use crate::lines::parse_word;
use std::array;
use std::io::{self, BufRead, ErrorKind, Read, Write};

pub const IMAGE_WORDS: usize = 203;

/// The clauses, in the order of the papers' three sentences.
pub fn well_formed(words: &[u32]) -> bool {
    let Ok(words) = words.try_into() else {
        return false;
    };
    let bank = Bank::of_image(words);
    set_up_in_range(&bank)
        && rings_within_capacity(&bank)
        && fields_within_bits(&bank)
        && one_transfer_at_most(&bank)
        && moved_within_length(&bank)
        && part_word_by_count(&bank)
        && all_clear_in_reset(&bank)
        && burst_passes_trigger(&bank)
        && burst_stands_at_command(&bank)
        && burst_has_its_transfer(&bank)
        && burst_bytes_by_count(&bank)
        && no_burst_in_reset(&bank)
        && nothing_read_in_reset(&bank)
}

// 01, 'Numbers that come back'.

/// What no set-up gives is in no bank: 1 to 1,024 words for a queue, and no fewer than 2
/// for CMD and SDI; a watermark that its queue can reach, also where the driver wrote it (02
/// §6); an ID of one byte (01, first section).
fn set_up_in_range(bank: &Bank) -> bool {
    let least = [2, 1, 1, 2, 1];
    bank.queues.iter().zip(least).all(|(queue, least)| {
        (least..=1024).contains(&queue.capacity) && queue.watermark <= queue.capacity
    }) && bank.id <= 255
}

/// A queue's first word lies inside its area, and it has no more words than places.
fn rings_within_capacity(bank: &Bank) -> bool {
    bank.queues
        .iter()
        .all(|queue| queue.head < queue.capacity && queue.level <= queue.capacity)
}

/// No number is larger than the register or field that it stands for (01, 'Register map',
/// 'Commands and receipts'). SCRATCH, the part word, the offload memories and the words read
/// last have all 32 bits; the bytes moved and the burst's place have bounds of their own
/// below.
fn fields_within_bits(bank: &Bank) -> bool {
    let fits = |number: u32, bits: u32| number >> bits == 0;
    let transfer = &bank.transfer;
    fits(bank.irq_mask, 8)
        && fits(bank.ops, 7)
        && fits(bank.ibi_config, 2)
        && fits(bank.selected, 7)
        && fits(bank.enable, 1)
        && bank.syncs.iter().all(|sync| fits(*sync, 8))
        && bank.pending.iter().all(|pending| fits(*pending, 1))
        && bank.devices.iter().all(|flags| fits(*flags, 3))
        && transfer.phase <= REQUESTS_ANSWERED
        && transfer.kind <= BROADCAST_CCC
        && fits(transfer.header, 1)
        && fits(transfer.length, 12)
        && fits(transfer.attached, 1)
}

/// The numbers of a transfer tell of one, or of none and then are all 0. Whether it is an
/// ENTDAA the phase says, and no clause asks which kind stands beside it.
fn one_transfer_at_most(bank: &Bank) -> bool {
    bank.transfer.phase != NONE_OPEN || bank.transfer == Transfer::default()
}

/// No more bytes moved than the command asked for; none in an ENTDAA, and none where the
/// device was not attached. That is noted of a private transfer and a direct CCC alone
/// (01, 'Bus events', start): a broadcast has no device, whatever number stands there.
fn moved_within_length(bank: &Bank) -> bool {
    let transfer = &bank.transfer;
    let unattached = transfer.kind != BROADCAST_CCC && transfer.attached == 0;
    if transfer.is_entdaa() || unattached {
        transfer.moved == 0
    } else {
        transfer.moved <= transfer.length
    }
}

/// Outside a burst the part word has what the bytes moved leave over of whole words: of
/// a read those not yet in SDI, of a write the rest of the word taken from SDO, also past
/// the length. Nothing lies behind them.
fn part_word_by_count(bank: &Bank) -> bool {
    let transfer = &bank.transfer;
    let over = transfer.moved % 4;
    let bytes = match transfer.phase {
        READ => over,
        WRITE => (4 - over) % 4,
        _ => 0,
    };
    bank.burst != 0 || transfer.part_has_at_most(bytes)
}

/// In reset the queues are empty and begin at their first place, both syncs and the three
/// pending bits are 0, and nothing is on the bus.
fn all_clear_in_reset(bank: &Bank) -> bool {
    let queues_clear = bank
        .queues
        .iter()
        .all(|queue| queue.head == 0 && queue.level == 0);
    bank.enable == 0
        || queues_clear
            && bank.syncs == [0; 2]
            && bank.pending == [0; 3]
            && bank.transfer.phase == NONE_OPEN
}

// 02 §3.

/// An open burst is one that a trigger would not refuse for its mode, for a length of 0, or
/// for a command that is a CCC or longer than 4 bytes.
fn burst_passes_trigger(bank: &Bank) -> bool {
    let commands = bank.burst_commands();
    let mode = bank.ops & 1;
    bank.burst == 0
        || mode == 1
            && !commands.is_empty()
            && commands
                .iter()
                .all(|word| !is_ccc(*word) && length_of(*word) <= 4)
}

/// Its place is that of one of those commands.
fn burst_stands_at_command(bank: &Bank) -> bool {
    bank.burst == 0 || bank.burst_command().is_some()
}

/// What is open is the transfer of the command there: private, with its direction, its
/// header bit and its length. Whether the device was attached was noted when it opened,
/// so the table of now need not agree.
fn burst_has_its_transfer(bank: &Bank) -> bool {
    let transfer = &bank.transfer;
    bank.burst_command().is_none_or(|word| {
        transfer.phase == if reads(word) { READ } else { WRITE }
            && transfer.kind == PRIVATE
            && transfer.header == header_of(word)
            && transfer.length == length_of(word)
    })
}

/// In a burst a read keeps each byte that came, as no word of it goes to SDI; a write
/// keeps none, as what it has still to send lies in its offload data word.
fn burst_bytes_by_count(bank: &Bank) -> bool {
    let transfer = &bank.transfer;
    let bytes = match transfer.phase {
        READ => transfer.moved,
        _ => 0,
    };
    bank.burst == 0 || transfer.part_has_at_most(bytes)
}

/// A reset leaves no burst.
fn no_burst_in_reset(bank: &Bank) -> bool {
    bank.enable == 0 || bank.burst == 0
}

// 02 §5.

/// A reset forgets what was read. Released, each word may be any, also where none was read:
/// no other number tells whether one was.
fn nothing_read_in_reset(bank: &Bank) -> bool {
    bank.enable == 0 || bank.last_read == [0; 3]
}

// A command word (01, 'Commands and receipts').

fn is_ccc(word: u32) -> bool {
    word >> 22 & 1 == 1
}

fn header_of(word: u32) -> u32 {
    word >> 21 & 1
}

fn length_of(word: u32) -> u32 {
    word >> 8 & 0xfff
}

fn reads(word: u32) -> bool {
    word & 1 == 1
}

// The numbers of an image by name.

/// Phases of a transfer. Those after a read's are ENTDAA's: no address request made yet,
/// one open, all that were made answered.
const NONE_OPEN: u32 = 0;
const WRITE: u32 = 1;
const READ: u32 = 2;
const REQUESTS_ANSWERED: u32 = 5;

/// Kinds of a transfer; a direct CCC is between these.
const PRIVATE: u32 = 0;
const BROADCAST_CCC: u32 = 2;

struct Queue {
    capacity: u32,
    watermark: u32,
    head: u32,
    level: u32,
}

#[derive(Default, PartialEq, Eq)]
struct Transfer {
    phase: u32,
    kind: u32,
    header: u32,
    length: u32,
    moved: u32,
    attached: u32,
    part: u32,
}

impl Transfer {
    fn is_entdaa(&self) -> bool {
        self.phase > READ
    }

    /// The first byte is the most significant; behind so many there are only zeros.
    fn part_has_at_most(&self, bytes: u32) -> bool {
        let part = self.part.to_be_bytes();
        (0..).zip(part).all(|(n, byte)| n < bytes || byte == 0)
    }
}

/// All but SCRATCH and the offload data words, which may be anything.
struct Bank<'a> {
    queues: [Queue; 5],
    id: u32,
    irq_mask: u32,
    /// Bits 6:0 of OPS: speed, offload length, mode.
    ops: u32,
    ibi_config: u32,
    selected: u32,
    enable: u32,
    syncs: [u32; 2],
    pending: [u32; 3],
    /// 0 with no burst open, else which of its commands is on the bus, the first being 1.
    burst: u32,
    transfer: Transfer,
    devices: &'a [u32],
    offload_commands: &'a [u32],
    /// What a read of CMDR, of SDI and of IBI shows when it is empty.
    last_read: [u32; 3],
}

impl Bank<'_> {
    fn of_image(words: &[u32; IMAGE_WORDS]) -> Bank<'_> {
        Bank {
            queues: array::from_fn(|n| Queue {
                capacity: words[4 * n],
                watermark: words[4 * n + 1],
                head: words[4 * n + 2],
                level: words[4 * n + 3],
            }),
            id: words[20],
            irq_mask: words[22],
            ops: words[23],
            ibi_config: words[24],
            selected: words[25],
            enable: words[26],
            syncs: [words[27], words[28]],
            pending: [words[29], words[30], words[31]],
            burst: words[32],
            transfer: Transfer {
                phase: words[33],
                kind: words[34],
                header: words[35],
                length: words[36],
                moved: words[37],
                attached: words[38],
                part: words[39],
            },
            devices: &words[40..168],
            offload_commands: &words[168..184],
            last_read: [words[200], words[201], words[202]],
        }
    }

    /// As many of the offload commands as the offload length says.
    fn burst_commands(&self) -> &[u32] {
        let length = self.ops >> 1 & 0xf;
        &self.offload_commands[..length as usize]
    }

    /// The command at which an open burst stands, if it stands at one.
    fn burst_command(&self) -> Option<u32> {
        let place = self.burst.checked_sub(1)?;
        self.burst_commands().get(place as usize).copied()
    }
}

// Lines.

/// The longest line: numbers of eight digits, and behind each a space or the newline.
const LONGEST_LINE: u64 = 9 * IMAGE_WORDS as u64;

/// Hex, one space between two numbers; the line comes without its newline.
fn parse_image(line: &[u8]) -> Option<Vec<u32>> {
    let words: Vec<u32> = line
        .split(|byte| *byte == b' ')
        .map(parse_word)
        .collect::<Option<_>>()?;
    (words.len() == IMAGE_WORDS).then_some(words)
}

/// Judges the image on each line: 1 if it is well formed, else 0. Stops at a line that
/// is no image.
pub fn run_formed(mut input: impl BufRead, output: &mut impl Write) -> io::Result<()> {
    let mut line = Vec::new();
    for number in 1u64.. {
        line.clear();
        // Of a longer line only enough is kept to see that it is no image.
        let mut part = input.by_ref().take(LONGEST_LINE + 1);
        if part.read_until(b'\n', &mut line)? == 0 {
            break;
        }
        let Some(words) = parse_image(line.strip_suffix(b"\n").unwrap_or(&line)) else {
            output.flush()?;
            let text = format!(
                "line {number}: not {IMAGE_WORDS} numbers of 1 to 8 hex digits, one space \
                 between two"
            );
            return Err(io::Error::new(ErrorKind::InvalidData, text));
        };
        writeln!(output, "{}", u8::from(well_formed(&words)))?;
    }
    output.flush()
}

#[cfg(test)]
mod tests;
