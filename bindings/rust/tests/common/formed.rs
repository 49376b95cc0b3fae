//! When image and tables, in one row, are those of a well-formed bank, said once more and by itself:
//! the rules `formed` of docs/RULES.md, each by a function.

use crate::images::WORDS;

/// Least capacities, in the order CMD, CMDR, SDO, SDI, IBI.
const LEAST: [u32; 5] = [2, 1, 1, 2, 1];

fn bits(word: u32, high: u32, low: u32) -> u32 {
    word >> low & ((1 << (high - low + 1)) - 1)
}

/// Where the words of an image stand.
struct Image<'a> {
    rings: &'a [[u32; 4]],
    id: u32,
    mask: u32,
    ops: u32,
    config: u32,
    selected: u32,
    held: u32,
    syncs: [u32; 2],
    pending: [u32; 3],
    burst: u32,
    /// Last read from CMDR, SDI, IBI.
    latest: [u32; 3],
    phase: u32,
    transfer: Transfer,
    flags: &'a [u32],
    commands: &'a [u32],
}

struct Transfer {
    kind: u32,
    header: u32,
    length: u32,
    moved: u32,
    attached: u32,
    part: u32,
}

const IDLE: u32 = 0;
const WRITING: u32 = 1;
const READING: u32 = 2;
/// From here on, an address assignment.
const ASSIGNING: u32 = 3;
const PRIVATE: u32 = 0;
const BROADCAST: u32 = 2;

pub fn well_formed(words: &[u32]) -> bool {
    if words.len() != WORDS {
        return false;
    }
    let image = Image {
        rings: words[..20].as_chunks().0,
        id: words[20],
        mask: words[22],
        ops: words[23],
        config: words[24],
        selected: words[25],
        held: words[26],
        syncs: [words[27], words[28]],
        pending: [words[29], words[30], words[31]],
        burst: words[32],
        latest: [words[33], words[34], words[35]],
        phase: words[36],
        transfer: Transfer {
            kind: words[37],
            header: words[38],
            length: words[39],
            moved: words[40],
            attached: words[41],
            part: words[42],
        },
        flags: &words[43..171],
        commands: &words[171..187],
    };
    image.queues_in_range()
        && image.fields_in_their_bits()
        && image.transfer_as_counted()
        && image.quiet_in_reset()
}

impl Image<'_> {
    /// `formed.set-up`: what a set-up allows, and no queue beyond its capacity.
    fn queues_in_range(&self) -> bool {
        let ring_ok = |(ring, least): (&[u32; 4], u32)| {
            let [capacity, watermark, head, level] = *ring;
            (least..=1024).contains(&capacity)
                && watermark <= capacity
                && head < capacity
                && level <= capacity
        };
        self.rings.iter().zip(LEAST).all(ring_ok) && self.id <= 255
    }

    /// `formed.fields`: no field has a bit that it does not store.
    fn fields_in_their_bits(&self) -> bool {
        let transfer = &self.transfer;
        let one_bit = [self.held, transfer.header, transfer.attached];
        self.mask <= 0xff
            && self.ops <= 0x7f
            && self.config <= 3
            && self.selected <= 127
            && self.syncs.iter().all(|sync| *sync <= 255)
            && one_bit.iter().chain(&self.pending).all(|bit| *bit <= 1)
            && self.phase <= 5
            && transfer.kind <= 2
            && transfer.length <= 0xfff
            && self.flags.iter().all(|flags| *flags <= 7)
    }

    /// `formed.moved`, `formed.part`: no more moved than the transfer allows, and the part word has
    /// the bytes that the count leaves in it, at its top, with 0 below. Without a transfer all is 0.
    fn transfer_as_counted(&self) -> bool {
        let transfer = &self.transfer;
        if self.burst != 0 {
            return self.burst_as_placed();
        }
        match self.phase {
            IDLE => transfer.is_zero(),
            READING => transfer.moved_at_most_its_length() && transfer.holds(transfer.moved % 4),
            WRITING => {
                let left = (4 - transfer.moved % 4) % 4;
                transfer.moved_at_most_its_length() && transfer.holds(left)
            }
            ASSIGNING.. => transfer.moved == 0 && transfer.holds(0),
        }
    }

    /// `formed.burst`: the trigger's tests hold, and the open transfer is the one of the command at
    /// hand. A read has gathered all that it moved; a write's bytes stand in the offload data.
    fn burst_as_placed(&self) -> bool {
        let offload_mode = bits(self.ops, 0, 0) == 1;
        let commands = &self.commands[..bits(self.ops, 4, 1) as usize];
        let carried = |word: &u32| bits(*word, 22, 22) == 0 && bits(*word, 19, 8) <= 4;
        // Of no commands none is at hand, which is 28.
        let Some(command) = commands.get(self.burst as usize - 1) else {
            return false;
        };
        let transfer = &self.transfer;
        let reads = bits(*command, 0, 0) == 1;
        offload_mode
            && commands.iter().all(carried)
            && self.phase == if reads { READING } else { WRITING }
            && transfer.kind == PRIVATE
            && transfer.header == bits(*command, 21, 21)
            && transfer.length == bits(*command, 19, 8)
            && transfer.moved_at_most_its_length()
            && transfer.holds(if reads { transfer.moved } else { 0 })
    }

    /// `formed.reset`: a held bank is as a reset leaves it, with neither transfer nor burst, and no word
    /// read. Else what was read may be any word.
    fn quiet_in_reset(&self) -> bool {
        let empty = |ring: &[u32; 4]| ring[2] == 0 && ring[3] == 0;
        self.held == 0
            || self.rings.iter().all(empty)
                && self.syncs == [0; 2]
                && self.pending == [0; 3]
                && self.phase == IDLE
                && self.burst == 0
                && self.latest == [0; 3]
    }
}

impl Transfer {
    fn is_zero(&self) -> bool {
        let Transfer {
            kind,
            header,
            length,
            moved,
            attached,
            part,
        } = *self;
        [kind, header, length, moved, attached, part] == [0; 6]
    }

    /// Only the device of a private transfer or a direct CCC can be unattached.
    fn moved_at_most_its_length(&self) -> bool {
        let unattached = self.kind != BROADCAST && self.attached == 0;
        self.moved <= if unattached { 0 } else { self.length }
    }

    /// So many bytes in the part word, at most 4.
    fn holds(&self, bytes: u32) -> bool {
        bytes == 4 || self.part << (8 * bytes) == 0
    }
}
