//! Where the registers stand: offsets for [`Model::read`](crate::Model::read) and
//! [`Model::write`](crate::Model::write). [`fields`](crate::fields) has their bits.

// Written by tools/names.py from docs/registers.toml: do not edit.

/// Version of the peripheral, 0.01.00. Read-only.
pub const VERSION: u16 = 0x000;
/// The ID that set-up gave, 0 to 255. Read-only.
pub const DEVICE_ID: u16 = 0x004;
/// A word that software may use as it likes.
pub const SCRATCH: u16 = 0x008;
/// A 1 resets and holds, a 0 releases.
pub const ENABLE: u16 = 0x040;
/// Which bits of IRQ_SOURCE show in IRQ_PENDING.
pub const IRQ_MASK: u16 = 0x080;
/// IRQ_SOURCE AND IRQ_MASK; a 1 clears bit 5, 6 or 7.
pub const IRQ_PENDING: u16 = 0x084;
/// The interrupts, whatever the mask. Read-only.
pub const IRQ_SOURCE: u16 = 0x088;
/// Free words of CMD. Read-only.
pub const CMD_FIFO_ROOM: u16 = 0x0c0;
/// Words in CMDR. Read-only.
pub const CMDR_FIFO_LEVEL: u16 = 0x0c4;
/// Free words of SDO. Read-only.
pub const SDO_FIFO_ROOM: u16 = 0x0c8;
/// Words in SDI. Read-only.
pub const SDI_FIFO_LEVEL: u16 = 0x0cc;
/// Words in IBI. Read-only.
pub const IBI_FIFO_LEVEL: u16 = 0x0d0;
/// A write puts a command word into CMD. Write-only.
pub const CMD_FIFO: u16 = 0x0d4;
/// A read takes the first receipt from CMDR. Read-only.
pub const CMDR_FIFO: u16 = 0x0d8;
/// A write puts a data word into SDO. Write-only.
pub const SDO_FIFO: u16 = 0x0dc;
/// A read takes the first data word from SDI. Read-only.
pub const SDI_FIFO: u16 = 0x0e0;
/// A read takes the first interrupt from IBI. Read-only.
pub const IBI_FIFO: u16 = 0x0e4;
/// Which queues have nothing to read. Read-only.
pub const FIFO_STATUS: u16 = 0x0e8;
/// How the controller operates.
pub const OPS: u16 = 0x100;
/// Interrupt requests of devices. Write-only.
pub const IBI_CONFIG: u16 = 0x140;
/// The device table: an address and its flags.
pub const DEV_CHAR: u16 = 0x180;
/// Watermark of CMD: with fewer words, IRQ_SOURCE bit 0 is 1.
pub const CMD_WATERMARK: u16 = 0x200;
/// Watermark of CMDR: with more words, IRQ_SOURCE bit 1 is 1.
pub const CMDR_WATERMARK: u16 = 0x204;
/// Watermark of SDO: with fewer words, IRQ_SOURCE bit 2 is 1.
pub const SDO_WATERMARK: u16 = 0x208;
/// Watermark of SDI: with more words, IRQ_SOURCE bit 3 is 1.
pub const SDI_WATERMARK: u16 = 0x20c;
/// Watermark of IBI: with more words, IRQ_SOURCE bit 4 is 1.
pub const IBI_WATERMARK: u16 = 0x210;
/// The commands of a burst.
pub const OFFLOAD_CMD: [u16; 16] = row(0x2c0);
/// The data words of a burst.
pub const OFFLOAD_SDO: [u16; 16] = row(0x300);

// End of what is written.

/// The offsets of a memory, word by word.
const fn row<const WORDS: usize>(first: u16) -> [u16; WORDS] {
    let mut offsets = [first; WORDS];
    let mut place = 1;
    while place < WORDS {
        offsets[place] = offsets[place - 1] + 4;
        place += 1;
    }
    offsets
}
