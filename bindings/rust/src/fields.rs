//! The fields of words, by name: those of registers, commands, receipts and interrupts.
//!
//! ```
//! use thymewax::fields::{code, command, irq, receipt};
//!
//! // A read of two bytes from device 8.
//! const READ: u32 = command::ADDRESS.put(8) | command::LENGTH.put(2) | command::READ.put(1);
//! assert_eq!(READ, 0x0000_0211);
//!
//! // A receipt of a transfer that was not acknowledged.
//! assert_eq!(receipt::ERROR.get(0x0060_0003), code::NACK.into());
//! assert_eq!(receipt::SYNC.get(0x0060_0003), 3);
//!
//! // A bit.
//! assert!(irq::CMDR_PENDING.is_set(0x0000_0025));
//! ```

/// Bits of a word that belong together.
#[derive(Clone, Copy, Debug, PartialEq, Eq, Hash)]
pub struct Field {
    mask: u32,
}

impl Field {
    const fn new(high: u32, low: u32) -> Field {
        Field {
            mask: u32::MAX >> (31 - high) & u32::MAX << low,
        }
    }

    /// Its bits, as a word has them.
    pub const fn mask(self) -> u32 {
        self.mask
    }

    /// The number that a word has in it.
    pub const fn get(self, word: u32) -> u32 {
        (word & self.mask) >> self.mask.trailing_zeros()
    }

    /// Whether a word has a 1 in it.
    pub const fn is_set(self, word: u32) -> bool {
        word & self.mask != 0
    }

    /// The word with this number in it, all other bits 0. Words are put together by `|`.
    ///
    /// # Panics
    ///
    /// If the number has more bits than the field. In a constant that is an error of the compiler.
    pub const fn put(self, number: u32) -> u32 {
        assert!(
            number <= self.get(u32::MAX),
            "a number with more bits than its field"
        );
        number << self.mask.trailing_zeros()
    }
}

// Written by tools/names.py from docs/registers.toml: do not edit.

/// A watermark (CMD_WATERMARK, CMDR_WATERMARK, SDO_WATERMARK, SDI_WATERMARK, IBI_WATERMARK).
pub mod watermark {
    use super::Field;

    /// Words.
    pub const WORDS: Field = Field::new(15, 0);
}

/// Reset and release (ENABLE).
pub mod enable {
    use super::Field;

    /// 1: held in reset. 0: released.
    pub const RESET: Field = Field::new(0, 0);
}

/// Interrupts of the controller (IRQ_MASK, IRQ_PENDING, IRQ_SOURCE).
pub mod irq {
    use super::Field;

    /// A device requested an address and SDO was then empty.
    pub const DAA_PENDING: Field = Field::new(7, 7);
    /// An interrupt request of a device was accepted.
    pub const IBI_PENDING: Field = Field::new(6, 6);
    /// A receipt was queued.
    pub const CMDR_PENDING: Field = Field::new(5, 5);
    /// The level of IBI is above its watermark.
    pub const IBI_ALMOST_FULL: Field = Field::new(4, 4);
    /// The level of SDI is above its watermark.
    pub const SDI_ALMOST_FULL: Field = Field::new(3, 3);
    /// The level of SDO is below its watermark.
    pub const SDO_ALMOST_EMPTY: Field = Field::new(2, 2);
    /// The level of CMDR is above its watermark.
    pub const CMDR_ALMOST_FULL: Field = Field::new(1, 1);
    /// The level of CMD is below its watermark.
    pub const CMD_ALMOST_EMPTY: Field = Field::new(0, 0);
}

/// The first word of a command (CMD_FIFO, OFFLOAD_CMD).
pub mod command {
    use super::Field;

    /// 1: a CCC, the next word is its second. 0: private.
    pub const CCC: Field = Field::new(22, 22);
    /// 1: a broadcast header before a private transfer.
    pub const HEADER: Field = Field::new(21, 21);
    /// 1: it ends with a repeated start. 0: with a stop.
    pub const REPEATED_START: Field = Field::new(20, 20);
    /// Length of the payload in bytes.
    pub const LENGTH: Field = Field::new(19, 8);
    /// Address of the device.
    pub const ADDRESS: Field = Field::new(7, 1);
    /// 1: a read from the device. 0: a write to it.
    pub const READ: Field = Field::new(0, 0);
}

/// The second word of a CCC.
pub mod ccc {
    use super::Field;

    /// The code of the CCC.
    pub const CODE: Field = Field::new(7, 0);
    /// 1: direct. 0: broadcast. A bit of the code.
    pub const DIRECT: Field = Field::new(7, 7);
}

/// A receipt (CMDR_FIFO).
pub mod receipt {
    use super::Field;

    /// How the transfer ended.
    pub const ERROR: Field = Field::new(23, 20);
    /// Bytes moved.
    pub const LENGTH: Field = Field::new(19, 8);
    /// Receipts before it since the reset, modulo 256.
    pub const SYNC: Field = Field::new(7, 0);
}

/// An interrupt's entry (IBI_FIFO).
pub mod interrupt {
    use super::Field;

    /// Address of the device.
    pub const ADDRESS: Field = Field::new(23, 17);
    /// The data byte; 0 of a device that sends none.
    pub const DATA: Field = Field::new(15, 8);
    /// Entries before it since the reset, modulo 256.
    pub const SYNC: Field = Field::new(7, 0);
}

/// Four bytes of payload, in the order of the bus (SDO_FIFO, SDI_FIFO, OFFLOAD_SDO).
pub mod data {
    use super::Field;

    /// The first byte sent.
    pub const FIRST: Field = Field::new(31, 24);
    /// The second byte sent.
    pub const SECOND: Field = Field::new(23, 16);
    /// The third byte sent.
    pub const THIRD: Field = Field::new(15, 8);
    /// The fourth byte sent.
    pub const FOURTH: Field = Field::new(7, 0);
}

/// A word of SDO that an address take takes.
pub mod address_word {
    use super::Field;

    /// The address.
    pub const ADDRESS: Field = Field::new(31, 25);
    /// Makes the ones of bits 31:24 an odd number.
    pub const PARITY: Field = Field::new(24, 24);
}

/// Queues that are empty (FIFO_STATUS).
pub mod status {
    use super::Field;

    /// 1: SDI is empty.
    pub const SDI_EMPTY: Field = Field::new(2, 2);
    /// 1: IBI is empty.
    pub const IBI_EMPTY: Field = Field::new(1, 1);
    /// 1: CMDR is empty.
    pub const CMDR_EMPTY: Field = Field::new(0, 0);
}

/// How the controller operates (OPS).
pub mod ops {
    use super::Field;

    /// 1: no transfer is open.
    pub const IDLE: Field = Field::new(7, 7);
    /// Speed grade in push-pull mode; stored only.
    pub const SPEED: Field = Field::new(6, 5);
    /// Number of offload commands in a burst.
    pub const OFFLOAD_LENGTH: Field = Field::new(4, 1);
    /// 0: direct transfers. 1: offload bursts.
    pub const OFFLOAD: Field = Field::new(0, 0);
}

/// Interrupt requests of devices (IBI_CONFIG).
pub mod ibi_config {
    use super::Field;

    /// 1: interrupt requests are heard.
    pub const LISTEN: Field = Field::new(1, 1);
    /// 1: heard requests may be acknowledged.
    pub const ENABLE: Field = Field::new(0, 0);
}

/// A device and its flags (DEV_CHAR).
pub mod device {
    use super::Field;

    /// The address that is selected.
    pub const ADDRESS: Field = Field::new(15, 9);
    /// 1: store the flags too. Reads 0.
    pub const STORE: Field = Field::new(8, 8);
    /// 1: it sends a data byte with an interrupt.
    pub const SENDS_BYTE: Field = Field::new(3, 3);
    /// 1: it may interrupt.
    pub const MAY_INTERRUPT: Field = Field::new(2, 2);
    /// 1: it is attached.
    pub const ATTACHED: Field = Field::new(1, 1);
}

/// Numbers of `receipt::ERROR`.
pub mod code {
    /// 0: no error.
    pub const NO_ERROR: u8 = 0;
    /// 1: the length of a CCC was wrong.
    pub const CE0: u8 = 1;
    /// 4: no answer to the broadcast address.
    pub const CE2: u8 = 4;
    /// 6: the device did not acknowledge.
    pub const NACK: u8 = 6;
    /// 8: the device was not attached.
    pub const UNKNOWN_ADDRESS: u8 = 8;
}

/// Numbers of `ops::SPEED`.
pub mod speed {
    /// 0: 1.56 MHz with a clock of 100 MHz.
    pub const MHZ_1_56: u8 = 0;
    /// 1: 3.12 MHz with a clock of 100 MHz.
    pub const MHZ_3_12: u8 = 1;
    /// 2: 6.25 MHz with a clock of 100 MHz.
    pub const MHZ_6_25: u8 = 2;
    /// 3: 12.50 MHz with a clock of 100 MHz.
    pub const MHZ_12_50: u8 = 3;
}

// End of what is written.
