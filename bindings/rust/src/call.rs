//! The calls, and the numbers that name them to the archive.

/// One call on a [`Model`](crate::Model), for [`step`](crate::Model::step).
#[derive(Clone, Copy, Debug, PartialEq, Eq, Hash)]
pub enum Call {
    /// The host writes a register.
    Write {
        /// Which one: see [`registers`](crate::registers).
        offset: u16,
        /// What is written.
        value: u32,
    },
    /// The host reads a register.
    Read {
        /// Which one: see [`registers`](crate::registers).
        offset: u16,
    },
    /// The bus starts the next command.
    Start,
    /// A byte is sent to the device.
    Send,
    /// A byte is received from the device.
    Receive {
        /// The byte.
        byte: u8,
    },
    /// The bus finishes the transfer.
    Finish {
        /// The error code of the receipt, one of [`code`](crate::fields::code).
        code: u8,
    },
    /// A device requests an interrupt.
    Interrupt {
        /// The device's address, 0 to 127.
        address: u8,
        /// The byte that it sends.
        byte: u8,
    },
    /// A device requests an address, in an address assignment (ENTDAA).
    Request {
        /// Bits 47:16 of the device's identifier.
        first: u32,
        /// The rest of it, and the device's two characteristics bytes.
        second: u32,
    },
    /// The bus takes the address word from SDO.
    TakeAddress,
    /// A burst over the offload commands begins.
    Trigger,
}

impl Call {
    /// Letter, offset and two values. Arguments fill the values in order, the rest is 0.
    pub(crate) fn numbers(self) -> (u8, u16, u32, u32) {
        match self {
            Call::Write { offset, value } => (b'W', offset, value, 0),
            Call::Read { offset } => (b'R', offset, 0, 0),
            Call::Start => (b'S', 0, 0, 0),
            Call::Send => (b'T', 0, 0, 0),
            Call::Receive { byte } => (b'X', 0, byte.into(), 0),
            Call::Finish { code } => (b'F', 0, code.into(), 0),
            Call::Interrupt { address, byte } => (b'I', 0, address.into(), byte.into()),
            Call::Request { first, second } => (b'D', 0, first, second),
            Call::TakeAddress => (b'A', 0, 0, 0),
            Call::Trigger => (b'G', 0, 0, 0),
        }
    }
}
