//! Offsets of the registers that the checker looks at (01, 'Register map').

pub const ENABLE: u16 = 0x040;
pub const CMD_ROOM: u16 = 0x0c0;
pub const CMDR_LEVEL: u16 = 0x0c4;
pub const SDO_ROOM: u16 = 0x0c8;
pub const SDI_LEVEL: u16 = 0x0cc;
pub const CMD: u16 = 0x0d4;
pub const CMDR: u16 = 0x0d8;
pub const SDO: u16 = 0x0dc;
pub const SDI: u16 = 0x0e0;
pub const IBI: u16 = 0x0e4;
pub const FIFO_STATUS: u16 = 0x0e8;
pub const OPS: u16 = 0x100;
