//! The numbers of the answers by name; `include/thymewax.h` has the same names for C.
//!
//! They are constants and no closed list: the checker of demand 3 also reads numbers that
//! have no name here.

// 01, 'Numbers that come back'.

/// The call was carried out.
pub const DONE: u8 = 0;
/// CMD or SDO is full, and the word written is lost.
pub const DROPPED_FULL: u8 = 1;
/// The register can only be read.
pub const DROPPED_READ_ONLY: u8 = 2;
/// CMDR, SDI or IBI has no word to read; the value is the one read before (02 §5).
pub const EMPTY: u8 = 3;
/// No register has this offset.
pub const NO_REGISTER: u8 = 4;
/// In reset neither CMD and SDO writes nor events are taken.
pub const HELD_IN_RESET: u8 = 5;
/// The open transfer, or the open burst, has to end first.
pub const TRANSFER_OPEN: u8 = 6;
/// The event needs an open transfer.
pub const NO_TRANSFER: u8 = 7;
/// A start in offload mode; a trigger in the other (02 §3).
pub const NOT_IN_THIS_MODE: u8 = 8;
/// CMD is empty, or has the first word of a CCC only.
pub const NO_COMMAND: u8 = 9;
/// The open transfer has no such event, or not now.
pub const NOT_THIS_KIND: u8 = 10;
/// The command asks for no further byte.
pub const LENGTH_REACHED: u8 = 11;
/// SDO has no word to send, or none with an address.
pub const SDO_EMPTY: u8 = 12;
/// A queue has no place for a word; the output has too few (02 §3).
pub const NO_ROOM: u8 = 13;
/// The transfer can't end with this code.
pub const ENDING_NOT_ALLOWED: u8 = 14;
/// An ENTDAA can't start before SDO is empty.
pub const SDO_NOT_EMPTY: u8 = 15;
/// Interrupt requests are not listened to.
pub const NOT_HEARD: u8 = 16;
/// Interrupt requests, or this device's, are not accepted.
pub const NOT_ACKNOWLEDGED: u8 = 17;
/// The greatest address is 127, the greatest code 15.
pub const OUT_OF_RANGE: u8 = 18;
/// The address word's parity was wrong; the word is gone.
pub const WRONG_PARITY: u8 = 19;
/// The device was not attached when the transfer opened.
pub const NOT_ATTACHED: u8 = 20;
/// The bank is none that a call leaves.
pub const NOT_WELL_FORMED: u8 = 21;
/// The store is longer or shorter than the queues.
pub const STORE_LENGTH: u8 = 22;
/// A capacity, a watermark or the ID has no such value.
pub const SET_UP_OUT_OF_RANGE: u8 = 23;

// 02 §1.

/// The file does not begin as a trace does.
pub const WRONG_MARK: u8 = 24;
/// The trace's table is wrong, or the file's length is not the one it gives.
pub const WRONG_TABLE: u8 = 25;
/// The trace has fewer sections.
pub const NO_SUCH_SECTION: u8 = 26;
/// The record is no call.
pub const WRONG_RECORD: u8 = 27;

// 02 §3.

/// A trigger with the offload length 0.
pub const BURST_HAS_NO_COMMANDS: u8 = 28;
/// A command of the burst is a CCC, or longer than 4 bytes.
pub const NOT_CARRIED: u8 = 29;

// 02 §6.

/// The watermark written is one that the queue's level never reaches.
pub const WATERMARK_ABOVE_CAPACITY: u8 = 30;
