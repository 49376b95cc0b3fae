//! The host side of an I3C controller as a model: its registers, its five queues, its interrupts,
//! and the bus as single events.
//!
//! The registers do what the register page says and are silent where it is; each call also gives an
//! [`Answer`], whose number tells what became of it. A [`Model`] is one controller; it is plain
//! memory, is [`Send`] and [`Sync`], and every call on it ends, with any arguments.
//!
//! ```
//! use thymewax::{registers, Model, Number, SetUp};
//!
//! let mut model = Model::set_up(&SetUp::SESSION)?;
//! // ENABLE 0 releases from reset.
//! model.write(registers::ENABLE, 0).done()?;
//!
//! // Four commands fill CMD, whose capacity is 4. The room is then 0.
//! for _ in 0..4 {
//!     model.write(registers::CMD_FIFO, 0x0000_0110).done()?;
//! }
//! assert_eq!(model.read(registers::CMD_FIFO_ROOM).done()?, 0);
//!
//! // A fifth is dropped. No register tells it; the number does.
//! let source = model.read(registers::IRQ_SOURCE);
//! let lost = model.write(registers::CMD_FIFO, 0x0000_0110);
//! assert_eq!(lost.number, Number::DROPPED_FULL);
//! assert_eq!(model.read(registers::IRQ_SOURCE), source);
//! # Ok::<(), thymewax::Refusal>(())
//! ```
//!
//! The model itself is the archive `libthymewax.a`, which is proved to do what its definitions say. This
//! crate adds types to it and no rules.

#![deny(missing_docs)]
#![deny(unsafe_code)]

mod answer;
mod call;
pub mod fields;
mod model;
mod number;
#[allow(unsafe_code)]
mod raw;
pub mod registers;
mod set_up;
mod trace;

pub use answer::{Answer, Refusal};
pub use call::Call;
pub use model::{image_words, version, Kept, Model, IMAGE_WORDS, VERSION};
pub use number::Number;
pub use raw::Tables;
pub use set_up::{Queue, SetUp};
pub use trace::{section, sections, Replayed};

/// The programs of the page for users are compiled as tests too.
#[cfg(doctest)]
#[doc = include_str!("../README.md")]
struct Readme;
