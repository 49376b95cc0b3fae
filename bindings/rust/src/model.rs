//! One controller: its image, its store, its output, and the calls on them.

use crate::raw::{self, Tables};
use crate::{Answer, Call, Number, Refusal, Replayed, SetUp};

/// The version of layout and calls that this crate is written for.
pub const VERSION: u32 = 2;

/// The version that the archive tells. [`VERSION`], unless another one is linked.
pub fn version() -> u32 {
    raw::version()
}

/// How many words the image of a model has.
pub const IMAGE_WORDS: usize = 43;

/// How many words the archive says that an image has. [`IMAGE_WORDS`], unless the archive is of
/// another version; set-ups are then refused with [`Number::NOT_WELL_FORMED`].
pub fn image_words() -> usize {
    raw::image_words()
}

/// What is kept of a bank: all of the state but the words in the queues.
#[derive(Clone, Debug, PartialEq, Eq)]
pub struct Kept {
    /// The state but for the tables.
    pub image: [u32; IMAGE_WORDS],
    /// The device table and the offload words.
    pub tables: Tables,
}

impl Kept {
    /// Zeros, which no bank has.
    pub const NONE: Kept = Kept {
        image: [0; IMAGE_WORDS],
        tables: Tables::CLEAR,
    };
}

/// One controller.
///
/// It owns its memory: what is kept of the bank, an image of the state and the tables; the store with
/// the words in the queues; and the output, where bursts leave what they read. They can be looked at
/// and kept, and a model can be made of them again, so a clone or the parts are a snapshot.
///
/// ```
/// use thymewax::{registers, Model, SetUp};
///
/// let mut model = Model::set_up(&SetUp::SESSION)?;
/// model.write(registers::ENABLE, 0).done()?;
/// // Device 8 is attached; a write of two bytes to it.
/// model.write(registers::DEV_CHAR, 0x1102).done()?;
/// model.write(registers::SDO_FIFO, 0xa5c3_0000).done()?;
/// model.write(registers::CMD_FIFO, 0x0000_0210).done()?;
/// // The bus.
/// assert_eq!(model.start().done()?, 0x0000_0210);
/// assert_eq!(model.send().done()?, 0xa5);
/// assert_eq!(model.send().done()?, 0xc3);
/// let receipt = model.finish(0).done()?;
/// // The driver reads the receipt: no error, two bytes, sync 0.
/// assert_eq!(model.read(registers::CMDR_FIFO).done()?, receipt);
/// assert_eq!(receipt, 0x0000_0200);
/// # Ok::<(), thymewax::Refusal>(())
/// ```
#[derive(Clone, Debug, PartialEq, Eq)]
pub struct Model {
    kept: Kept,
    store: Vec<u32>,
    output: Vec<u32>,
}

impl Model {
    /// A fresh controller, held in reset, with an empty output.
    ///
    /// Refused with [`Number::SET_UP_OUT_OF_RANGE`] if a number of the set-up is out of its range.
    pub fn set_up(set_up: &SetUp) -> Result<Model, Refusal> {
        let mut kept = Kept::NONE;
        let capacities = set_up.capacities();
        let number = raw::set_up(
            &mut kept.image,
            &mut kept.tables,
            capacities,
            set_up.watermarks(),
            set_up.id,
        );
        match Number::new(number) {
            Number::DONE => {
                let words: u32 = capacities.iter().sum();
                let store = vec![0; words as usize];
                Ok(Model::from_parts(kept, store, Vec::new()))
            }
            refused => Err(Refusal::new(refused)),
        }
    }

    /// A model of parts that were kept.
    ///
    /// Any parts will do. With what is kept of no well-formed bank, every call is answered
    /// [`Number::NOT_WELL_FORMED`]; with a store that has not one word for each place of the five
    /// queues, [`Number::STORE_LENGTH`]. Damage that leaves it well formed is not seen.
    pub fn from_parts(kept: Kept, store: Vec<u32>, output: Vec<u32>) -> Model {
        Model {
            kept,
            store,
            output,
        }
    }

    /// What is kept, store and output, the parts for [`from_parts`](Model::from_parts).
    pub fn into_parts(self) -> (Kept, Vec<u32>, Vec<u32>) {
        (self.kept, self.store, self.output)
    }

    /// All of the state but the words in the queues.
    pub fn kept(&self) -> &Kept {
        &self.kept
    }

    /// The memory of the queues: an area for each, from that of CMD to that of IBI.
    pub fn store(&self) -> &[u32] {
        &self.store
    }

    /// What bursts have read: a word for each read of the burst, put there at its finish.
    pub fn output(&self) -> &[u32] {
        &self.output
    }

    /// Gives the output this many words. The first ones stay, new ones are 0.
    ///
    /// A burst needs a word for each of its reads, else the trigger, and each event while the burst
    /// is open, is answered [`Number::NO_ROOM`]. No burst has more than 15.
    pub fn lend_output(&mut self, words: usize) {
        self.output.resize(words, 0);
    }

    /// Any call. The methods below are each one of them.
    pub fn step(&mut self, call: Call) -> Answer {
        let (letter, offset, first, second) = call.numbers();
        self.step_numbers(letter, offset, first, second)
    }

    /// The call that the numbers of a record of a trace name, for hosts that go through the records
    /// of a [`section`](crate::section) themselves.
    ///
    /// Numbers that name no call are answered [`Number::WRONG_RECORD`]. All are tested, but two
    /// things are left to the caller: the record's second byte must be 0, and the letter `G`, the
    /// trigger here, is none of a record.
    ///
    /// ```
    /// use thymewax::{registers, Model, Number, SetUp};
    ///
    /// let mut model = Model::set_up(&SetUp::SESSION)?;
    /// model.step_numbers(b'W', registers::ENABLE, 0, 0).done()?;
    /// assert_eq!(model.step_numbers(b'S', 0, 0, 0), model.start());
    /// // A start has no arguments, and no call is `Q`.
    /// assert_eq!(model.step_numbers(b'S', 0, 1, 0).number, Number::WRONG_RECORD);
    /// assert_eq!(model.step_numbers(b'Q', 0, 0, 0).number, Number::WRONG_RECORD);
    /// # Ok::<(), thymewax::Refusal>(())
    /// ```
    pub fn step_numbers(&mut self, letter: u8, offset: u16, first: u32, second: u32) -> Answer {
        Answer::of_halves(raw::step(
            &mut self.kept.image,
            &mut self.kept.tables,
            &mut self.store,
            &mut self.output,
            [letter.into(), offset.into(), first, second],
        ))
    }

    /// The host reads a register; the value is what it shows.
    ///
    /// A read of CMDR, SDI or IBI takes the first word of the queue. An empty one shows the word last
    /// read from it since the release, or 0, with [`Number::EMPTY`].
    pub fn read(&mut self, offset: u16) -> Answer {
        self.step(Call::Read { offset })
    }

    /// The host writes a register.
    pub fn write(&mut self, offset: u16, value: u32) -> Answer {
        self.step(Call::Write { offset, value })
    }

    /// The bus starts the next command; the value is the command's first word.
    pub fn start(&mut self) -> Answer {
        self.step(Call::Start)
    }

    /// A byte is sent to the device; it is the value.
    pub fn send(&mut self) -> Answer {
        self.step(Call::Send)
    }

    /// A byte is received from the device.
    pub fn receive(&mut self, byte: u8) -> Answer {
        self.step(Call::Receive { byte })
    }

    /// The bus finishes the transfer with one of [`code`](crate::fields::code). docs/ENDINGS.md says
    /// which is allowed when. The value is the [`receipt`](crate::fields::receipt), 0 in a burst.
    pub fn finish(&mut self, code: u8) -> Answer {
        self.step(Call::Finish { code })
    }

    /// A device requests an interrupt; the value is the entry in IBI.
    pub fn interrupt(&mut self, address: u8, byte: u8) -> Answer {
        self.step(Call::Interrupt { address, byte })
    }

    /// A device requests an address in an address assignment (ENTDAA); its two words go to SDI.
    pub fn request(&mut self, first: u32, second: u32) -> Answer {
        self.step(Call::Request { first, second })
    }

    /// The bus takes the address word from SDO; the value is the address. A wrong parity bit is
    /// answered [`Number::WRONG_PARITY`]: the word is gone, and the request is still open.
    pub fn take_address(&mut self) -> Answer {
        self.step(Call::TakeAddress)
    }

    /// A burst over the offload commands begins. OPS has its length and the mode.
    ///
    /// ```
    /// use thymewax::{registers, Model, SetUp};
    ///
    /// let mut model = Model::set_up(&SetUp::SESSION)?;
    /// model.write(registers::ENABLE, 0).done()?;
    /// model.write(registers::DEV_CHAR, 0x1102).done()?;
    /// // One command, a read of two bytes from device 8; length 1, offload mode.
    /// model.write(registers::OFFLOAD_CMD[0], 0x0000_0211).done()?;
    /// model.write(registers::OPS, 0b0000_0011).done()?;
    /// model.lend_output(1);
    /// model.trigger().done()?;
    /// model.receive(0x12).done()?;
    /// model.receive(0x34).done()?;
    /// model.finish(0).done()?;
    /// assert_eq!(model.output(), [0x1234_0000]);
    /// # Ok::<(), thymewax::Refusal>(())
    /// ```
    pub fn trigger(&mut self) -> Answer {
        self.step(Call::Trigger)
    }

    /// Makes the calls of a section of a trace, `limit` of them at most.
    ///
    /// It leaves what the calls leave one by one; each is lent an empty output. With a wrong trace
    /// ([`Number::WRONG_MARK`], [`Number::WRONG_TABLE`], [`Number::NO_SUCH_SECTION`]) no record is
    /// done; at a wrong record ([`Number::WRONG_RECORD`]) those before it are. A record that the
    /// model refuses does not stop the replay, so on what is kept of no well-formed bank each is
    /// answered [`Number::NOT_WELL_FORMED`].
    ///
    /// ```
    /// use thymewax::{registers, Model, Number, SetUp};
    ///
    /// // One section of two records: ENABLE is written 0, the bus starts.
    /// let mut file = b"I3TR\x01\x00\x0e\0\0\0\x02\0\0\0".to_vec();
    /// file.extend(b"W\0\x40\0\0\0\0\0\0\0\0\0");
    /// file.extend(b"S\0\0\0\0\0\0\0\0\0\0\0");
    ///
    /// let mut model = Model::set_up(&SetUp::SESSION)?;
    /// let replayed = model.replay(&file, 0, usize::MAX);
    /// assert_eq!(replayed.number, Number::DONE);
    /// assert_eq!(replayed.count, 2);
    /// assert_eq!(replayed.last.number, Number::NO_COMMAND);
    /// assert_eq!(model.read(registers::ENABLE).done()?, 0);
    /// # Ok::<(), thymewax::Refusal>(())
    /// ```
    pub fn replay(&mut self, file: &[u8], section: u32, limit: usize) -> Replayed {
        let mut told = [0; 3];
        let number = raw::replay(
            &mut self.kept.image,
            &mut self.kept.tables,
            &mut self.store,
            file,
            section,
            limit,
            &mut told,
        );
        let [count, value, last] = told;
        Replayed {
            number: Number::new(number),
            count: count as usize,
            last: Answer {
                value,
                number: Number::new(last),
            },
        }
    }
}
