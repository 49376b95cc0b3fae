//! The archive and the second program's engine side by side: every call goes to both.

use reference::engine::{self, Bank, SetupNumbers};
use thymewax::{registers, Answer, Call, Model, Number, Queue, Refusal, SetUp};

/// The registers whose read changes nothing, but for the offload memories.
const QUIET: [u16; 23] = [
    registers::VERSION,
    registers::DEVICE_ID,
    registers::SCRATCH,
    registers::ENABLE,
    registers::IRQ_MASK,
    registers::IRQ_PENDING,
    registers::IRQ_SOURCE,
    registers::CMD_FIFO_ROOM,
    registers::CMDR_FIFO_LEVEL,
    registers::SDO_FIFO_ROOM,
    registers::SDI_FIFO_LEVEL,
    registers::IBI_FIFO_LEVEL,
    registers::CMD_FIFO,
    registers::SDO_FIFO,
    registers::FIFO_STATUS,
    registers::OPS,
    registers::IBI_CONFIG,
    registers::DEV_CHAR,
    registers::CMD_WATERMARK,
    registers::CMDR_WATERMARK,
    registers::SDO_WATERMARK,
    registers::SDI_WATERMARK,
    registers::IBI_WATERMARK,
];

#[derive(Clone)]
pub struct Pair {
    pub model: Model,
    pub bank: Bank,
    /// What the second program is lent.
    output: Vec<u32>,
}

fn queues(set_up: &SetUp) -> [Queue; 5] {
    [set_up.cmd, set_up.cmdr, set_up.sdo, set_up.sdi, set_up.ibi]
}

/// The same call, in the second program's type.
fn translated(call: Call) -> engine::Call {
    match call {
        Call::Write { offset, value } => engine::Call::Write { offset, value },
        Call::Read { offset } => engine::Call::Read { offset },
        Call::Start => engine::Call::Start,
        Call::Send => engine::Call::Send,
        Call::Receive { byte } => engine::Call::Receive { byte },
        Call::Finish { code } => engine::Call::Finish { code },
        Call::Interrupt { address, byte } => engine::Call::InterruptRequest { address, byte },
        Call::Request { first, second } => engine::Call::AddressRequest { first, second },
        Call::TakeAddress => engine::Call::AddressTake,
        Call::Trigger => engine::Call::Trigger,
    }
}

/// Value and number, to compare.
pub fn told(answer: Answer) -> (u32, u32) {
    (answer.value, answer.number.get())
}

pub fn told_by_bank(answer: engine::Answer) -> (u32, u32) {
    (answer.value, answer.number.into())
}

impl Pair {
    /// Both sides set up; refused only if both are, with one number.
    pub fn set_up(set_up: &SetUp) -> Result<Pair, Refusal> {
        let (bank, answer) = engine::set_up(&SetupNumbers {
            capacities: queues(set_up).map(|queue| queue.capacity),
            watermarks: queues(set_up).map(|queue| queue.watermark),
            id: set_up.id,
        });
        let made = Model::set_up(set_up);
        let number = made.as_ref().err().map_or(0, |no| no.number().get());
        assert_eq!(number, u32::from(answer.number), "{set_up:?}");
        made.map(|model| Pair {
            model,
            bank,
            output: Vec::new(),
        })
    }

    pub fn lend(&mut self, words: usize) {
        self.model.lend_output(words);
        self.output.resize(words, 0);
    }

    /// The call on both sides: the same answer and output, and a refusal changes nothing.
    pub fn call(&mut self, call: Call) -> Answer {
        let before = self.model.clone();
        let answer = self.model.step(call);
        let expected = self.bank.call(&translated(call), &mut self.output);
        assert_eq!(told(answer), told_by_bank(expected), "{call:?}");
        assert_eq!(self.model.output(), self.output, "{call:?}");
        if answer.number != Number::DONE && answer.number != Number::WRONG_PARITY {
            assert!(self.model == before, "{call:?} was refused and left a mark");
        }
        answer
    }

    /// What a register shows whose read changes nothing, the same on both sides.
    pub fn shown(&mut self, offset: u16) -> u32 {
        let call = Call::Read { offset };
        let answer = self.model.step(call);
        let expected = self.bank.call(&translated(call), &mut self.output);
        assert_eq!(told(answer), told_by_bank(expected), "{call:?}");
        answer.value
    }

    /// All registers whose read changes nothing.
    pub fn compare(&mut self) {
        let before = self.model.kept().clone();
        let offload = registers::OFFLOAD_CMD
            .into_iter()
            .chain(registers::OFFLOAD_SDO);
        for offset in QUIET.into_iter().chain(offload) {
            self.shown(offset);
        }
        assert!(*self.model.kept() == before, "a quiet read left a mark");
    }

    /// The words that wait for the driver, queue by queue.
    pub fn drain(&mut self) {
        for offset in [
            registers::CMDR_FIFO,
            registers::SDI_FIFO,
            registers::IBI_FIFO,
        ] {
            while self.call(Call::Read { offset }).is_done() {}
        }
        self.compare();
    }

    pub fn held(&mut self) -> bool {
        self.shown(registers::ENABLE) == 1
    }

    /// A transfer is open.
    pub fn open(&mut self) -> bool {
        self.shown(registers::OPS) >> 7 == 0
    }
}
