//! What is kept of good banks, to be damaged.

use crate::memory::FILL;
use thymewax::{registers, Call, Kept, Model, Queue, SetUp};

/// Words of image and tables together: a flag has one of its own here.
pub const WORDS: usize = 203;

/// Image, flags, commands and payloads in one row.
pub fn row(kept: &Kept) -> Vec<u32> {
    let mut words = kept.image.to_vec();
    words.extend(kept.tables.flags.map(u32::from));
    words.extend(kept.tables.commands);
    words.extend(kept.tables.payloads);
    assert_eq!(words.len(), WORDS);
    words
}

/// A model after these calls, all of which must be done.
pub fn after(calls: &[Call]) -> Model {
    let queue = |capacity| Queue {
        capacity,
        watermark: 1,
    };
    let mut model = Model::set_up(&SetUp {
        cmd: queue(3),
        cmdr: queue(2),
        sdo: queue(4),
        sdi: queue(5),
        ibi: queue(1),
        id: 0xa5,
    })
    .expect("a set-up in range");
    model.lend_output(16);
    for call in calls {
        let answer = model.step(*call);
        assert!(answer.is_done(), "{call:?}: {answer}");
    }
    model
}

pub fn write(offset: u16, value: u32) -> Call {
    Call::Write { offset, value }
}

/// Good images of many kinds: each phase, each kind of transfer, attached or not, queues whose heads
/// have moved, bursts at a write and at a read.
pub fn good_images() -> Vec<Vec<u32>> {
    use registers::*;
    let (send, receive) = (Call::Send, Call::Receive { byte: 0x5a });
    let (start, finish) = (Call::Start, Call::Finish { code: 0 });
    let request = Call::Request {
        first: FILL,
        second: FILL,
    };
    let release = write(ENABLE, 0);
    let attach = write(DEV_CHAR, 0x110e);
    let payload = write(SDO_FIFO, 0x1122_3344);
    let entdaa = [write(CMD_FIFO, 0x0040_0000), write(CMD_FIFO, 7), start];
    let broadcast = |first| [write(CMD_FIFO, first), write(CMD_FIFO, 0x01), start];
    let direct = |first| [write(CMD_FIFO, first), write(CMD_FIFO, 0x81), start];
    let burst = [
        write(OFFLOAD_CMD[0], 0x0000_0310),
        write(OFFLOAD_CMD[1], 0x0020_0411),
        write(OFFLOAD_CMD[2], 0x0000_0012),
        write(OFFLOAD_SDO[0], FILL),
        write(OPS, 0b0100111),
        Call::Trigger,
    ];
    let to_read = [&burst[..], &[send, send, send, finish]].concat();
    let moves: Vec<Vec<Call>> = vec![
        vec![],
        vec![
            write(SCRATCH, FILL),
            write(IRQ_MASK, 0xa5),
            write(IBI_CONFIG, 3),
        ],
        // Each queue has had a word more than now, so that heads have moved.
        vec![
            payload,
            payload,
            write(CMD_FIFO, 0x0000_0410),
            start,
            send,
            send,
            send,
            send,
            finish,
            Call::Read { offset: CMDR_FIFO },
            write(IBI_CONFIG, 3),
            Call::Interrupt {
                address: 8,
                byte: 1,
            },
            write(CMD_FIFO, 0x0000_0811),
            write(CMD_FIFO, 0x0000_0811),
        ],
        vec![payload, write(CMD_FIFO, 0x0020_0510), start],
        vec![payload, write(CMD_FIFO, 0x0000_0510), start, send],
        vec![
            payload,
            write(CMD_FIFO, 0x0000_0410),
            start,
            send,
            send,
            send,
        ],
        vec![
            payload,
            write(CMD_FIFO, 0x0000_0410),
            start,
            send,
            send,
            send,
            send,
        ],
        vec![write(CMD_FIFO, 0x0000_0611), start, receive],
        [&[write(CMD_FIFO, 0x0000_0611), start][..], &[receive; 6]].concat(),
        [&[write(CMD_FIFO, 0x0000_0711), start][..], &[receive; 7]].concat(),
        // Device 9 is not attached.
        vec![write(CMD_FIFO, 0x0000_0512), start],
        vec![write(CMD_FIFO, 0x0000_0513), start],
        [&direct(0x0040_0312)[..], &[]].concat(),
        [&direct(0x0040_0311)[..], &[receive; 3]].concat(),
        [&broadcast(0x0040_0313)[..], &[receive; 2]].concat(),
        [&[payload][..], &broadcast(0x0040_0312), &[send]].concat(),
        entdaa.to_vec(),
        [&entdaa[..], &[request]].concat(),
        [
            &entdaa[..],
            &[request, write(SDO_FIFO, 0x1000_0000), Call::TakeAddress],
        ]
        .concat(),
        burst.to_vec(),
        [&burst[..], &[send, send]].concat(),
        to_read.clone(),
        [&to_read[..], &[receive]].concat(),
        [&to_read[..], &[receive; 4]].concat(),
        [&to_read[..], &[receive; 4], &[finish]].concat(),
    ];
    let mut images: Vec<_> = moves
        .iter()
        .map(|calls| row(after(&[&[release, attach], &calls[..]].concat()).kept()))
        .collect();
    images.push(row(after(&[]).kept()));
    images.push(row(after(&[
        attach,
        write(IRQ_MASK, 0xff),
        write(OPS, 0x7f),
    ])
    .kept()));
    images
}
