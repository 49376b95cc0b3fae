//! The wrapper itself: each method makes its call, parts go in and come out, what is wrong is
//! answered, and a model can go to another thread.

use std::error::Error;
use std::thread;
use thymewax::{registers, Answer, Call, Kept, Model, Number, Queue, Refusal, SetUp, IMAGE_WORDS};

const fn sent_and_shared<T: Send + Sync>() {}
const _: () = sent_and_shared::<Model>();
const _: () = sent_and_shared::<Answer>();
const _: () = sent_and_shared::<Refusal>();

/// A released model with device 8 attached.
fn released() -> Model {
    let mut model = Model::set_up(&SetUp::SESSION).expect("a set-up in range");
    for (offset, value) in [(registers::ENABLE, 0), (registers::DEV_CHAR, 0x1102)] {
        assert_eq!(model.write(offset, value).done(), Ok(0));
    }
    model
}

/// Every call once, with arguments that tell the fields apart.
const CALLS: [Call; 10] = [
    Call::Write {
        offset: registers::CMD_FIFO,
        value: 0x0000_0310,
    },
    Call::Read {
        offset: registers::DEV_CHAR,
    },
    Call::Start,
    Call::Send,
    Call::Receive { byte: 0x5a },
    Call::Finish { code: 6 },
    Call::Interrupt {
        address: 8,
        byte: 0x5a,
    },
    Call::Request {
        first: 0x0123_4567,
        second: 0x89ab_cdef,
    },
    Call::TakeAddress,
    Call::Trigger,
];

/// The numbers of each, in the same order.
const NUMBERS: [(u8, u16, u32, u32); 10] = [
    (b'W', registers::CMD_FIFO, 0x0000_0310, 0),
    (b'R', registers::DEV_CHAR, 0, 0),
    (b'S', 0, 0, 0),
    (b'T', 0, 0, 0),
    (b'X', 0, 0x5a, 0),
    (b'F', 0, 6, 0),
    (b'I', 0, 8, 0x5a),
    (b'D', 0, 0x0123_4567, 0x89ab_cdef),
    (b'A', 0, 0, 0),
    (b'G', 0, 0, 0),
];

/// The method of a call.
fn by_method(model: &mut Model, call: Call) -> Answer {
    match call {
        Call::Write { offset, value } => model.write(offset, value),
        Call::Read { offset } => model.read(offset),
        Call::Start => model.start(),
        Call::Send => model.send(),
        Call::Receive { byte } => model.receive(byte),
        Call::Finish { code } => model.finish(code),
        Call::Interrupt { address, byte } => model.interrupt(address, byte),
        Call::Request { first, second } => model.request(first, second),
        Call::TakeAddress => model.take_address(),
        Call::Trigger => model.trigger(),
    }
}

/// States in which each call is done at least once.
fn states() -> Vec<Model> {
    let with = |writes: &[(u16, u32)]| {
        let mut model = released();
        model.lend_output(1);
        for (offset, value) in writes {
            assert!(model.write(*offset, *value).is_done());
        }
        model
    };
    let started = |mut model: Model| {
        assert!(model.start().is_done());
        model
    };
    let entdaa = [(registers::CMD_FIFO, 0x0040_0000), (registers::CMD_FIFO, 7)];
    let assigning = started(with(&entdaa));
    let mut requested = assigning.clone();
    assert!(requested.request(1, 2).is_done());
    assert!(requested.write(registers::SDO_FIFO, 0x1000_0000).is_done());
    vec![
        with(&[]),
        with(&[(registers::CMD_FIFO, 0x0000_0110)]),
        started(with(&[
            (registers::SDO_FIFO, 0x1122_3344),
            (registers::CMD_FIFO, 0x0000_0110),
        ])),
        started(with(&[(registers::CMD_FIFO, 0x0000_0111)])),
        with(&[(registers::IBI_CONFIG, 3), (registers::DEV_CHAR, 0x110e)]),
        assigning,
        requested,
        with(&[(registers::OFFLOAD_CMD[0], 0x111), (registers::OPS, 3)]),
    ]
}

#[test]
fn each_method_is_its_call() {
    for call in CALLS {
        let mut done = 0;
        for state in states() {
            let (mut one, mut other) = (state.clone(), state);
            let answer = by_method(&mut one, call);
            assert_eq!(answer, other.step(call), "{call:?}");
            assert_eq!(one, other, "{call:?}");
            done += usize::from(answer.is_done());
        }
        assert!(done > 0, "{call:?} was never done");
    }
}

#[test]
fn numbers_make_their_call() {
    for (call, (letter, offset, first, second)) in CALLS.into_iter().zip(NUMBERS) {
        for state in states() {
            let (mut one, mut other) = (state.clone(), state);
            let answer = one.step_numbers(letter, offset, first, second);
            assert_eq!(answer, other.step(call), "{call:?}");
            assert_eq!(one, other, "{call:?}");
        }
    }
}

#[test]
fn numbers_without_a_call_are_answered() {
    let others = (0..=u8::MAX).filter(|letter| NUMBERS.iter().all(|(used, ..)| used != letter));
    let letters = others.map(|letter| (letter, 0, 0, 0));
    let arguments = [
        (b'W', 0, 0, 1),
        (b'S', 1, 0, 0),
        (b'X', 0, 0x100, 0),
        (b'I', 0, 8, 0x100),
    ];
    for (letter, offset, first, second) in letters.chain(arguments) {
        let mut model = released();
        let answer = model.step_numbers(letter, offset, first, second);
        assert_eq!((answer.value, answer.number), (0, Number::WRONG_RECORD));
        assert_eq!(model, released());
    }
}

/// 01's session, from its lines.
#[test]
fn the_session_of_the_papers() {
    let mut model = released();
    assert!(model.write(registers::SDO_FIFO, 0xa5c3_0000).is_done());
    assert!(model.write(registers::CMD_FIFO, 0x0000_0210).is_done());
    assert_eq!(model.start().done().unwrap(), 0x0000_0210);
    assert_eq!(model.send().done().unwrap(), 0xa5);
    assert_eq!(model.send().done().unwrap(), 0xc3);
    assert_eq!(model.finish(0).done().unwrap(), 0x0000_0200);
    assert_eq!(
        model.read(registers::CMDR_FIFO).done().unwrap(),
        0x0000_0200
    );
    let empty = model.read(registers::CMDR_FIFO);
    assert_eq!((empty.value, empty.number), (0x0000_0200, Number::EMPTY));
}

/// Each of the three queues shows the word last read from it, as often as it is read empty; a reset
/// forgets them.
#[test]
fn an_empty_queue_shows_the_word_last_read() {
    let queues = [
        registers::CMDR_FIFO,
        registers::SDI_FIFO,
        registers::IBI_FIFO,
    ];
    let mut model = Model::set_up(&SetUp::SESSION).unwrap();
    let shown = |model: &mut Model, words: [u32; 3]| {
        for (offset, value) in queues.into_iter().zip(words) {
            let before = model.clone();
            for _ in 0..2 {
                let number = Number::EMPTY;
                assert_eq!(model.read(offset), Answer { value, number }, "{offset:#x}");
            }
            assert_eq!(*model, before);
        }
    };
    shown(&mut model, [0; 3]);
    for answer in [
        model.write(registers::ENABLE, 0),
        model.write(registers::DEV_CHAR, 0x110e),
        model.write(registers::IBI_CONFIG, 3),
        model.interrupt(8, 0x5a),
        model.write(registers::CMD_FIFO, 0x0000_0211),
        model.start(),
        model.receive(0x12),
        model.receive(0x34),
        model.finish(0),
    ] {
        assert!(answer.is_done(), "{answer}");
    }
    let words = queues.map(|offset| model.read(offset).done().unwrap());
    assert_eq!(words, [0x0000_0200, 0x1234_0000, 0x0010_5a00]);
    shown(&mut model, words);
    assert!(model.write(registers::ENABLE, 1).is_done());
    shown(&mut model, [0; 3]);
    assert!(model.write(registers::ENABLE, 0).is_done());
    shown(&mut model, [0; 3]);
}

/// A watermark moves its source at once; one above the capacity is dropped, and a reset leaves it.
#[test]
fn a_watermark_is_written() {
    let mut model = released();
    let source = |model: &mut Model| model.read(registers::IRQ_SOURCE).value & 1;
    let mark = |model: &mut Model| model.read(registers::CMD_WATERMARK).done();
    assert_eq!((mark(&mut model), source(&mut model)), (Ok(1), 1));
    assert_eq!(model.write(registers::CMD_WATERMARK, 0).done(), Ok(0));
    assert_eq!((mark(&mut model), source(&mut model)), (Ok(0), 0));
    let value = 0x0005_0000 | SetUp::SESSION.cmd.capacity;
    assert_eq!(model.write(registers::CMD_WATERMARK, value).done(), Ok(0));
    assert_eq!((mark(&mut model), source(&mut model)), (Ok(4), 1));
    let above = model.write(registers::CMD_WATERMARK, 5);
    assert_eq!(above.number, Number::WATERMARK_ABOVE_CAPACITY);
    assert_eq!(model.write(registers::ENABLE, 1).done(), Ok(0));
    assert_eq!(mark(&mut model), Ok(4));
}

#[test]
fn a_fresh_model_is_as_it_was_set_up() {
    let queue = |capacity, watermark| Queue {
        capacity,
        watermark,
    };
    let set_up = SetUp {
        cmd: queue(2, 1),
        cmdr: queue(3, 2),
        sdo: queue(5, 4),
        sdi: queue(7, 6),
        ibi: queue(11, 10),
        id: 0xc3,
    };
    let mut model = Model::set_up(&set_up).unwrap();
    assert_eq!(model.store().len(), 2 + 3 + 5 + 7 + 11);
    assert_eq!(model.output(), [0; 0]);
    let sizes = [2, 1, 0, 0, 3, 2, 0, 0, 5, 4, 0, 0, 7, 6, 0, 0, 11, 10, 0, 0];
    assert_eq!(model.kept().image[..20], sizes);
    for (offset, value) in [
        (registers::VERSION, 0x100),
        (registers::DEVICE_ID, 0xc3),
        (registers::ENABLE, 1),
        (registers::CMD_FIFO_ROOM, 2),
        (registers::SDO_FIFO_ROOM, 5),
    ] {
        assert_eq!(model.read(offset).done(), Ok(value), "{offset:#x}");
    }
}

#[test]
fn a_set_up_out_of_range_is_refused() {
    let wrong = |capacity, watermark| Queue {
        capacity,
        watermark,
    };
    for set_up in [
        SetUp {
            cmd: wrong(1, 0),
            ..SetUp::SESSION
        },
        SetUp {
            sdi: wrong(1, 0),
            ..SetUp::SESSION
        },
        SetUp {
            cmdr: wrong(0, 0),
            ..SetUp::SESSION
        },
        SetUp {
            sdo: wrong(1025, 0),
            ..SetUp::SESSION
        },
        SetUp {
            ibi: wrong(4, 5),
            ..SetUp::SESSION
        },
        SetUp {
            ibi: wrong(u32::MAX, u32::MAX),
            ..SetUp::SESSION
        },
        SetUp {
            id: 256,
            ..SetUp::SESSION
        },
    ] {
        let refusal = Model::set_up(&set_up).unwrap_err();
        assert_eq!(refusal.number(), Number::SET_UP_OUT_OF_RANGE, "{set_up:?}");
    }
}

#[test]
fn the_archive_is_of_this_version() {
    assert_eq!(thymewax::image_words(), IMAGE_WORDS);
}

/// Parts that were kept go on as the model does.
#[test]
fn a_snapshot_goes_on() {
    for state in states() {
        let image = state.kept().clone();
        let (store, output) = (state.store().to_vec(), state.output().to_vec());
        let mut kept = Model::from_parts(image, store, output);
        let mut model = state;
        assert_eq!(kept, model);
        let (image, store, output) = kept.into_parts();
        kept = Model::from_parts(image, store, output);
        assert_eq!(kept, model);
        for call in CALLS {
            assert_eq!(kept.step(call), model.step(call));
        }
        assert_eq!(kept, model);
    }
}

/// A trace of one record: ENABLE is written 0.
fn one_record() -> Vec<u8> {
    let mut file = b"I3TR\x01\x00\x0e\0\0\0\x01\0\0\0".to_vec();
    file.extend(b"W\0\x40\0\0\0\0\0\0\0\0\0");
    file
}

#[test]
fn parts_that_no_model_has_are_answered() {
    for word in [0, u32::MAX] {
        let mut damaged = Kept::NONE;
        damaged.image = [word; IMAGE_WORDS];
        let mut model = Model::from_parts(damaged, vec![7; 20], vec![7]);
        let before = model.clone();
        for call in CALLS {
            let answer = model.step(call);
            assert_eq!((answer.value, answer.number), (0, Number::NOT_WELL_FORMED));
        }
        let replayed = model.replay(&one_record(), 0, usize::MAX);
        assert_eq!(replayed.number, Number::DONE);
        assert_eq!(
            (replayed.count, replayed.last.number),
            (1, Number::NOT_WELL_FORMED)
        );
        assert_eq!(model, before);
    }
}

#[test]
fn a_store_of_another_length_is_answered() {
    let good = released();
    for words in [0, 1, 19, 21, 5120] {
        let mut model = Model::from_parts(good.kept().clone(), vec![7; words], vec![]);
        let before = model.clone();
        for call in CALLS {
            let answer = model.step(call);
            assert_eq!((answer.value, answer.number), (0, Number::STORE_LENGTH));
        }
        // The record is answered so, and the replay goes to its end.
        let replayed = model.replay(&one_record(), 0, usize::MAX);
        assert_eq!(replayed.number, Number::DONE);
        assert_eq!(
            (replayed.count, replayed.last.number),
            (1, Number::STORE_LENGTH)
        );
        assert_eq!(model, before);
    }
}

#[test]
fn an_output_can_grow_and_shrink() {
    let mut model = released();
    for (offset, value) in [
        (registers::OFFLOAD_CMD[0], 0x0000_0111),
        (registers::OFFLOAD_CMD[1], 0x0000_0411),
        (registers::OPS, 0b101),
    ] {
        assert!(model.write(offset, value).is_done());
    }
    model.lend_output(1);
    assert_eq!(model.trigger().number, Number::NO_ROOM);
    model.lend_output(3);
    assert!(model.trigger().is_done());
    assert!(model.receive(0xab).is_done());
    assert!(model.finish(0).is_done());
    assert_eq!(model.output(), [0xab00_0000, 0, 0]);
    // In the open burst too, the output must have a word for each read.
    model.lend_output(1);
    assert_eq!(model.receive(1).number, Number::NO_ROOM);
    model.lend_output(2);
    for byte in 1..=4 {
        assert!(model.receive(byte).is_done());
    }
    assert_eq!(
        model.finish(0),
        Answer {
            value: 0,
            number: Number::DONE
        }
    );
    assert_eq!(model.output(), [0xab00_0000, 0x0102_0304]);
    assert_eq!(model.receive(1).number, Number::NO_TRANSFER);
}

#[test]
fn a_replay_stops_at_its_limit() {
    let fresh = Model::set_up(&SetUp::SESSION).unwrap();
    let mut model = fresh.clone();
    let none = model.replay(&one_record(), 0, 0);
    assert_eq!((none.number, none.count), (Number::DONE, 0));
    assert_eq!(model, fresh);
    let one = model.replay(&one_record(), 0, 1);
    assert_eq!((one.number, one.count), (Number::DONE, 1));
    assert_eq!(model.read(registers::ENABLE).done(), Ok(0));
    for (file, section, number) in [
        (&b""[..], 0, Number::WRONG_MARK),
        (b"I3TX", 0, Number::WRONG_MARK),
        (b"I3TR", 0, Number::WRONG_TABLE),
        (&one_record(), 1, Number::NO_SUCH_SECTION),
        (&one_record(), u32::MAX, Number::NO_SUCH_SECTION),
    ] {
        let refused = model.replay(file, section, 1);
        assert_eq!((refused.number, refused.count), (number, 0));
        assert_eq!((refused.last.value, refused.last.number), (0, Number::DONE));
        assert_eq!(
            thymewax::section(file, section).unwrap_err().number(),
            number
        );
    }
}

#[test]
fn a_section_is_a_part_of_the_file() {
    let file = one_record();
    let section = thymewax::section(&file, 0).unwrap();
    assert_eq!(section.as_ptr_range(), file[14..].as_ptr_range());
    assert_eq!(thymewax::sections(&file).unwrap(), [section]);
    assert_eq!(
        thymewax::sections(b"").unwrap_err().number(),
        Number::WRONG_MARK
    );
}

#[test]
fn answers_speak() {
    let mut model = released();
    let answer = model.start();
    let text = "9: no whole command waits";
    assert_eq!(answer.to_string(), format!("00000000, {text}"));
    let refusal: Box<dyn Error> = answer.done().unwrap_err().into();
    assert_eq!(refusal.to_string(), text);
}

/// A burst of calls that ends in another state for each worker.
fn work(mut model: Model, worker: u32) -> Model {
    for round in 0..2_000 {
        let _ = model.write(registers::SCRATCH, worker << 16 | round);
        let _ = model.write(registers::CMD_FIFO, 0x0000_0011 | (worker % 4) << 8);
        for call in CALLS {
            let _ = model.step(call);
        }
        let _ = model.finish(0);
        let _ = model.read(registers::CMDR_FIFO);
    }
    model
}

/// The archive keeps nothing between calls: models on threads do not meet.
#[test]
fn models_work_side_by_side() {
    let alone: Vec<Model> = (0..8).map(|worker| work(released(), worker)).collect();
    let threads: Vec<_> = (0..8)
        .map(|worker| thread::spawn(move || work(released(), worker)))
        .collect();
    let together: Vec<Model> = threads
        .into_iter()
        .map(|thread| thread.join().unwrap())
        .collect();
    assert_eq!(together, alone);
}
