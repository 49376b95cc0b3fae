//! Slices of wrong lengths, empty ones too, and numbers that name no call: each is answered in the
//! order of the tests, and a refusal leaves all memory as it was.

#[path = "common/images.rs"]
mod images;
#[path = "common/memory.rs"]
mod memory;
#[path = "../src/raw.rs"]
mod raw;

use images::{after, good_images, row, write};
use memory::{number_of, one_record, Memory, Numbers, CALLS, FILL};
use raw::Tables;
use thymewax::{registers, Model, Number, SetUp, IMAGE_WORDS, VERSION};

#[test]
fn images_of_other_lengths() {
    let good = Memory::around(row(after(&[]).kept()));
    // Version 1 had images of 40 words.
    for words in [0, 1, 40, 42, 44, 203] {
        let mut memory = good.clone();
        memory.image.resize(words, 0);
        for numbers in CALLS {
            memory.refuses(numbers, 21);
        }
        // A call that does not exist is 21 too: the image goes first.
        memory.refuses([0; 4], 21);
        memory.replays_nothing();
        let mut after = memory.clone();
        for capacity in [4, 0] {
            let (image, tables) = (&mut after.image, &mut after.tables);
            let number = raw::set_up(image, tables, [capacity; 5], [0; 5], 0);
            assert_eq!(number, 21);
        }
        assert!(after == memory, "{words} words: a mark was left");
    }
    assert_eq!(raw::image_words(), IMAGE_WORDS);
    assert_eq!(raw::version(), VERSION);
}

#[test]
fn a_refused_set_up_leaves_image_and_tables() {
    let fresh = Model::set_up(&SetUp::SESSION).expect("a set-up in range");
    let filled = Tables {
        flags: [0xde; 128],
        commands: [FILL; 16],
        payloads: [FILL; 16],
    };
    for queue in 0..5 {
        for wrong in [0, 1025, u32::MAX] {
            let (mut image, mut tables) = ([FILL; IMAGE_WORDS], filled.clone());
            let mut set_up = |capacities, marks, id| {
                let number = raw::set_up(&mut image, &mut tables, capacities, marks, id);
                (number, image, tables.clone())
            };
            let stays = (23, [FILL; IMAGE_WORDS], filled.clone());
            let mut capacities = [4; 5];
            capacities[queue] = wrong;
            assert!(set_up(capacities, [0; 5], 0) == stays);
            let mut marks = [0; 5];
            marks[queue] = 5;
            assert!(set_up([4; 5], marks, 0) == stays);
            assert!(set_up([4; 5], [0; 5], 256) == stays);
            // One in range writes all of it, whatever was there.
            let done = (0, fresh.kept().image, Tables::CLEAR);
            assert!(set_up([4; 5], [1, 3, 1, 3, 3], 0) == done);
        }
    }
}

#[test]
fn stores_and_outputs_of_other_lengths() {
    for image in good_images() {
        let memory = Memory::around(image);
        for words in [0, 1, 14, 16, 5120] {
            let mut other = memory.clone();
            other.store.resize(words, FILL);
            for numbers in CALLS {
                other.refuses(numbers, 22);
            }
        }
        // Any output will do for any call; a burst's reads need words, else it is 13.
        for words in [0, 1, 2, 1000] {
            for numbers in CALLS {
                let mut other = memory.clone();
                other.output.resize(words, FILL);
                let before = other.clone();
                let number = number_of(other.step(numbers));
                assert!(number != 21 && number != 22 && number != 27);
                if number != 0 && number != 19 {
                    assert!(other == before, "{numbers:x?} left a mark");
                }
            }
        }
    }
}

/// Letters that are none, fields without use that are not 0, arguments above their bits.
#[test]
fn numbers_that_name_no_call() {
    let memory = Memory::around(row(after(&[write(registers::ENABLE, 0)]).kept()));
    let mut short = memory.clone();
    short.store.pop();
    let wrong = |numbers: Numbers| {
        memory.refuses(numbers, 27);
        // Before the store is looked at.
        short.refuses(numbers, 27);
    };
    let letters = CALLS.map(|[letter, ..]| letter);
    for letter in (0..512).chain([u32::MAX, 1 << 31, b'W' as u32 | 0x100]) {
        if !letters.contains(&letter) {
            wrong([letter, 0, 0, 0]);
        }
    }
    for [letter, offset, first, second] in CALLS {
        let name = letter as u8 as char;
        for more in [1, 0x100, 0x1_0000, 1 << 31, u32::MAX] {
            match name {
                'W' | 'R' => wrong([letter, 0x1_0000 | offset, first, second]),
                _ => wrong([letter, more, first, second]),
            }
            match name {
                'W' | 'D' => {}
                'X' | 'F' | 'I' => wrong([letter, offset, more | 0x100, second]),
                _ => wrong([letter, offset, more, second]),
            }
            match name {
                'D' => {}
                'I' => wrong([letter, offset, first, more | 0x100]),
                _ => wrong([letter, offset, first, more]),
            }
        }
    }
    // The last arguments that are right: answered 18 or 4 by the model itself.
    memory.refuses([b'F' as u32, 0, 255, 0], 18);
    memory.refuses([b'I' as u32, 0, 255, 255], 18);
    memory.refuses([b'W' as u32, 0xffff, u32::MAX, 0], 4);
}

/// `told` and `place` take as many words as they have, and none past those that are named. A refusal
/// writes none of them.
#[test]
fn words_for_results_of_any_length() {
    let file = one_record();
    let fresh = Memory::around(row(after(&[]).kept()));
    for words in 0..6 {
        let mut memory = fresh.clone();
        let mut told = vec![FILL; words];
        let number = memory.replay(&file, 0, &mut told);
        let named = [1, 0, 0].into_iter().chain([FILL; 3]);
        assert_eq!(number, 0);
        assert!(told.into_iter().eq(named.take(words)));
        assert_eq!(
            memory.step([b'R' as u32, registers::SCRATCH.into(), 0, 0]),
            0x55
        );

        for file in [&b""[..], b"I3TR", &file] {
            let before = memory.clone();
            let mut told = vec![FILL; words];
            let number = memory.replay(file, 1, &mut told);
            assert!((24..27).contains(&number));
            assert!(memory == before && told == vec![FILL; words]);
        }
        for (section, number, place) in [(0, 0, [14, 12]), (1, 26, [FILL, FILL])] {
            let mut told = vec![FILL; words];
            assert_eq!(raw::section(&file, section, &mut told), number);
            let named = place.into_iter().chain([FILL; 4]);
            assert!(told.into_iter().eq(named.take(words)));
        }
    }
    assert_eq!(raw::section(&[], 0, &mut []), Number::WRONG_MARK.get());
}
