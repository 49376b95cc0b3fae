//! Damaged images and tables. They are answered 21 exactly where they are not those of a well-formed bank by
//! `common/formed.rs`; a refusal leaves all memory as it was, and no call makes a bank that is not well
//! formed.

#[path = "common/formed.rs"]
mod formed;
#[path = "common/images.rs"]
mod images;
#[path = "common/lcg.rs"]
mod lcg;
#[path = "common/memory.rs"]
mod memory;
// Not all of the archive is called here.
#[allow(dead_code)]
#[path = "../src/raw.rs"]
mod raw;

use formed::well_formed;
use images::{good_images, WORDS};
use lcg::Lcg;
use memory::{number_of, Memory, Numbers, CALLS, READ_VERSION};
use thymewax::registers;

/// More that change a bank: a reset, a take from each queue, flags, a mode.
const CHANGES: [Numbers; 7] = [
    [b'W' as u32, registers::ENABLE as u32, 1, 0],
    [b'R' as u32, registers::CMDR_FIFO as u32, 0, 0],
    [b'R' as u32, registers::SDI_FIFO as u32, 0, 0],
    [b'R' as u32, registers::IBI_FIFO as u32, 0, 0],
    [b'W' as u32, registers::DEV_CHAR as u32, 0x110e, 0],
    [b'W' as u32, registers::OPS as u32, 3, 0],
    [b'F' as u32, 0, 8, 0],
];

/// The ways in which one word is changed.
fn changes(word: u32) -> Vec<u32> {
    let mut changed = vec![
        word.wrapping_add(1),
        word.wrapping_sub(1),
        word << 1,
        !word,
        u32::MAX,
        0,
        7,
        8,
        127,
        128,
        255,
        256,
        1024,
        1025,
        4095,
        4096,
    ];
    changed.extend((0..32).map(|bit| word ^ 1 << bit));
    changed.sort_unstable();
    changed.dedup();
    changed.retain(|other| *other != word);
    changed
}

/// What was had: images well formed, images not.
#[derive(Debug, Default)]
struct Had {
    formed: usize,
    damaged: usize,
}

impl Had {
    /// Holds the archive to the statement of the test, on one image.
    fn judge(&mut self, image: Vec<u32>) {
        let memory = Memory::around(image);
        if well_formed(&memory.row()) {
            self.formed += 1;
            self.accepted(&memory);
        } else {
            self.damaged += 1;
            for numbers in CALLS {
                memory.refuses(numbers, 21);
            }
            memory.replays_nothing();
        }
    }

    /// A read leaves all as it is; any call leaves a well-formed bank, and if refused all as it was.
    fn accepted(&self, memory: &Memory) {
        let mut after = memory.clone();
        assert_eq!(after.step(READ_VERSION), 0x100, "{:x?}", memory.image);
        assert!(after == *memory, "a read left a mark");
        for numbers in CALLS.into_iter().chain(CHANGES) {
            let mut after = memory.clone();
            let number = number_of(after.step(numbers));
            assert_ne!(number, 21);
            assert!(
                well_formed(&after.row()),
                "{numbers:x?}: {:x?}",
                after.image
            );
            if number != 0 && number != 19 {
                assert!(after == *memory, "{numbers:x?} left a mark");
            }
        }
        let mut short = memory.clone();
        short.store.pop();
        short.refuses(READ_VERSION, 22);
    }
}

#[test]
fn good_images_are_good() {
    for image in good_images() {
        assert!(well_formed(&image), "{image:x?}");
    }
}

#[test]
fn one_word_damaged() {
    let mut had = Had::default();
    for image in good_images() {
        for place in 0..WORDS {
            for word in changes(image[place]) {
                let mut damaged = image.to_vec();
                damaged[place] = word;
                had.judge(damaged);
            }
        }
    }
    println!("{had:?}");
    assert!(had.formed > 10_000 && had.damaged > 10_000);
}

/// Several words at once, among those that hang together: rings, control bits and the transfer.
#[test]
fn several_words_damaged() {
    const TRIES: usize = 200_000;
    let images = good_images();
    let mut lcg = Lcg::new(21);
    let mut had = Had::default();
    for _ in 0..TRIES {
        let mut damaged = lcg.pick(&images);
        for _ in 0..2 + lcg.below(3) {
            let place = match lcg.below(8) {
                0 => lcg.below(20),
                1 => 20 + lcg.below(6),
                2 => 171 + lcg.below(4),
                3 => lcg.below(WORDS as u32),
                _ => 26 + lcg.below(17),
            } as usize;
            damaged[place] = match lcg.below(6) {
                0 => damaged[place] ^ u32::from(lcg.one_in(2)),
                1 => lcg.word() << (8 * lcg.below(4)),
                2 => u32::from(lcg.byte()) << 8,
                _ => lcg.below(6),
            };
        }
        had.judge(damaged);
    }
    println!("{had:?}");
    assert!(had.formed > 1_000 && had.damaged > 10_000);
}
