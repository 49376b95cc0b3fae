//! Tests of the statement, clause by clause: numbers that keep it and numbers that break
//! it. A clause is tried alone, so that no other one answers for it; then the whole.

use super::*;

type Image = [u32; IMAGE_WORDS];

// Places of the numbers in an image; a queue has four, from four times its own number.
const CAPACITY: usize = 0;
const WATERMARK: usize = 1;
const HEAD: usize = 2;
const LEVEL: usize = 3;
const ID: usize = 20;
const SCRATCH: usize = 21;
const IRQ_MASK: usize = 22;
const OPS: usize = 23;
const IBI_CONFIG: usize = 24;
const SELECTED: usize = 25;
const ENABLE: usize = 26;
const RECEIPT_SYNC: usize = 27;
const INTERRUPT_SYNC: usize = 28;
const PENDING: usize = 29;
const BURST: usize = 32;
const PHASE: usize = 33;
const KIND: usize = 34;
const HEADER: usize = 35;
const LENGTH: usize = 36;
const MOVED: usize = 37;
const ATTACHED: usize = 38;
const PART: usize = 39;
const DEVICES: usize = 40;
const COMMANDS: usize = 168;
const DATA: usize = 184;
const LAST_READ: usize = 200;

const DIRECT_CCC: u32 = 1;
const ENTDAA: [u32; 3] = [3, 4, 5];

fn with(mut image: Image, numbers: &[(usize, u32)]) -> Image {
    for (place, number) in numbers {
        image[*place] = *number;
    }
    image
}

/// Queues of 4 words, as a session has them, after a release.
fn released() -> Image {
    let mut image = [0; IMAGE_WORDS];
    for (queue, watermark) in [1, 3, 1, 3, 3].into_iter().enumerate() {
        image[4 * queue + CAPACITY] = 4;
        image[4 * queue + WATERMARK] = watermark;
    }
    image
}

fn in_reset() -> Image {
    with(released(), &[(ENABLE, 1)])
}

/// An open transfer to an attached device, outside a burst.
fn open(phase: u32, length: u32, moved: u32, part: u32) -> Image {
    let numbers = [
        (PHASE, phase),
        (LENGTH, length),
        (MOVED, moved),
        (ATTACHED, 1),
        (PART, part),
    ];
    with(released(), &numbers)
}

fn entdaa(phase: u32) -> Image {
    with(open(phase, 0, 0, 0), &[(KIND, BROADCAST_CCC)])
}

/// A write of 3 bytes and a read of 4, with the header bit; the first is open.
fn in_burst() -> Image {
    let burst = [
        (OPS, 0b101),
        (BURST, 1),
        (COMMANDS, 0x0000_0310),
        (COMMANDS + 1, 0x0020_0411),
    ];
    with(open(WRITE, 3, 0, 0), &burst)
}

/// The same burst at its read, with some bytes there.
fn in_burst_read(moved: u32, part: u32) -> Image {
    let place = [
        (BURST, 2),
        (PHASE, READ),
        (HEADER, 1),
        (LENGTH, 4),
        (MOVED, moved),
        (PART, part),
    ];
    with(in_burst(), &place)
}

/// Asserts that the clause alone holds, and the whole.
#[track_caller]
fn assert_kept(clause: fn(&Bank) -> bool, image: &Image) {
    assert!(clause(&Bank::of_image(image)));
    assert!(well_formed(image));
}

/// Asserts that the clause alone is broken, and the whole.
#[track_caller]
fn assert_broken(clause: fn(&Bank) -> bool, image: &Image) {
    assert!(!clause(&Bank::of_image(image)));
    assert!(!well_formed(image));
}

/// The number is kept up to its bound, and broken by all above it that have one bit
/// more, or all bits.
#[track_caller]
fn assert_most(clause: fn(&Bank) -> bool, image: &Image, place: usize, most: u32) {
    for number in [0, most] {
        assert_kept(clause, &with(*image, &[(place, number)]));
    }
    assert_broken(clause, &with(*image, &[(place, most + 1)]));
    assert_broken(clause, &with(*image, &[(place, u32::MAX)]));
    for bit in (0..32).filter(|bit| 1 << bit > most) {
        assert_broken(clause, &with(*image, &[(place, 1 << bit)]));
    }
}

#[test]
fn sound_images() {
    let mut images = vec![
        released(),
        in_reset(),
        open(WRITE, 4095, 1, 0x0102_0300),
        open(READ, 4095, 4094, 0x0102_0000),
        in_burst(),
        in_burst_read(4, 0x0102_0304),
    ];
    images.extend(ENTDAA.map(entdaa));
    for image in images {
        assert!(well_formed(&image));
        assert!(!well_formed(&image[1..]));
        assert!(!well_formed(&[&image[..], &[0]].concat()));
    }
    assert!(!well_formed(&[]));
    // What a refused set-up gives.
    assert!(!well_formed(&[0; IMAGE_WORDS]));
}

#[test]
fn numbers_of_the_set_up() {
    let clause = set_up_in_range;
    for (queue, least) in [2, 1, 1, 2, 1].into_iter().enumerate() {
        let numbers = |capacity: u32, watermark: u32| {
            let place = 4 * queue;
            let numbers = [(place + CAPACITY, capacity), (place + WATERMARK, watermark)];
            with(released(), &numbers)
        };
        for capacity in [least, 3, 1024] {
            assert_kept(clause, &numbers(capacity, 0));
            assert_kept(clause, &numbers(capacity, capacity));
            assert_broken(clause, &numbers(capacity, capacity + 1));
            assert_broken(clause, &numbers(capacity, u32::MAX));
        }
        for capacity in [0, least - 1, 1025, 2048, u32::MAX] {
            assert_broken(clause, &numbers(capacity, 0));
        }
    }
    assert_most(clause, &released(), ID, 255);
}

#[test]
fn heads_and_levels() {
    let clause = rings_within_capacity;
    for place in (0..20).step_by(4) {
        assert_most(clause, &released(), place + HEAD, 3);
        assert_most(clause, &released(), place + LEVEL, 4);
        // The capacity of the queue itself is the bound.
        let larger = with(released(), &[(place + CAPACITY, 5)]);
        assert_most(clause, &larger, place + HEAD, 4);
        assert_most(clause, &larger, place + LEVEL, 5);
    }
}

#[test]
fn bits_of_fields() {
    let clause = fields_within_bits;
    for (place, bits) in [
        (IRQ_MASK, 8),
        (OPS, 7),
        (IBI_CONFIG, 2),
        (SELECTED, 7),
        (ENABLE, 1),
        (RECEIPT_SYNC, 8),
        (INTERRUPT_SYNC, 8),
        (PENDING, 1),
        (PENDING + 1, 1),
        (PENDING + 2, 1),
    ] {
        assert_most(clause, &released(), place, (1 << bits) - 1);
    }
    for place in DEVICES..COMMANDS {
        assert_most(clause, &released(), place, 7);
    }
    let transfer = open(READ, 0, 0, 0);
    assert_most(clause, &transfer, KIND, BROADCAST_CCC);
    assert_most(clause, &transfer, HEADER, 1);
    assert_most(clause, &transfer, LENGTH, 0xfff);
    assert_most(clause, &transfer, ATTACHED, 1);
    assert_broken(clause, &with(entdaa(5), &[(PHASE, 6)]));
    assert_broken(clause, &with(entdaa(5), &[(PHASE, u32::MAX)]));
}

#[test]
fn words_of_any_number() {
    for image in [released(), in_reset(), in_burst()] {
        for number in [1, 0x8000_0000, u32::MAX] {
            assert!(well_formed(&with(image, &[(SCRATCH, number)])));
            for place in DATA..LAST_READ {
                assert!(well_formed(&with(image, &[(place, number)])));
            }
            // Offload commands that no burst has; the last one is in none.
            for place in COMMANDS + 2..DATA {
                assert!(well_formed(&with(image, &[(place, number)])));
            }
        }
    }
}

#[test]
fn one_transfer_or_none() {
    let clause = one_transfer_at_most;
    assert_kept(clause, &released());
    for place in KIND..=PART {
        assert_broken(clause, &with(released(), &[(place, 1)]));
    }
    for phase in [WRITE, READ].into_iter().chain(ENTDAA) {
        for kind in [PRIVATE, DIRECT_CCC, BROADCAST_CCC] {
            assert_kept(clause, &with(open(phase, 0, 0, 0), &[(KIND, kind)]));
        }
    }
    for phase in ENTDAA {
        assert_kept(clause, &with(entdaa(phase), &[(HEADER, 1)]));
    }
}

#[test]
fn moved_and_length() {
    let clause = moved_within_length;
    for phase in [WRITE, READ] {
        for length in [0, 4, 8, 4092] {
            assert_kept(clause, &open(phase, length, length, 0));
            assert_broken(clause, &open(phase, length, length + 1, 0));
            assert_broken(clause, &open(phase, length, u32::MAX, 0));
        }
        // Any length will do for a device that was not attached, but nothing moves.
        for (kind, length) in [(PRIVATE, 0), (PRIVATE, 4), (DIRECT_CCC, 4095)] {
            let note = [(KIND, kind), (ATTACHED, 0)];
            let unattached = with(open(phase, length, 0, 0), &note);
            assert_kept(clause, &unattached);
            assert_broken(clause, &with(unattached, &[(MOVED, 4)]));
        }
    }
    for phase in ENTDAA {
        for length in [0, 4, 4095] {
            let entdaa = with(entdaa(phase), &[(LENGTH, length)]);
            assert_kept(clause, &entdaa);
            assert_broken(clause, &with(entdaa, &[(MOVED, 4)]));
        }
    }
}

/// A broadcast CCC has no device, so nothing is asked of the note on one.
#[test]
fn a_broadcast_without_a_device() {
    let clause = moved_within_length;
    for phase in [WRITE, READ] {
        for attached in [0, 1] {
            let note = [(KIND, BROADCAST_CCC), (ATTACHED, attached)];
            assert_kept(clause, &with(open(phase, 8, 0, 0), &note));
            assert_kept(clause, &with(open(phase, 8, 8, 0), &note));
            assert_broken(clause, &with(open(phase, 8, 12, 0), &note));
        }
    }
}

/// Words whose last byte that is not 0 is the first, second, third, fourth.
const PARTS: [u32; 4] = [0x0100_0000, 0x8001_0000, 0x0000_ff00, 0x0101_0101];

#[test]
fn bytes_gathered_or_left() {
    let clause = part_word_by_count;
    for moved in 0..12 {
        let gathered = moved as usize % 4;
        let left = (4 - gathered) % 4;
        for (phase, bytes) in [(READ, gathered), (WRITE, left)] {
            // At the length, and before it: both have the same bytes.
            for length in [moved, 4095] {
                assert_kept(clause, &open(phase, length, moved, 0));
                for part in &PARTS[..bytes] {
                    assert_kept(clause, &open(phase, length, moved, *part));
                }
                for part in &PARTS[bytes..] {
                    assert_broken(clause, &open(phase, length, moved, *part));
                }
            }
        }
    }
    for phase in ENTDAA {
        for part in PARTS {
            assert_broken(clause, &with(entdaa(phase), &[(PART, part)]));
        }
    }
}

#[test]
fn clear_in_reset() {
    let clause = all_clear_in_reset;
    assert_kept(clause, &in_reset());
    let heads_and_levels = (0..20).filter(|place| place % 4 == HEAD || place % 4 == LEVEL);
    for place in heads_and_levels.chain([
        RECEIPT_SYNC,
        INTERRUPT_SYNC,
        PENDING,
        PENDING + 1,
        PENDING + 2,
    ]) {
        assert_kept(clause, &with(released(), &[(place, 1)]));
        assert_broken(clause, &with(in_reset(), &[(place, 1)]));
    }
    for image in [open(WRITE, 0, 0, 0), open(READ, 4, 0, 0), entdaa(3)] {
        assert_kept(clause, &image);
        assert_broken(clause, &with(image, &[(ENABLE, 1)]));
    }
    // What a reset leaves as it was.
    let others = [
        (WATERMARK, 4),
        (ID, 255),
        (IRQ_MASK, 255),
        (OPS, 127),
        (IBI_CONFIG, 3),
        (SELECTED, 127),
        (DEVICES, 7),
        (COMMANDS, u32::MAX),
    ];
    assert_kept(clause, &with(in_reset(), &others));
}

#[test]
fn bursts_that_a_trigger_opens() {
    let clause = burst_passes_trigger;
    assert_kept(clause, &in_burst());
    // Mode 0, length 0.
    assert_broken(clause, &with(in_burst(), &[(OPS, 0b100)]));
    assert_broken(clause, &with(in_burst(), &[(OPS, 0b001)]));
    assert_kept(clause, &with(in_burst(), &[(OPS, 0b110_0101)]));
    // The second command, which still waits: a CCC, and longer than 4 bytes.
    let second = |word: u32| with(in_burst(), &[(COMMANDS + 1, word)]);
    assert_kept(clause, &second(0xffb0_04ff));
    assert_broken(clause, &second(0x0040_0010));
    assert_broken(clause, &second(0x0000_0510));
    assert_broken(clause, &second(0x0008_0010));
    // With no burst open all is allowed.
    let none = with(in_burst(), &[(BURST, 0), (COMMANDS, u32::MAX)]);
    assert_kept(clause, &none);
    assert_kept(clause, &with(none, &[(OPS, 0)]));
}

#[test]
fn places_of_bursts() {
    let clause = burst_stands_at_command;
    let writes: Vec<(usize, u32)> = (COMMANDS..DATA).map(|place| (place, 0x0310)).collect();
    for length in 1..16 {
        let image = with(in_burst(), &writes);
        let image = with(image, &[(OPS, length << 1 | 1)]);
        for place in 0..=length {
            assert_kept(clause, &with(image, &[(BURST, place)]));
        }
        for place in [length + 1, 16, 17, 256 + length, u32::MAX] {
            assert_broken(clause, &with(image, &[(BURST, place)]));
        }
    }
}

#[test]
fn transfers_of_bursts() {
    let clause = burst_has_its_transfer;
    for image in [in_burst(), in_burst_read(0, 0)] {
        assert_kept(clause, &image);
        let [phase, header, length] = [image[PHASE], image[HEADER], image[LENGTH]];
        for other in [0, 1, 2, 3, 4, 5].into_iter().filter(|n| *n != phase) {
            assert_broken(clause, &with(image, &[(PHASE, other)]));
        }
        assert_broken(clause, &with(image, &[(KIND, DIRECT_CCC)]));
        assert_broken(clause, &with(image, &[(KIND, BROADCAST_CCC)]));
        assert_broken(clause, &with(image, &[(HEADER, 1 - header)]));
        for other in [0, length - 1, length + 1, 4095] {
            assert_broken(clause, &with(image, &[(LENGTH, other)]));
        }
        // The device: as it was noted, whatever the table says now.
        for flags in [0, 7] {
            for attached in [0, 1] {
                let device = [(ATTACHED, attached), (DEVICES + 8, flags)];
                assert_kept(clause, &with(image, &device));
            }
        }
        assert_kept(clause, &with(image, &[(BURST, 0), (KIND, DIRECT_CCC)]));
    }
    // The other command of the burst, and no transfer at all.
    assert_broken(clause, &with(in_burst(), &[(BURST, 2)]));
    let closed = [(PHASE, 0), (LENGTH, 0), (ATTACHED, 0)];
    assert_broken(clause, &with(in_burst(), &closed));
}

#[test]
fn bytes_of_bursts() {
    let clause = burst_bytes_by_count;
    for moved in 0..=4 {
        let bytes = moved as usize;
        assert_kept(clause, &in_burst_read(moved, 0));
        for part in &PARTS[..bytes] {
            assert_kept(clause, &in_burst_read(moved, *part));
        }
        for part in &PARTS[bytes..] {
            assert_broken(clause, &in_burst_read(moved, *part));
        }
    }
    for moved in 0..=3 {
        let write = with(in_burst(), &[(MOVED, moved)]);
        assert_kept(clause, &write);
        for part in PARTS {
            assert_broken(clause, &with(write, &[(PART, part)]));
        }
    }
    // The counts stay bounded by the command there.
    assert!(!well_formed(&in_burst_read(5, 0)));
    assert!(!well_formed(&with(in_burst(), &[(MOVED, 4)])));
}

#[test]
fn no_bursts_in_reset() {
    let clause = no_burst_in_reset;
    assert_kept(clause, &in_reset());
    assert_kept(clause, &in_burst());
    assert_broken(clause, &with(in_burst(), &[(ENABLE, 1)]));
    assert_broken(clause, &with(in_reset(), &[(BURST, 1)]));
}

#[test]
fn words_read_last() {
    let clause = nothing_read_in_reset;
    assert_kept(clause, &in_reset());
    for place in LAST_READ..IMAGE_WORDS {
        for number in [1, 0x8000_0000, u32::MAX] {
            let read = [(place, number)];
            for image in [released(), entdaa(4), in_burst()] {
                assert_kept(clause, &with(image, &read));
            }
            assert_broken(clause, &with(in_reset(), &read));
        }
    }
}

// Lines.

fn line_of(image: &[u32]) -> String {
    let numbers: Vec<String> = image.iter().map(|word| format!("{word:x}")).collect();
    numbers.join(" ")
}

fn run(input: &str) -> (String, Option<String>) {
    let mut output = Vec::new();
    let result = run_formed(input.as_bytes(), &mut output);
    let output = String::from_utf8(output).unwrap();
    (output, result.err().map(|error| error.to_string()))
}

#[test]
fn a_line_for_each_image() {
    let (sound, broken) = (line_of(&released()), line_of(&[0; IMAGE_WORDS]));
    assert_eq!(run(""), (String::new(), None));
    assert_eq!(run(&sound), ("1\n".into(), None));
    let lines = format!("{sound}\n{broken}\n{}\n", sound.to_uppercase());
    assert_eq!(run(&lines), ("1\n0\n1\n".into(), None));
    let longest = line_of(&[u32::MAX; IMAGE_WORDS]);
    assert_eq!(longest.len() as u64, LONGEST_LINE - 1);
    assert_eq!(
        run(&format!("{longest}\n{longest}\n")),
        ("0\n0\n".into(), None)
    );
}

#[test]
fn lines_that_are_no_images() {
    let sound = line_of(&released());
    let [fewer, more] = [&released()[1..], &[0; IMAGE_WORDS + 1]].map(line_of);
    for wrong in [
        "",
        " ",
        "4",
        &fewer,
        &more,
        &format!(" {sound}"),
        &format!("{sound} "),
        &format!("{sound}\r"),
        &sound.replacen(' ', "  ", 1),
        &sound.replacen(' ', "\t", 1),
        &sound.replacen('4', "0x4", 1),
        &sound.replacen('4', "+4", 1),
        &sound.replacen('4', "g", 1),
        &sound.replacen('4', "000000004", 1),
        &line_of(&[u32::MAX; 2 * IMAGE_WORDS]),
        &"0".repeat(1 << 16),
    ] {
        let (output, error) = run(&format!("{sound}\n{wrong}\n{sound}\n"));
        assert_eq!(output, "1\n", "{wrong:?}");
        let error = error.unwrap();
        assert!(error.starts_with("line 2: not 203 numbers"), "{error}");
        assert!(!error.contains('\n'));
    }
}
