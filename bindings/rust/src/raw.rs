//! The six functions of the archive, and each as a safe call on slices. All `unsafe` is here.
//!
//! The archive takes a slice as the place of its first element and its length. Its functions are
//! proved safe for all contents and lengths, write to nothing but the slices lent to be changed,
//! and keep nothing between two calls, so that threads may call them side by side. What is left
//! to say at each call is that the slices live through it and do not overlap: a `&mut` does both.

/// The tables, each where it lies.
#[derive(Clone, Debug, PartialEq, Eq)]
pub struct Tables {
    /// A byte for each device address.
    pub flags: [u8; 128],
    /// The offload commands.
    pub commands: [u32; 16],
    /// The offload data.
    pub payloads: [u32; 16],
}

impl Tables {
    /// As a set-up leaves them.
    pub const CLEAR: Tables = Tables {
        flags: [0; 128],
        commands: [0; 16],
        payloads: [0; 16],
    };
}

extern "C" {
    fn thymewax_version() -> u32;

    fn thymewax_image_words() -> usize;

    fn thymewax_set_up(
        image: *mut u32,
        image_words: usize,
        flags: *mut u8,
        commands: *mut u32,
        payloads: *mut u32,
        cmd: u32,
        cmdr: u32,
        sdo: u32,
        sdi: u32,
        ibi: u32,
        cmd_mark: u32,
        cmdr_mark: u32,
        sdo_mark: u32,
        sdi_mark: u32,
        ibi_mark: u32,
        id: u32,
    ) -> u32;

    fn thymewax_step(
        image: *mut u32,
        image_words: usize,
        flags: *mut u8,
        commands: *mut u32,
        payloads: *mut u32,
        store: *mut u32,
        store_words: usize,
        output: *mut u32,
        output_words: usize,
        letter: u32,
        offset: u32,
        first: u32,
        second: u32,
    ) -> u64;

    fn thymewax_replay(
        image: *mut u32,
        image_words: usize,
        flags: *mut u8,
        commands: *mut u32,
        payloads: *mut u32,
        store: *mut u32,
        store_words: usize,
        file: *const u8,
        file_bytes: usize,
        section: u32,
        limit: usize,
        told: *mut u32,
        told_words: usize,
    ) -> u32;

    fn thymewax_section(
        file: *const u8,
        file_bytes: usize,
        section: u32,
        place: *mut u32,
        place_words: usize,
    ) -> u32;
}

/// The version of layout and calls.
pub(crate) fn version() -> u32 {
    // SAFETY: takes nothing.
    unsafe { thymewax_version() }
}

/// How many words an image has.
pub(crate) fn image_words() -> usize {
    // SAFETY: takes nothing.
    unsafe { thymewax_image_words() }
}

/// Capacities and watermarks in the order CMD, CMDR, SDO, SDI, IBI.
pub(crate) fn set_up(
    image: &mut [u32],
    tables: &mut Tables,
    capacities: [u32; 5],
    marks: [u32; 5],
    id: u32,
) -> u32 {
    let [cmd, cmdr, sdo, sdi, ibi] = capacities;
    let [cmd_mark, cmdr_mark, sdo_mark, sdi_mark, ibi_mark] = marks;
    // SAFETY: image and tables live through the call, are lent to nobody else, and the tables have
    // the lengths of their types.
    unsafe {
        thymewax_set_up(
            image.as_mut_ptr(),
            image.len(),
            tables.flags.as_mut_ptr(),
            tables.commands.as_mut_ptr(),
            tables.payloads.as_mut_ptr(),
            cmd,
            cmdr,
            sdo,
            sdi,
            ibi,
            cmd_mark,
            cmdr_mark,
            sdo_mark,
            sdi_mark,
            ibi_mark,
            id,
        )
    }
}

/// The call that letter, offset and two values name. The value is in the low half of what comes
/// back, the number in the high half.
pub(crate) fn step(
    image: &mut [u32],
    tables: &mut Tables,
    store: &mut [u32],
    output: &mut [u32],
    [letter, offset, first, second]: [u32; 4],
) -> u64 {
    // SAFETY: the slices and the tables live through the call, and no two of them overlap.
    unsafe {
        thymewax_step(
            image.as_mut_ptr(),
            image.len(),
            tables.flags.as_mut_ptr(),
            tables.commands.as_mut_ptr(),
            tables.payloads.as_mut_ptr(),
            store.as_mut_ptr(),
            store.len(),
            output.as_mut_ptr(),
            output.len(),
            letter,
            offset,
            first,
            second,
        )
    }
}

/// At most `limit` records of a section. `told` takes the records done, then value and number of
/// the last one's answer.
pub(crate) fn replay(
    image: &mut [u32],
    tables: &mut Tables,
    store: &mut [u32],
    file: &[u8],
    section: u32,
    limit: usize,
    told: &mut [u32],
) -> u32 {
    // SAFETY: the slices and the tables live through the call, and no two of them overlap.
    unsafe {
        thymewax_replay(
            image.as_mut_ptr(),
            image.len(),
            tables.flags.as_mut_ptr(),
            tables.commands.as_mut_ptr(),
            tables.payloads.as_mut_ptr(),
            store.as_mut_ptr(),
            store.len(),
            file.as_ptr(),
            file.len(),
            section,
            limit,
            told.as_mut_ptr(),
            told.len(),
        )
    }
}

/// `place` takes the first byte of the section in the file, then its length in bytes.
pub(crate) fn section(file: &[u8], section: u32, place: &mut [u32]) -> u32 {
    // SAFETY: the two slices live through the call, and they do not overlap.
    unsafe {
        thymewax_section(
            file.as_ptr(),
            file.len(),
            section,
            place.as_mut_ptr(),
            place.len(),
        )
    }
}
