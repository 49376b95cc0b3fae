//! Fields by their names, against words written out; what a model gives and takes is read and made by
//! them.

use thymewax::fields::*;
use thymewax::{registers, Model, Refusal, SetUp};

/// Every word with fields: the field, and the word that has all its bits.
const MASKS: [(Field, u32); 18] = [
    (command::CCC, 0x0040_0000),
    (command::HEADER, 0x0020_0000),
    (command::REPEATED_START, 0x0010_0000),
    (command::LENGTH, 0x000f_ff00),
    (command::ADDRESS, 0x0000_00fe),
    (command::READ, 0x0000_0001),
    (ccc::CODE, 0x0000_00ff),
    (ccc::DIRECT, 0x0000_0080),
    (receipt::ERROR, 0x00f0_0000),
    (interrupt::ADDRESS, 0x00fe_0000),
    (interrupt::DATA, 0x0000_ff00),
    (ops::OFFLOAD_LENGTH, 0x0000_001e),
    (ops::IDLE, 0x0000_0080),
    (device::ADDRESS, 0x0000_fe00),
    (device::STORE, 0x0000_0100),
    (data::FIRST, 0xff00_0000),
    (address_word::ADDRESS, 0xfe00_0000),
    (irq::DAA_PENDING, 0x0000_0080),
];

#[test]
fn fields_are_read_and_made() {
    for (field, mask) in MASKS {
        let most = mask >> mask.trailing_zeros();
        assert_eq!(field.mask(), mask);
        assert_eq!(field.get(u32::MAX), most);
        assert_eq!(field.get(!mask), 0);
        assert!(field.is_set(mask & mask.wrapping_neg()) && !field.is_set(!mask));
        assert_eq!(field.put(most), mask);
        assert_eq!(field.put(1), mask & mask.wrapping_neg());
        assert_eq!(field.get(field.put(most)), most);
    }
}

#[test]
#[should_panic(expected = "more bits than its field")]
fn a_wide_number_is_not_cut() {
    command::LENGTH.put(4096);
}

#[test]
fn a_memory_has_an_offset_for_each_word() {
    for memory in [registers::OFFLOAD_CMD, registers::OFFLOAD_SDO] {
        assert!(memory
            .iter()
            .zip(&memory[1..])
            .all(|(one, next)| one + 4 == *next));
    }
    assert_eq!(registers::OFFLOAD_CMD[0], 0x2c0);
    assert_eq!(registers::OFFLOAD_SDO[15], 0x33c);
}

/// A device that may interrupt, its interrupt, and a write that is not acknowledged.
#[test]
fn a_model_by_its_fields() -> Result<(), Refusal> {
    let mut model = Model::set_up(&SetUp::SESSION)?;
    assert!(enable::RESET.is_set(model.read(registers::ENABLE).done()?));
    model.write(registers::ENABLE, 0).done()?;
    let listen = ibi_config::LISTEN.mask() | ibi_config::ENABLE.mask();
    model.write(registers::IBI_CONFIG, listen).done()?;
    let flags = device::ATTACHED.mask() | device::MAY_INTERRUPT.mask() | device::SENDS_BYTE.mask();
    let stored = device::ADDRESS.put(8) | device::STORE.mask() | flags;
    model.write(registers::DEV_CHAR, stored).done()?;
    assert_eq!(
        model.read(registers::DEV_CHAR).done()?,
        stored & !device::STORE.mask()
    );

    model.interrupt(8, 0x5a).done()?;
    let source = model.read(registers::IRQ_SOURCE).done()?;
    assert!(irq::IBI_PENDING.is_set(source) && !irq::CMDR_PENDING.is_set(source));
    assert!(!status::IBI_EMPTY.is_set(model.read(registers::FIFO_STATUS).done()?));
    let entry = model.read(registers::IBI_FIFO).done()?;
    assert_eq!(
        (interrupt::ADDRESS.get(entry), interrupt::DATA.get(entry)),
        (8, 0x5a)
    );

    let write = command::ADDRESS.put(8) | command::LENGTH.put(2);
    model.write(registers::CMD_FIFO, write).done()?;
    assert_eq!(model.start().done()?, write);
    assert!(!ops::IDLE.is_set(model.read(registers::OPS).done()?));
    let told = model.finish(code::NACK).done()?;
    assert_eq!(receipt::ERROR.get(told), code::NACK.into());
    assert_eq!((receipt::LENGTH.get(told), receipt::SYNC.get(told)), (0, 0));
    Ok(())
}
