//! A driver reads a temperature: set-up, release, a device attached, a write that chooses the
//! sensor's register, a read of two bytes, and the receipts of both. `read_temperature.txt` has
//! what it prints.

use std::fmt::Write;
use thymewax::fields::{command, data, device, receipt};
use thymewax::{registers, Model, Refusal, SetUp};

/// The sensor's address on the bus.
const SENSOR: u32 = 0x48;
/// The sensor's register with the temperature.
const TEMPERATURE: u32 = 0x05;

/// A private command.
fn private(length: u32) -> u32 {
    command::ADDRESS.put(SENSOR) | command::LENGTH.put(length)
}

/// A receipt in words.
fn told(word: u32) -> String {
    let error = receipt::ERROR.get(word);
    let length = receipt::LENGTH.get(word);
    let sync = receipt::SYNC.get(word);
    format!("receipt {word:08x}: error {error}, {length} bytes, sync {sync}")
}

/// The driver's first half: payload and commands are queued.
fn ask(model: &mut Model) -> Result<(), Refusal> {
    let chosen = data::FIRST.put(TEMPERATURE);
    model.write(registers::SDO_FIFO, chosen).done()?;
    model.write(registers::CMD_FIFO, private(1)).done()?;
    let read = private(2) | command::READ.put(1);
    model.write(registers::CMD_FIFO, read).done()?;
    Ok(())
}

/// The bus: the write goes out, then the sensor gives 25.5 degrees in steps of 1/256.
fn serve(model: &mut Model) -> Result<u32, Refusal> {
    model.start().done()?;
    let chosen = model.send().done()?;
    model.finish(0).done()?;
    model.start().done()?;
    model.receive(0x19).done()?;
    model.receive(0x80).done()?;
    model.finish(0).done()?;
    Ok(chosen)
}

/// All of it, and what there is to say.
pub fn report() -> Result<String, Refusal> {
    let mut text = String::new();
    let mut say = |line: String| writeln!(text, "{line}").expect("a string takes all");

    let mut model = Model::set_up(&SetUp::SESSION)?;
    model.write(registers::ENABLE, 0).done()?;
    let attached = device::ADDRESS.put(SENSOR) | device::STORE.put(1) | device::ATTACHED.put(1);
    model.write(registers::DEV_CHAR, attached).done()?;
    ask(&mut model)?;
    say(format!("the sensor was sent {:02x}", serve(&mut model)?));

    // The driver's second half: the level says how many receipts wait.
    let waiting = model.read(registers::CMDR_FIFO_LEVEL).done()?;
    say(format!("{waiting} receipts wait"));
    for _ in 0..waiting {
        say(told(model.read(registers::CMDR_FIFO).done()?));
    }
    // The first byte is the most significant; two count.
    let steps = model.read(registers::SDI_FIFO).done()? >> 16;
    say(format!("temperature {:.1}", f64::from(steps) / 256.0));

    // A read of an empty queue has an answer too: the word before, and a number that tells.
    say(format!("once more: {}", model.read(registers::SDI_FIFO)));
    Ok(text)
}

fn main() -> Result<(), Refusal> {
    print!("{}", report()?);
    Ok(())
}
