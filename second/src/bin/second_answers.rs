// SPDX-License-Identifier: Apache-2.0
//! Reads raw event bytes on standard input, runs them on a fresh device and
//! writes the raw answer bytes to standard output. With `--state` it prints
//! instead a readable dump of the state after the last event; with `--rolled`
//! it writes instead one raw byte an event, the number of what rolled over.

use second::table::calendar_text;
use second::Device;
use std::io::{Read, Write};

fn main() {
    let arguments: Vec<String> = std::env::args().skip(1).collect();
    let wanted = match arguments.as_slice() {
        [] => Wanted::Answers,
        [only] if only == "--state" => Wanted::State,
        [only] if only == "--rolled" => Wanted::Rolled,
        _ => stop_with("usage: second-answers [--state | --rolled] < events > answers"),
    };
    let mut events = Vec::new();
    if std::io::stdin().read_to_end(&mut events).is_err() {
        stop_with("the events cannot be read");
    }
    if events.iter().any(|event| *event > 7) {
        stop_with("an event byte is above 7; nothing was run");
    }
    let mut device = Device::fresh();
    let told = device.run_told(&events);
    match wanted {
        Wanted::Answers => write_bytes(told.iter().map(|(answer, _)| *answer)),
        Wanted::Rolled => write_bytes(told.iter().map(|(_, rolled)| rolled.number())),
        Wanted::State => print_device(&device),
    }
}

/// What is written to standard output.
enum Wanted {
    Answers,
    State,
    Rolled,
}

fn write_bytes(bytes: impl Iterator<Item = u8>) {
    let bytes: Vec<u8> = bytes.collect();
    if std::io::stdout().write_all(&bytes).is_err() {
        stop_with("the answers cannot be written");
    }
}

fn stop_with(message: &str) -> ! {
    eprintln!("{message}");
    std::process::exit(2);
}

fn print_device(device: &Device) {
    for (address, byte) in device.registers.iter().enumerate() {
        println!("register {address:02X}h  {byte:02X}h");
    }
    let century = device.registers[0] & second::registers::CENTURY_FLAG != 0;
    println!("core          {}", calendar_text(device.core, century));
    println!("core valid    {}", device.core.is_valid());
    println!("power         {:?}", device.power);
    println!("pin           {:?}", device.pin_function());
    println!("memory at     {:04X}h", device.memory_address);
    println!("companion at  {:02X}h", device.companion_address);
    println!("phase         {:?}", device.transfer.phase);
    println!("clocks        {}", device.transfer.clocks);
    println!("memory sum    {:016X}h", memory_checksum(&device.memory));
}

/// The 64-bit FNV-1a sum of all memory bytes in order.
fn memory_checksum(memory: &[u8]) -> u64 {
    let mut sum: u64 = 0xCBF2_9CE4_8422_2325;
    for byte in memory {
        sum = (sum ^ u64::from(*byte)).wrapping_mul(0x0000_0100_0000_01B3);
    }
    sum
}
