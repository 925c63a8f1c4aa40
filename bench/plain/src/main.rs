//! Runs one of the loops of `bench/loops` on a plain model of the processor: `plain NAME STEPS`.

mod bus;
mod instruction;
mod machine;

use bus::Bus;
use machine::Machine;
use std::process::ExitCode;

/// Where a loop is loaded and entered.
const ENTRY: u16 = 0xA000;
/// Where the workspace begins.
const WORKSPACE: u16 = 0x83E0;

fn main() -> ExitCode {
    let words: Vec<String> = std::env::args().skip(1).collect();
    let [name, steps] = words.as_slice() else {
        eprintln!("plain NAME STEPS");
        return ExitCode::from(2);
    };
    let (Some(code), Ok(steps)) = (loop_named(name), steps.parse()) else {
        eprintln!("no such loop or number");
        return ExitCode::from(2);
    };
    let mut machine = Machine::new(Bus::new(), WORKSPACE, ENTRY);
    machine.load(ENTRY, &code);
    let end = machine.run(steps);
    println!("{end:?}\n{machine}");
    ExitCode::SUCCESS
}

/// The words of the loop with a name.
fn loop_named(name: &str) -> Option<Vec<u16>> {
    let line = include_str!("../../loops")
        .lines()
        .find(|line| line.split(' ').next() == Some(name))?;
    line.split(' ')
        .skip(1)
        .map(|word| u16::from_str_radix(word, 16).ok())
        .collect()
}
