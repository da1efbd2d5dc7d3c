//! A step as it is counted, alone or in a run: what it met, and what it did.

use second::boundary;
use second::chip::{Machine, Origin, Rom, Space, Traced, BANK, SPACE};

pub struct BeforeStep {
    /// At PC, if that is in ROM.
    pub opcode: Option<u8>,
    /// After it, likewise.
    pub second: Option<u8>,
    pub machine: Machine,
    pub request: u8,
}

impl BeforeStep {
    /// Of an image with any page in place.
    pub fn new(rom: &Rom, machine: Machine, request: u8) -> Self {
        let rom = rom.with_bank(machine.data[BANK as usize]);
        let (opcode, second) = (rom.byte(machine.pc), rom.byte((machine.pc + 1) % SPACE));
        BeforeStep { opcode, second, machine, request }
    }
}

/// What a step did that was neither refused nor stopped.
pub struct AfterStep {
    pub cycles: u32,
    /// Whether the byte that it read was in ROM, and where.
    pub shown: bool,
    pub rom_address: u16,
    pub in_run: bool,
    /// The machine's after it.
    pub pc: u16,
    pub bank: u8,
}

impl AfterStep {
    /// A single step, by its answer and the state after it.
    pub fn single(answer: u64, state: &[u8]) -> Self {
        AfterStep {
            cycles: boundary::cycles(answer),
            shown: boundary::origin(answer) == 3,
            rom_address: boundary::rom_address(answer),
            in_run: false,
            pc: u16::from_le_bytes([state[256], state[257]]),
            bank: state[BANK as usize],
        }
    }

    pub fn in_run(Traced { cycles, origin }: Traced, machine: &Machine) -> Self {
        let (shown, rom_address) = match origin {
            Some(Origin::Rom(address)) => (true, address),
            _ => (false, 0),
        };
        let (pc, bank) = (machine.pc, machine.data[BANK as usize]);
        AfterStep { cycles, shown, rom_address, in_run: true, pc, bank }
    }
}
