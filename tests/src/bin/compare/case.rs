//! Code in a random image, and a machine that stands at it.

use crate::harness::Harness;
use crate::opcode_map::{BY_X, BY_Y};
use second::boundary::REPORT;
use second::chip::{A, BANK, HALF, X, Y};
use second::generate::{filled, machine, marks, place, Rng};
use second::play::Call;
use std::borrow::Cow::Borrowed;

pub struct Case {
    pub image: Vec<u8>,
    pub state: Vec<u8>,
    /// Where code is written; the machine stands there at first.
    pub pc: usize,
}

impl Case {
    /// A random image, and an awake machine without a reason to stop.
    pub fn new(rng: &mut Rng, length: usize, pc: usize) -> Self {
        let image = filled(rng, length);
        let mut state = machine(rng);
        state[258] = 1 + rng.below(5) as u8;
        state[260] = 0;
        // Good return addresses, for any number of levels.
        for address in state[268..].chunks_exact_mut(2) {
            address.copy_from_slice(&(rng.below(0x1000) as u16).to_le_bytes());
        }
        let mut case = Case { image, state, pc };
        case.stand_at(pc);
        case
    }

    /// Puts the machine at an address.
    pub fn stand_at(&mut self, pc: usize) {
        self.pc = pc;
        self.state[256..258].copy_from_slice(&(pc as u16).to_le_bytes());
    }

    /// Writes code at PC, in the page that the bank byte picks, as far as the
    /// image has its place.
    pub fn write(&mut self, code: &[u8]) {
        self.write_in(self.state[BANK as usize] as usize, code);
    }

    /// The same in the page of another bank byte.
    pub fn write_in(&mut self, bank: usize, code: &[u8]) {
        let length = self.image.len();
        let pages = (length / HALF - 1).max(1);
        let base = 0x1000 - marks(length);
        for (offset, &byte) in code.iter().enumerate() {
            let address = (self.pc + offset) & 0xFFF;
            if address >= base {
                self.image[place(length, bank % pages, address)] = byte;
            }
        }
    }

    /// Writes an instruction, and puts an address where a kind of operand has
    /// it: in X, in Y, or in the second byte. The two others are random,
    /// as are A and the flags.
    pub fn aim(&mut self, rng: &mut Rng, opcode: u8, kind: u8, address: u8) {
        let [mut second, mut x, mut y] = [rng.byte(), rng.byte(), rng.byte()];
        match kind {
            BY_X => x = address,
            BY_Y => y = address,
            _ => second = address,
        }
        self.write(&[opcode, second, rng.byte()]);
        for (register, byte) in [(X, x), (Y, y), (A, rng.byte())] {
            self.state[register as usize] = byte;
        }
        let flags = rng.byte();
        for (bit, flag) in self.state[261..267].iter_mut().enumerate() {
            *flag = flags >> bit & 1;
        }
    }

    pub fn step(&self, h: &mut Harness, request: u32) {
        let (image, state) = (Borrowed(&self.image[..]), Borrowed(&self.state[..]));
        h.compare(Call::Step { image, state, request });
    }

    pub fn run(&self, h: &mut Harness, requests: &[u8], n: u32) {
        let (image, state) = (Borrowed(&self.image[..]), Borrowed(&self.state[..]));
        h.compare(Call::Run { image, state, requests: Borrowed(requests), n, report: REPORT });
    }
}
