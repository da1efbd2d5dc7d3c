//! Routines: code of one kind that ends in one way, put into an image and
//! marked.

use super::{image_length, Program, Rng};
use crate::chip::{write, Instruction, Operand};
use Instruction::*;

#[derive(Clone, Copy, PartialEq)]
pub(super) enum End {
    Return,
    ReturnFromInterrupt,
    Loop,
}

/// What a routine is to be.
pub(super) struct Routine<'a> {
    pub kind: u8,
    pub need: u8,
    /// The targets that it calls.
    pub calls: &'a [u16],
    /// What its body has in front.
    pub first: &'a [Instruction],
    pub end: End,
}

pub(super) struct Builder<'r> {
    pub rng: &'r mut Rng,
    pub program: Program,
    pub base: usize,
    /// Where the next routine may start.
    pub cursor: usize,
    /// Cells that the code is to use often, also through pointers.
    pub cells: &'static [u8],
    /// Whether it may sleep anywhere.
    pub sleeps_anywhere: bool,
}

/// Code stays below the vectors.
const CODE_END: usize = 0xFF0;

impl<'r> Builder<'r> {
    /// An image without a page or with one, nothing wired and nothing marked.
    pub fn new(rng: &'r mut Rng) -> Self {
        let length = image_length(rng);
        Builder::of_length(rng, length)
    }

    /// The same of a length.
    pub fn of_length(rng: &'r mut Rng, length: usize) -> Self {
        let base = 0x1000 - length;
        let mut image = vec![0; length];
        if rng.chance(50) {
            rng.fill(&mut image);
        }
        let program = Program { image, certificate: vec![0; length], wired: 0 };
        let cursor = base + rng.below(0x100) + if length == 4096 { rng.below(0xA00) } else { 0 };
        Builder { rng, program, base, cursor, cells: &[], sleeps_anywhere: false }
    }

    pub fn put(&mut self, address: usize, instruction: Instruction) -> usize {
        let place = &mut self.program.image[address - self.base..];
        write(instruction, place).expect("a good instruction in ROM")
    }

    pub fn mark(&mut self, address: usize, kind: u8, need: u8) {
        self.program.certificate[address - self.base] = kind << 4 | need;
    }

    /// Now and then one of the cells that are to be used.
    fn cell(&mut self) -> Option<u8> {
        let wanted = !self.cells.is_empty() && self.rng.chance(40);
        wanted.then(|| self.rng.pick(self.cells))
    }

    pub fn data_address(&mut self) -> u8 {
        if let Some(cell) = self.cell() {
            return cell;
        }
        match self.rng.below(10) {
            0..=3 => self.rng.below(0x40) as u8,
            4 => 0x40 + self.rng.below(0x40) as u8,
            5 => 0x80 + self.rng.below(4) as u8,
            6 => self.rng.pick(&[0xC9, 0xFF, 0xFF, 0xC9, 0xFF, 0xC8]),
            _ => self.rng.byte(),
        }
    }

    fn operand(&mut self, short: bool) -> Operand {
        match self.rng.below(if short { 6 } else { 4 }) {
            0 => Operand::ByX,
            1 => Operand::ByY,
            2 | 3 => Operand::Direct(self.data_address()),
            _ => Operand::Short(self.rng.below(4) as u8),
        }
    }

    /// An instruction that goes on at the next address.
    pub fn straight(&mut self) -> Instruction {
        match self.rng.below(18) {
            0 => LdA(self.operand(true)),
            1 => LdTo(self.operand(true)),
            2 => LdiA(self.rng.byte()),
            3 => {
                let address = self.data_address();
                // X and Y are to point at the cells.
                let value = self.cell().unwrap_or_else(|| self.rng.byte());
                Ldi { address, value }
            }
            4 => Inc(self.operand(true)),
            5 => Dec(self.operand(true)),
            6 => Add(self.operand(false)),
            7 => Addi(self.rng.byte()),
            8 => Sub(self.operand(false)),
            9 => Subi(self.rng.byte()),
            10 => And(self.operand(false)),
            11 => Andi(self.rng.byte()),
            12 => Cp(self.operand(false)),
            13 => Cpi(self.rng.byte()),
            14 => Com,
            15 => Rlc,
            16 => Res { bit: self.rng.below(8) as u8, address: self.data_address() },
            _ => Set { bit: self.rng.below(8) as u8, address: self.data_address() },
        }
    }

    /// Places instructions as they are, from where the next routine may start.
    pub fn place(&mut self, code: &[Instruction], kind: u8, need: u8) {
        for &instruction in code {
            self.mark(self.cursor, kind, need);
            self.cursor += self.put(self.cursor, instruction);
        }
        assert!(self.cursor <= CODE_END, "the code is too long");
    }

    /// Places a routine; gives its address.
    pub fn routine(&mut self, wanted: &Routine) -> u16 {
        let body = self.body(wanted);
        let start = self.cursor;
        let mut places = Vec::with_capacity(body.len());
        let mut place = start;
        for &instruction in &body {
            places.push(place);
            place += self.put(place, instruction);
        }
        assert!(place <= CODE_END, "the routine is too long");
        for (index, &instruction) in body.iter().enumerate() {
            let aimed = self.aimed(instruction, index, &places, wanted.end);
            self.put(places[index], aimed);
            self.mark(places[index], wanted.kind, wanted.need);
        }
        let gap = if self.rng.chance(30) { self.rng.below(20) } else { 0 };
        self.cursor = place + gap;
        start as u16
    }

    /// The instructions of a routine, jumps not yet aimed.
    fn body(&mut self, wanted: &Routine) -> Vec<Instruction> {
        let sleepy = (wanted.kind != 4 || self.sleeps_anywhere) && self.rng.chance(15);
        let mut body: Vec<Instruction> = Vec::new();
        for _ in 0..self.rng.below(14) {
            body.push(match self.rng.below(10) {
                0 => Jrz(0),
                1 => self.rng.pick(&[Jrnz(0), Jrnc(0), Jrc(0)]),
                2 => {
                    let (bit, address) = (self.rng.below(8) as u8, self.data_address());
                    if self.rng.chance(50) {
                        Jrr { bit, address, displacement: 1 }
                    } else {
                        Jrs { bit, address, displacement: 1 }
                    }
                }
                3 if sleepy => self.rng.pick(&[Stop, Wait]),
                _ => self.straight(),
            });
        }
        for &target in wanted.calls {
            let index = self.rng.below(body.len() + 1);
            body.insert(index, Call(target));
        }
        body.splice(0..0, wanted.first.iter().copied());
        body.push(match wanted.end {
            End::Return => Ret,
            End::ReturnFromInterrupt => Reti,
            End::Loop => Jp(0),
        });
        body
    }

    /// An instruction of a body with its jump aimed at one of the body's
    /// places.
    fn aimed(
        &mut self,
        instruction: Instruction,
        index: usize,
        places: &[usize],
        end: End,
    ) -> Instruction {
        let at = places[index];
        // Mostly forward, so that routines end.
        let to = if self.rng.chance(if end == End::Loop { 30 } else { 5 }) {
            self.rng.pick(places)
        } else {
            self.rng.pick(&places[index..])
        };
        let to = if to == at { places[(index + 1).min(places.len() - 1)] } else { to };
        let by = |from: usize| to as isize - (at + from) as isize;
        let short = if (-16..=15).contains(&by(1)) { by(1) as i8 } else { 0 };
        let long = i8::try_from(by(2)).unwrap_or(1);
        match instruction {
            Jrnz(_) => Jrnz(short),
            Jrnc(_) => Jrnc(short),
            Jrz(_) => Jrz(short),
            Jrc(_) => Jrc(short),
            Jrr { bit, address, .. } => Jrr { bit, address, displacement: long },
            Jrs { bit, address, .. } => Jrs { bit, address, displacement: long },
            Jp(_) => Jp(places[0] as u16),
            other => other,
        }
    }

    /// Targets that make a caller need exactly a number of levels: at least
    /// one of the need just below, and some below that.
    pub fn calls(&mut self, need: u8, subroutines: &[Vec<u16>]) -> Vec<u16> {
        let mut calls = Vec::new();
        if need > 0 {
            calls.push(self.rng.pick(&subroutines[need as usize - 1]));
            for _ in 0..self.rng.below(3) {
                let lower = self.rng.below(need as usize);
                calls.push(self.rng.pick(&subroutines[lower]));
            }
        }
        calls
    }
}
