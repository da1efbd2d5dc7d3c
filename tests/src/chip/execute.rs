//! The effect of each instruction.

use super::rom::Fetched;
use super::{displaced, wrap, Flags, Machine, Mode, Size, Space, Traced, A, SIZES, X, Y};
use crate::Refusal;

impl Machine {
    /// Executes the instruction at PC. Everything that may stop comes before
    /// the first change.
    #[inline(always)]
    pub(super) fn execute(&mut self, rom: &impl Space) -> Result<Traced, Refusal> {
        let code = Fetched::at(rom, self.pc)?;
        let Size { length, cycles } = SIZES[code.opcode as usize];
        let next = wrap(self.pc + length as u16);
        let pair = self.mode.pair();
        let Flags { z, c } = self.flags[pair];
        let jump_if = |condition: bool| {
            if condition {
                displaced(next, code.short_displacement())
            } else {
                next
            }
        };
        let mut go_on = next;
        match code.opcode & 0x0F {
            0x0 | 0x8 => go_on = jump_if(!z),
            0x2 | 0xA => go_on = jump_if(!c),
            0x4 | 0xC => go_on = jump_if(z),
            0x6 | 0xE => go_on = jump_if(c),
            0x1 => {
                go_on = code.target()?;
                self.push(next).ok_or(Refusal::StackFull(code.address))?;
            }
            0x9 => go_on = code.target()?,
            0x3 => go_on = self.bit_jump(&code, pair, next)?,
            0xB => self.bit_change(&code)?,
            0x5 => self.column_5(&code, pair)?,
            0x7 => self.column_7(&code, pair)?,
            0xD => go_on = self.column_d(&code, pair, next)?,
            _ => self.column_f(&code, pair)?,
        }
        self.pc = go_on;
        Ok(Traced { cycles: cycles as u32, origin: code.origin.get() })
    }

    /// Reads the data operand, and notes where it came from. Pointers, and an
    /// accumulator that isn't the operand, are read in other ways.
    #[inline(always)]
    fn operand(&self, code: &Fetched<impl Space>, address: u8) -> u8 {
        code.origin.set(Some(self.origin(code.rom, address)));
        self.read(code.rom, address)
    }

    /// JRR and JRS; gives the address to go on at.
    #[inline(always)]
    fn bit_jump(
        &mut self,
        code: &Fetched<impl Space>,
        pair: usize,
        next: u16,
    ) -> Result<u16, Refusal> {
        let address = code.second()?;
        let displacement = code.third()? as i8;
        let set = self.operand(code, address) >> code.bit_number() & 1 != 0;
        self.flags[pair].c = set;
        if set == code.odd_row() {
            Ok(displaced(wrap(code.address + 2), displacement))
        } else {
            Ok(next)
        }
    }

    /// RES and SET.
    #[inline(always)]
    fn bit_change(&mut self, code: &Fetched<impl Space>) -> Result<(), Refusal> {
        let address = code.second()?;
        let mask = 1 << code.bit_number();
        let byte = self.operand(code, address);
        self.store(address, if code.odd_row() { byte | mask } else { byte & !mask });
        Ok(())
    }

    #[inline(always)]
    fn column_5(&mut self, code: &Fetched<impl Space>, pair: usize) -> Result<(), Refusal> {
        let register = X + code.register();
        match code.opcode {
            0x15 | 0x55 | 0x95 | 0xD5 => self.change(code, pair, register, 1),
            0x35 | 0x75 | 0xB5 | 0xF5 => self.move_to(pair, A, self.operand(code, register)),
            _ => return Err(code.undefined()),
        }
        Ok(())
    }

    #[inline(always)]
    fn column_7(&mut self, code: &Fetched<impl Space>, pair: usize) -> Result<(), Refusal> {
        let by_x = self.data[X as usize];
        match code.opcode {
            0x07 => self.move_to(pair, A, self.operand(code, by_x)),
            0x17 => self.move_to(pair, A, code.second()?),
            0x27 => self.compare(pair, self.operand(code, by_x)),
            0x37 => self.compare(pair, code.second()?),
            0x47 => self.add(pair, self.operand(code, by_x)),
            0x57 => self.add(pair, code.second()?),
            0x67 => self.change(code, pair, by_x, 1),
            0x87 => self.move_to(pair, by_x, self.a()),
            0xA7 => self.and(pair, self.operand(code, by_x)),
            0xB7 => self.and(pair, code.second()?),
            0xC7 => self.subtract(pair, self.operand(code, by_x)),
            0xD7 => self.subtract(pair, code.second()?),
            0xE7 => self.change(code, pair, by_x, -1),
            _ => return Err(code.undefined()),
        }
        Ok(())
    }

    /// Gives the address to go on at.
    #[inline(always)]
    fn column_d(
        &mut self,
        code: &Fetched<impl Space>,
        pair: usize,
        next: u16,
    ) -> Result<u16, Refusal> {
        let register = X + code.register();
        match code.opcode {
            0x1D | 0x5D | 0x9D | 0xDD => self.change(code, pair, register, -1),
            0x3D | 0x7D | 0xBD | 0xFD => self.move_to(pair, register, self.a()),
            0x0D => {
                let (address, value) = (code.second()?, code.third()?);
                self.store(address, value);
            }
            0x2D => self.shift_out(pair, !self.a()),
            0xAD => self.shift_out(pair, self.a() << 1 | self.flags[pair].c as u8),
            0xCD => return self.pop().ok_or(Refusal::StackEmpty(code.address)),
            0x4D => return self.return_from_interrupt(next),
            0x6D | 0xED => self.asleep = true,
            _ => return Err(code.undefined()),
        }
        Ok(next)
    }

    #[inline(always)]
    fn column_f(&mut self, code: &Fetched<impl Space>, pair: usize) -> Result<(), Refusal> {
        let by_y = self.data[Y as usize];
        match code.opcode {
            0x0F => self.move_to(pair, A, self.operand(code, by_y)),
            0x1F => self.move_to(pair, A, self.operand(code, code.second()?)),
            0x2F => self.compare(pair, self.operand(code, by_y)),
            0x3F => self.compare(pair, self.operand(code, code.second()?)),
            0x4F => self.add(pair, self.operand(code, by_y)),
            0x5F => self.add(pair, self.operand(code, code.second()?)),
            0x6F => self.change(code, pair, by_y, 1),
            0x7F => self.change(code, pair, code.second()?, 1),
            0x8F => self.move_to(pair, by_y, self.a()),
            0x9F => self.move_to(pair, code.second()?, self.a()),
            0xAF => self.and(pair, self.operand(code, by_y)),
            0xBF => self.and(pair, self.operand(code, code.second()?)),
            0xCF => self.subtract(pair, self.operand(code, by_y)),
            0xDF => self.subtract(pair, self.operand(code, code.second()?)),
            0xEF => self.change(code, pair, by_y, -1),
            0xFF => self.change(code, pair, code.second()?, -1),
            _ => return Err(code.undefined()),
        }
        Ok(())
    }

    /// RETI; gives the address to go on at.
    #[inline(always)]
    fn return_from_interrupt(&mut self, next: u16) -> Result<u16, Refusal> {
        let go_on = match self.pop() {
            Some(address) => address,
            None if self.mode == Mode::Reset => next,
            None => return Err(Refusal::StackEmpty(self.pc)),
        };
        self.mode = self.mode.beneath();
        Ok(go_on)
    }

    #[inline(always)]
    fn a(&self) -> u8 {
        self.data[A as usize]
    }

    /// COM and RLC: a new A, and C is the top bit of the old one.
    #[inline(always)]
    fn shift_out(&mut self, pair: usize, byte: u8) {
        self.flags[pair].c = self.a() & 0x80 != 0;
        self.move_to(pair, A, byte);
    }

    /// INC and DEC.
    #[inline(always)]
    fn change(&mut self, code: &Fetched<impl Space>, pair: usize, address: u8, by: i8) {
        let byte = self.operand(code, address).wrapping_add_signed(by);
        self.move_to(pair, address, byte);
    }

    /// Stores a byte and sets Z by it.
    #[inline(always)]
    fn move_to(&mut self, pair: usize, address: u8, byte: u8) {
        self.store(address, byte);
        self.flags[pair].z = byte == 0;
    }

    #[inline(always)]
    fn add(&mut self, pair: usize, source: u8) {
        let (sum, carry) = self.a().overflowing_add(source);
        self.data[A as usize] = sum;
        self.flags[pair] = Flags { z: sum == 0, c: carry };
    }

    #[inline(always)]
    fn compare(&mut self, pair: usize, source: u8) {
        let a = self.a();
        self.flags[pair] = Flags { z: a == source, c: a < source };
    }

    #[inline(always)]
    fn subtract(&mut self, pair: usize, source: u8) {
        self.compare(pair, source);
        self.data[A as usize] = self.a().wrapping_sub(source);
    }

    #[inline(always)]
    fn and(&mut self, pair: usize, source: u8) {
        self.move_to(pair, A, self.a() & source);
    }
}
