//! The machine's state: data space, modes, flags and stack.

use super::{Space, BANK, IOR, RESET_VECTOR, SPACE, STACK_LEVELS, WINDOW};
use crate::Refusal;

#[derive(Clone, Copy, PartialEq, Eq, Debug)]
pub enum Mode {
    Reset,
    Normal,
    Interrupt,
    NmiOverNormal,
    NmiOverInterrupt,
}

impl Mode {
    /// Which flag pair is in use: 0 normal, 1 interrupt, 2 NMI.
    #[inline(always)]
    pub(crate) const fn pair(self) -> usize {
        match self {
            Mode::Normal => 0,
            Mode::Interrupt => 1,
            Mode::Reset | Mode::NmiOverNormal | Mode::NmiOverInterrupt => 2,
        }
    }

    /// The mode that the taking of a source sets: of 0 for NMI, or 1 to 4.
    pub(crate) const fn taking(self, source: usize) -> Mode {
        match (source, self) {
            (0, Mode::Interrupt) => Mode::NmiOverInterrupt,
            (0, _) => Mode::NmiOverNormal,
            _ => Mode::Interrupt,
        }
    }

    /// The mode that RETI returns to.
    pub(super) const fn beneath(self) -> Mode {
        match self {
            Mode::NmiOverInterrupt => Mode::Interrupt,
            _ => Mode::Normal,
        }
    }
}

#[derive(Clone, Copy, PartialEq, Eq, Debug, Default)]
pub struct Flags {
    pub z: bool,
    pub c: bool,
}

/// The machine. `levels` counts the return addresses in use, the oldest
/// first in `stack`. It may be ill-formed; see [`Machine::well_formed`].
#[derive(Clone, PartialEq, Eq, Debug)]
pub struct Machine {
    pub data: [u8; 256],
    pub pc: u16,
    pub stack: [u16; STACK_LEVELS],
    pub levels: u8,
    pub mode: Mode,
    pub asleep: bool,
    /// Normal, interrupt, NMI.
    pub flags: [Flags; 3],
}

impl Default for Machine {
    /// The fresh machine: reset, with all data 0.
    fn default() -> Self {
        Machine {
            data: [0; 256],
            pc: RESET_VECTOR,
            stack: [0; STACK_LEVELS],
            levels: 0,
            mode: Mode::Reset,
            asleep: false,
            flags: [Flags::default(); 3],
        }
    }
}

impl Machine {
    /// PC and the return addresses in use have twelve bits, and no more than
    /// six levels are in use.
    pub fn well_formed(&self) -> Result<(), Refusal> {
        let good = self.pc < SPACE
            && self.in_use().is_some_and(|used| used.iter().all(|&address| address < SPACE));
        if good {
            Ok(())
        } else {
            Err(Refusal::IllFormed)
        }
    }

    /// The return addresses in use, if they are no more than six.
    #[inline(always)]
    pub(crate) fn in_use(&self) -> Option<&[u16]> {
        self.stack.get(..self.levels as usize)
    }

    pub fn reset(&mut self) {
        self.pc = RESET_VECTOR;
        self.levels = 0;
        self.asleep = false;
        self.mode = Mode::Reset;
        self.flags = [Flags::default(); 3];
        for register in [IOR, WINDOW, BANK] {
            self.data[register as usize] = 0;
        }
    }

    /// The host's store into the data space.
    pub fn host_store(&mut self, address: u8, value: u8) -> Result<(), Refusal> {
        self.well_formed()?;
        if in_window(address) {
            return Err(Refusal::RomWindow);
        }
        self.data[address as usize] = value;
        Ok(())
    }

    #[inline(always)]
    pub(super) fn push(&mut self, address: u16) -> Option<()> {
        *self.stack.get_mut(self.levels as usize)? = address;
        self.levels += 1;
        Some(())
    }

    #[inline(always)]
    pub(super) fn pop(&mut self) -> Option<u16> {
        let top = self.levels.checked_sub(1)?;
        let address = *self.stack.get(top as usize)?;
        self.levels = top;
        Some(address)
    }

    /// The ROM address that a data address shows, if it lies in the window.
    #[inline(always)]
    pub(super) fn shown(&self, address: u8) -> Option<u16> {
        in_window(address).then(|| {
            // The stored page counts, though 0C9h reads 0.
            let page = (self.data[WINDOW as usize] & 0x3F) as u16;
            page * 64 + (address - 0x40) as u16
        })
    }

    /// The byte that a program reads at a data address, and that the host's
    /// reading gives: the one place that knows what can't be read.
    #[inline(always)]
    pub(super) fn read(&self, rom: &impl Space, address: u8) -> u8 {
        match self.shown(address) {
            Some(rom_address) => rom.byte(rom_address).unwrap_or(0),
            None => {
                // Loaded first, so that the choice needs no branch.
                let stored = self.data[address as usize];
                if write_only(address) {
                    0
                } else {
                    stored
                }
            }
        }
    }

    #[inline(always)]
    pub(super) fn store(&mut self, address: u8, value: u8) {
        if !in_window(address) {
            self.data[address as usize] = value;
        }
    }
}

/// Whether a data address lies in the ROM window, 40h to 7Fh.
#[inline(always)]
const fn in_window(address: u8) -> bool {
    address & 0xC0 == 0x40
}

/// Whether a program can store at a data address but not read there: 0C8h and
/// 0C9h.
#[inline(always)]
const fn write_only(address: u8) -> bool {
    matches!(address, IOR | WINDOW)
}
