//! The chip: program space, instructions, and the machine that executes them.

mod decode;
mod execute;
mod instruction;
mod machine;
mod origin;
mod rom;
mod step;
mod write;

pub use decode::{decode, decode_at};
pub use instruction::{Instruction, Operand, Size, SIZES};
pub use machine::{Flags, Machine, Mode};
pub use origin::{DataByte, Origin};
pub use rom::{Rom, Space, FIXED, HALF, MOST_HALVES};
pub use step::{Report, Traced, MOST_STEPS};
pub use write::write;

/// Addresses have twelve bits; all program counter arithmetic is modulo this.
pub const SPACE: u16 = 0x1000;
pub const RESET_VECTOR: u16 = 0xFFE;
/// The vectors of NMI and of sources 1 to 4.
pub const VECTORS: [u16; 5] = [0xFFC, 0xFF6, 0xFF4, 0xFF2, 0xFF0];

pub const X: u8 = 0x80;
pub const Y: u8 = 0x81;
/// The interrupt option register; its bit 4 enables sources 1 to 4. Programs
/// store to it and to the next one, but read 0 there (document 02, W-204).
pub const IOR: u8 = 0xC8;
/// The data ROM window register; programs read 0 there too.
pub const WINDOW: u8 = 0xC9;
/// The bank register, which picks the page; programs read it as any byte.
pub const BANK: u8 = 0xCA;
pub const A: u8 = 0xFF;

pub const STACK_LEVELS: usize = 6;
/// Bits 5 to 7 of a request byte or wired byte name no source.
pub const NO_SOURCE: u8 = 0xE0;

const fn wrap(address: u16) -> u16 {
    address & (SPACE - 1)
}

/// A displaced address, modulo 4096.
const fn displaced(address: u16, displacement: i8) -> u16 {
    wrap(address.wrapping_add_signed(displacement as i16))
}
