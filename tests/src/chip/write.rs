//! The writer.

use super::{Instruction, Operand, SPACE};
use crate::Refusal;
use Instruction::*;
use Operand::*;

/// Writes an instruction from the buffer's first byte; gives its length.
pub fn write(instruction: Instruction, buffer: &mut [u8]) -> Result<usize, Refusal> {
    let (bytes, length) = encode(instruction)?;
    let place = buffer.get_mut(..length).ok_or(Refusal::Buffer)?;
    place.copy_from_slice(&bytes[..length]);
    Ok(length)
}

/// The bytes of an instruction and how many of them count.
type Encoded = ([u8; 3], usize);

fn encode(instruction: Instruction) -> Result<Encoded, Refusal> {
    Ok(match instruction {
        Jrnz(displacement) => short_jump(0x0, displacement)?,
        Jrnc(displacement) => short_jump(0x2, displacement)?,
        Jrz(displacement) => short_jump(0x4, displacement)?,
        Jrc(displacement) => short_jump(0x6, displacement)?,
        Call(target) => far(0x1, target)?,
        Jp(target) => far(0x9, target)?,
        Jrr { bit, address, displacement } => bit_jump(0x03, bit, address, displacement)?,
        Jrs { bit, address, displacement } => bit_jump(0x13, bit, address, displacement)?,
        Res { bit, address } => two(bit_opcode(0x0B, bit)?, address),
        Set { bit, address } => two(bit_opcode(0x1B, bit)?, address),
        LdA(operand) => with_short(operand, 0x35, [0x07, 0x0F, 0x1F])?,
        LdTo(operand) => with_short(operand, 0x3D, [0x87, 0x8F, 0x9F])?,
        LdiA(value) => two(0x17, value),
        Ldi { address, value } => ([0x0D, address, value], 3),
        Inc(operand) => with_short(operand, 0x15, [0x67, 0x6F, 0x7F])?,
        Dec(operand) => with_short(operand, 0x1D, [0xE7, 0xEF, 0xFF])?,
        Add(operand) => source(operand, [0x47, 0x4F, 0x5F])?,
        Addi(value) => two(0x57, value),
        Sub(operand) => source(operand, [0xC7, 0xCF, 0xDF])?,
        Subi(value) => two(0xD7, value),
        And(operand) => source(operand, [0xA7, 0xAF, 0xBF])?,
        Andi(value) => two(0xB7, value),
        Cp(operand) => source(operand, [0x27, 0x2F, 0x3F])?,
        Cpi(value) => two(0x37, value),
        Com => one(0x2D),
        Rlc => one(0xAD),
        Ret => one(0xCD),
        Reti => one(0x4D),
        Stop => one(0x6D),
        Wait => one(0xED),
    })
}

fn one(opcode: u8) -> Encoded {
    ([opcode, 0, 0], 1)
}

fn two(opcode: u8, second: u8) -> Encoded {
    ([opcode, second, 0], 2)
}

fn short_jump(digit: u8, displacement: i8) -> Result<Encoded, Refusal> {
    if (-16..=15).contains(&displacement) {
        Ok(one((displacement as u8) << 3 | digit))
    } else {
        Err(Refusal::Operand)
    }
}

fn far(digit: u8, target: u16) -> Result<Encoded, Refusal> {
    if target < SPACE {
        Ok(two(((target & 0xF) as u8) << 4 | digit, (target >> 4) as u8))
    } else {
        Err(Refusal::Operand)
    }
}

fn bit_opcode(low: u8, bit: u8) -> Result<u8, Refusal> {
    if bit < 8 {
        Ok(bit.reverse_bits() | low)
    } else {
        Err(Refusal::Operand)
    }
}

fn bit_jump(low: u8, bit: u8, address: u8, displacement: i8) -> Result<Encoded, Refusal> {
    Ok(([bit_opcode(low, bit)?, address, displacement as u8], 3))
}

/// By the opcodes for (X), (Y) and a direct address.
fn source(operand: Operand, [by_x, by_y, direct]: [u8; 3]) -> Result<Encoded, Refusal> {
    match operand {
        Direct(address) => Ok(two(direct, address)),
        Short(_) => Err(Refusal::Operand),
        ByX => Ok(one(by_x)),
        ByY => Ok(one(by_y)),
    }
}

/// The same, where X, Y, V, W have opcodes of their own.
fn with_short(operand: Operand, short: u8, others: [u8; 3]) -> Result<Encoded, Refusal> {
    match operand {
        Short(register) if register < 4 => Ok(one(short | register << 6)),
        _ => source(operand, others),
    }
}
