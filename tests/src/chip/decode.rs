//! The decoder.

use super::rom::Fetched;
use super::{Instruction, Operand, Rom, Space, SPACE};
use crate::Refusal;
use Instruction::*;
use Operand::*;

/// Decodes the instruction at an address of an image, with the page in place
/// that a bank byte picks.
pub fn decode(image: &[u8], address: u32, bank: u8) -> Result<Instruction, Refusal> {
    let rom = Rom::new(image)?;
    if address >= SPACE as u32 {
        return Err(Refusal::AddressRange);
    }
    match rom {
        Rom::Flat(flat) => decode_at(&flat, address as u16),
        Rom::Paged(paged) => decode_at(&paged.with_bank(bank), address as u16),
    }
}

/// Decodes at an address of twelve bits.
#[inline(always)]
pub fn decode_at(rom: &impl Space, address: u16) -> Result<Instruction, Refusal> {
    let code = Fetched::at(rom, address)?;
    Ok(match code.opcode & 0x0F {
        0x0 | 0x8 => Jrnz(code.short_displacement()),
        0x2 | 0xA => Jrnc(code.short_displacement()),
        0x4 | 0xC => Jrz(code.short_displacement()),
        0x6 | 0xE => Jrc(code.short_displacement()),
        0x1 => Call(code.target()?),
        0x9 => Jp(code.target()?),
        0x3 => bit_jump(&code)?,
        0xB => bit_change(&code)?,
        0x5 => column_5(&code)?,
        0x7 => column_7(&code)?,
        0xD => column_d(&code)?,
        _ => column_f(&code)?,
    })
}

#[inline(always)]
fn bit_jump(code: &Fetched<impl Space>) -> Result<Instruction, Refusal> {
    let bit = code.bit_number();
    let address = code.second()?;
    let displacement = code.third()? as i8;
    Ok(if code.odd_row() {
        Jrs { bit, address, displacement }
    } else {
        Jrr { bit, address, displacement }
    })
}

#[inline(always)]
fn bit_change(code: &Fetched<impl Space>) -> Result<Instruction, Refusal> {
    let bit = code.bit_number();
    let address = code.second()?;
    Ok(if code.odd_row() { Set { bit, address } } else { Res { bit, address } })
}

#[inline(always)]
fn column_5(code: &Fetched<impl Space>) -> Result<Instruction, Refusal> {
    Ok(match code.opcode {
        0x15 | 0x55 | 0x95 | 0xD5 => Inc(Short(code.register())),
        0x35 | 0x75 | 0xB5 | 0xF5 => LdA(Short(code.register())),
        _ => return Err(code.undefined()),
    })
}

#[inline(always)]
fn column_7(code: &Fetched<impl Space>) -> Result<Instruction, Refusal> {
    Ok(match code.opcode {
        0x07 => LdA(ByX),
        0x17 => LdiA(code.second()?),
        0x27 => Cp(ByX),
        0x37 => Cpi(code.second()?),
        0x47 => Add(ByX),
        0x57 => Addi(code.second()?),
        0x67 => Inc(ByX),
        0x87 => LdTo(ByX),
        0xA7 => And(ByX),
        0xB7 => Andi(code.second()?),
        0xC7 => Sub(ByX),
        0xD7 => Subi(code.second()?),
        0xE7 => Dec(ByX),
        _ => return Err(code.undefined()),
    })
}

#[inline(always)]
fn column_d(code: &Fetched<impl Space>) -> Result<Instruction, Refusal> {
    Ok(match code.opcode {
        0x1D | 0x5D | 0x9D | 0xDD => Dec(Short(code.register())),
        0x3D | 0x7D | 0xBD | 0xFD => LdTo(Short(code.register())),
        0x0D => Ldi { address: code.second()?, value: code.third()? },
        0x2D => Com,
        0x4D => Reti,
        0x6D => Stop,
        0xAD => Rlc,
        0xCD => Ret,
        0xED => Wait,
        _ => return Err(code.undefined()),
    })
}

#[inline(always)]
fn column_f(code: &Fetched<impl Space>) -> Result<Instruction, Refusal> {
    Ok(match code.opcode {
        0x0F => LdA(ByY),
        0x1F => LdA(Direct(code.second()?)),
        0x2F => Cp(ByY),
        0x3F => Cp(Direct(code.second()?)),
        0x4F => Add(ByY),
        0x5F => Add(Direct(code.second()?)),
        0x6F => Inc(ByY),
        0x7F => Inc(Direct(code.second()?)),
        0x8F => LdTo(ByY),
        0x9F => LdTo(Direct(code.second()?)),
        0xAF => And(ByY),
        0xBF => And(Direct(code.second()?)),
        0xCF => Sub(ByY),
        0xDF => Sub(Direct(code.second()?)),
        0xEF => Dec(ByY),
        0xFF => Dec(Direct(code.second()?)),
        _ => return Err(code.undefined()),
    })
}
