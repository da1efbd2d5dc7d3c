//! An instruction as bytes.

use crate::chip::{Instruction, Operand, SIZES};
use crate::Refusal;
use Instruction::*;

pub const FIELDS: usize = 10;
/// The fields that `write` reads.
pub const WRITTEN_FIELDS: usize = 7;
pub const FORMS: usize = 30;

/// The operand kind of JRR, JRS, RES, SET and LDI rr, whose data address is
/// a part of the form and no operand.
const DATA_ADDRESS_KIND: u8 = 0;

pub const FORM_NAMES: [&str; FORMS] = [
    "JRNZ", "JRNC", "JRZ", "JRC", "CALL", "JP", "JRR", "JRS", "RES", "SET", "LD-A", "LD-to",
    "LDI-A", "LDI-rr", "INC", "DEC", "ADD", "ADDI", "SUB", "SUBI", "AND", "ANDI", "CP", "CPI",
    "COM", "RLC", "RET", "RETI", "STOP", "WAIT",
];

/// The form's number, 0 to 29.
fn form(instruction: Instruction) -> u8 {
    match instruction {
        Jrnz(_) => 0,
        Jrnc(_) => 1,
        Jrz(_) => 2,
        Jrc(_) => 3,
        Call(_) => 4,
        Jp(_) => 5,
        Jrr { .. } => 6,
        Jrs { .. } => 7,
        Res { .. } => 8,
        Set { .. } => 9,
        LdA(_) => 10,
        LdTo(_) => 11,
        LdiA(_) => 12,
        Ldi { .. } => 13,
        Inc(_) => 14,
        Dec(_) => 15,
        Add(_) => 16,
        Addi(_) => 17,
        Sub(_) => 18,
        Subi(_) => 19,
        And(_) => 20,
        Andi(_) => 21,
        Cp(_) => 22,
        Cpi(_) => 23,
        Com => 24,
        Rlc => 25,
        Ret => 26,
        Reti => 27,
        Stop => 28,
        Wait => 29,
    }
}

/// The packed fields of an instruction with the sizes of its opcode.
pub(super) fn fields(instruction: Instruction, opcode: u8) -> [u8; FIELDS] {
    let (mut kind, mut low, mut high, mut second, mut bit_number, mut by) = (0, 0, 0, 0, 0, 0i8);
    match instruction {
        Jrnz(displacement) | Jrnc(displacement) | Jrz(displacement) | Jrc(displacement) => {
            by = displacement;
        }
        Call(target) | Jp(target) => [low, high] = target.to_le_bytes(),
        Jrr { bit, address, displacement } | Jrs { bit, address, displacement } => {
            (kind, low, bit_number, by) = (DATA_ADDRESS_KIND, address, bit, displacement);
        }
        Res { bit, address } | Set { bit, address } => {
            (kind, low, bit_number) = (DATA_ADDRESS_KIND, address, bit);
        }
        LdA(operand) | LdTo(operand) | Inc(operand) | Dec(operand) | Add(operand)
        | Sub(operand) | And(operand) | Cp(operand) => {
            (kind, low) = match operand {
                Operand::Direct(address) => (1, address),
                Operand::Short(register) => (2, register),
                Operand::ByX => (3, 0),
                Operand::ByY => (4, 0),
            };
        }
        LdiA(value) | Addi(value) | Subi(value) | Andi(value) | Cpi(value) => low = value,
        Ldi { address, value } => (kind, low, second) = (DATA_ADDRESS_KIND, address, value),
        Com | Rlc | Ret | Reti | Stop | Wait => {}
    }
    let size = SIZES[opcode as usize];
    let by = by as u8;
    [form(instruction), kind, low, high, second, bit_number, by, size.length, size.cycles, 0]
}

/// The instruction that packed fields name. Only what the enum can't hold is
/// turned down here; the writer turns down the rest.
pub(super) fn instruction(fields: &[u8]) -> Result<Instruction, Refusal> {
    let &[form, kind, low, high, second, bit, by, ..] = fields else {
        return Err(Refusal::Operand);
    };
    unused_are_zero(form, [kind, low, high, second, bit, by])?;
    let displacement = by as i8;
    let target = u16::from_le_bytes([low, high]);
    let operand = || operand(kind, low);
    Ok(match form {
        0 => Jrnz(displacement),
        1 => Jrnc(displacement),
        2 => Jrz(displacement),
        3 => Jrc(displacement),
        4 => Call(target),
        5 => Jp(target),
        6 => Jrr { bit, address: low, displacement },
        7 => Jrs { bit, address: low, displacement },
        8 => Res { bit, address: low },
        9 => Set { bit, address: low },
        10 => LdA(operand()?),
        11 => LdTo(operand()?),
        12 => LdiA(low),
        13 => Ldi { address: low, value: second },
        14 => Inc(operand()?),
        15 => Dec(operand()?),
        16 => Add(operand()?),
        17 => Addi(low),
        18 => Sub(operand()?),
        19 => Subi(low),
        20 => And(operand()?),
        21 => Andi(low),
        22 => Cp(operand()?),
        23 => Cpi(low),
        _ => return plain(form).ok_or(Refusal::Operand),
    })
}

/// The forms without any field.
fn plain(form: u8) -> Option<Instruction> {
    [Com, Rlc, Ret, Reti, Stop, Wait].get((form as usize).checked_sub(24)?).copied()
}

fn operand(kind: u8, low: u8) -> Result<Operand, Refusal> {
    match kind {
        1 => Ok(Operand::Direct(low)),
        2 => Ok(Operand::Short(low)),
        3 => Ok(Operand::ByX),
        4 => Ok(Operand::ByY),
        _ => Err(Refusal::Operand),
    }
}

/// Whether the fields that a form doesn't use are 0: of kind, value low,
/// value high, second value, bit, displacement.
fn unused_are_zero(form: u8, given: [u8; 6]) -> Result<(), Refusal> {
    const O: bool = false;
    const I: bool = true;
    let kind = given[0];
    let used = match form {
        0..=3 => [O, O, O, O, O, I],
        4 | 5 => [O, I, I, O, O, O],
        6..=9 | 13 if kind != DATA_ADDRESS_KIND => return Err(Refusal::Operand),
        6 | 7 => [I, I, O, O, I, I],
        8 | 9 => [I, I, O, O, I, O],
        10 | 11 | 14 | 15 | 16 | 18 | 20 | 22 => [I, kind <= 2, O, O, O, O],
        12 | 17 | 19 | 21 | 23 => [O, I, O, O, O, O],
        13 => [I, I, O, I, O, O],
        _ => [O; 6],
    };
    if used.iter().zip(given).any(|(&used, byte)| !used && byte != 0) {
        Err(Refusal::Operand)
    } else {
        Ok(())
    }
}
