//! The opcode map: the decoder, the writer and the table.

use super::*;
use crate::chip::{decode, write, Instruction, Operand, Size};
use crate::Refusal::{self, *};
use Instruction::*;
use Operand::*;

#[test]
fn the_map_counts() {
    let count = |test: &dyn Fn(&Size) -> bool| SIZES.iter().filter(|s| test(s)).count();
    assert_eq!(count(&|s| s.length == 0 && s.cycles == 0), 12);
    assert_eq!([1, 2, 3].map(|n| count(&|s| s.length == n)), [166, 61, 17]);
    assert_eq!([2, 4, 5].map(|n| count(&|s| s.cycles == n)), [132, 96, 16]);
    let undefined = [0x05, 0x25, 0x45, 0x65, 0x85, 0xA5, 0xC5, 0xE5, 0x77, 0x97, 0xF7, 0x8D];
    for opcode in 0..=255u8 {
        let decoded = decode(&image(0x100, &[opcode, 0x12, 0x34]), 0x100, 0);
        assert_eq!(decoded.is_err(), undefined.contains(&opcode), "{opcode:02X}");
        assert_eq!(SIZES[opcode as usize].length == 0, undefined.contains(&opcode));
    }
}

/// Writing what was decoded gives the bytes back, and the executor moves on
/// by the table's length and cycles.
#[test]
fn decode_write_and_execute_agree() {
    for opcode in 0..=255u8 {
        for (second, third) in [(0x00, 0x00), (0x34, 0x80), (0xFF, 0x7F)] {
            let bytes = [opcode, second, third];
            let rom = image(0x100, &bytes);
            let Size { length, cycles } = SIZES[opcode as usize];
            let mut m = machine(0x100, &[]);
            (m.levels, m.stack[0]) = (1, 0x222);
            match decode(&rom, 0x100, 0) {
                Err(refusal) => {
                    assert_eq!(refusal, Undefined(0x100));
                    let before = m.clone();
                    assert_eq!(m.step(&rom, 0), Err(refusal));
                    assert_eq!(m, before);
                }
                Ok(instruction) => {
                    let mut out = [0xEE; 4];
                    assert_eq!(write(instruction, &mut out), Ok(length as usize));
                    assert_eq!(out[..length as usize], bytes[..length as usize]);
                    assert!(out[length as usize..].iter().all(|&byte| byte == 0xEE));
                    let short = &mut out[..length as usize - 1];
                    assert_eq!(write(instruction, short), Err(Buffer));
                    assert_eq!(m.step(&rom, 0), Ok(cycles as u32));
                    match instruction {
                        Jp(target) | Call(target) => assert_eq!(m.pc, target),
                        Ret | Reti => assert_eq!(m.pc, 0x222),
                        Jrr { .. } | Jrs { .. } | Jrnz(_) | Jrnc(_) | Jrz(_) | Jrc(_) => {}
                        _ => assert_eq!(m.pc, 0x100 + length as u16),
                    }
                }
            }
        }
    }
}

#[test]
fn writer_refusals() {
    let refused = |instruction| {
        assert_eq!(write(instruction, &mut [0; 3]), Err(Refusal::Operand));
        assert_eq!(write(instruction, &mut []), Err(Refusal::Operand));
    };
    refused(Jrnz(16));
    refused(Jrc(-17));
    refused(Call(0x1000));
    refused(Res { bit: 8, address: 0 });
    refused(Jrs { bit: 8, address: 0, displacement: 0 });
    refused(LdA(Short(4)));
    for register in 0..4 {
        refused(Add(Short(register)));
        refused(Sub(Short(register)));
        refused(And(Short(register)));
        refused(Cp(Short(register)));
    }
    let mut out = [0; 3];
    assert_eq!(write(Jrz(-16), &mut out), Ok(1));
    assert_eq!(out[0], 0x84);
    assert_eq!(decode(&image(0, &[0x84]), 0, 0), Ok(Jrz(-16)));
}

#[test]
fn decode_refusals() {
    let two = vec![0x09; 2048];
    assert_eq!(decode(&[0; 100], 0x2000, 0), Err(ImageLength));
    assert_eq!(decode(&two, 0x1000, 0), Err(AddressRange));
    assert_eq!(decode(&two, 0x7FF, 0), Err(OutsideRom(0x7FF)));
    assert_eq!(decode(&two, 0xFFF, 0), Err(OutsideRom(0xFFF)));
    assert_eq!(decode(&two, 0xFFE, 0), Ok(Jp(0x090)));
    let mut four = vec![0; 4096];
    (four[0xFFF], four[0], four[1]) = (0x0D, 0x12, 0x34);
    assert_eq!(decode(&four, 0xFFF, 0), Ok(Ldi { address: 0x12, value: 0x34 }));
}
