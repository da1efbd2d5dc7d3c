//! The manual's worked examples.

use super::*;
use crate::chip::{A, X, Y};

#[test]
fn manual_arithmetic() {
    let m = stepped(&[0x57, 0x22], &[(A, 0x20)], BOTH); // ADDI A,22h
    assert_eq!((m.data[0xFF], m.flags[0]), (0x42, flags(0, 0)));
    // AND A,54h: the example's cell lies in the ROM window; 34h does not.
    let m = stepped(&[0xBF, 0x34], &[(A, 0b1100_1100), (0x34, 0b1111_0000)], BOTH);
    assert_eq!((m.data[0xFF], m.flags[0]), (0b1100_0000, flags(0, 1)));
    let mut rom = image(0x100, &[0xBF, 0x54]);
    rom[0x14] = 0b1111_0000;
    let mut m = machine(0x100, &[(A, 0b1100_1100)]);
    m.step(&rom, 0).unwrap();
    assert_eq!(m.data[0xFF], 0b1100_0000);
    let m = stepped(&[0xB7, 0x33], &[(A, 0b0000_1111)], CLEAR); // ANDI A,33h
    assert_eq!(m.data[0xFF], 0b0000_0011);
    // SUB A,(Y) and SUBI A,25h, with the ST62's carry.
    let m = stepped(&[0xCF], &[(A, 0x78), (Y, 0x23), (0x23, 0x53)], BOTH);
    assert_eq!((m.data[0xFF], m.flags[0]), (0x25, flags(0, 0)));
    let m = stepped(&[0xD7, 0x25], &[(A, 0x56)], BOTH);
    assert_eq!((m.data[0xFF], m.flags[0]), (0x31, flags(0, 0)));
    let m = stepped(&[0xD7, 0x57], &[(A, 0x56)], BOTH);
    assert_eq!((m.data[0xFF], m.flags[0]), (0xFF, flags(0, 1)));
    // CP A,34h and CPI: Z 0, and C 0 on the ST62.
    let m = stepped(&[0x3F, 0x34], &[(A, 0xF8), (0x34, 0x1C)], BOTH);
    assert_eq!((m.data[0xFF], m.flags[0]), (0xF8, flags(0, 0)));
    let m = stepped(&[0x37, 0x1C], &[(A, 0xF8)], BOTH);
    assert_eq!(m.flags[0], flags(0, 0));
    // RLC A and SLA A.
    let m = stepped(&[0xAD], &[(A, 0b1000_1001)], CLEAR);
    assert_eq!((m.data[0xFF], m.flags[0]), (0b0001_0010, flags(0, 1)));
    let m = stepped(&[0x5F, 0xFF], &[(A, 0b1100_1101)], CLEAR);
    assert_eq!((m.data[0xFF], m.flags[0]), (0b1001_1010, flags(0, 1)));
    // ADD overflows to zero.
    let m = stepped(&[0x57, 0x80], &[(A, 0x80)], CLEAR);
    assert_eq!((m.data[0xFF], m.flags[0]), (0, BOTH));
}

#[test]
fn manual_increments() {
    // The examples' cell 45h lies in the ROM window; 25h does not.
    let m = stepped(&[0x67], &[(X, 0x25), (0x25, 0x16)], flags(1, 1)); // INC (X)
    assert_eq!((m.data[0x25], m.flags[0]), (0x17, flags(0, 1)));
    let m = stepped(&[0xE7], &[(X, 0x25), (0x25, 0x16)], flags(1, 1)); // DEC (X)
    assert_eq!((m.data[0x25], m.flags[0]), (0x15, flags(0, 1)));
    // In the window nothing is stored, and Z follows the result.
    let mut rom = image(0x100, &[0x67]);
    rom[0x05] = 0xFF;
    let mut m = machine(0x100, &[(X, 0x45), (0x45, 0x16)]);
    m.step(&rom, 0).unwrap();
    assert_eq!((m.data[0x45], m.flags[0]), (0x16, flags(1, 0)));
    for (inc, dec, register) in
        [(0x15, 0x1D, 0x80), (0x55, 0x5D, 0x81), (0x95, 0x9D, 0x82), (0xD5, 0xDD, 0x83)]
    {
        let m = stepped(&[inc], &[(register, 0xFF)], flags(0, 1));
        assert_eq!((m.data[register as usize], m.flags[0]), (0, BOTH));
        let m = stepped(&[dec], &[(register, 0x00)], flags(1, 0));
        assert_eq!((m.data[register as usize], m.flags[0]), (0xFF, flags(0, 0)));
    }
}

#[test]
fn manual_loads() {
    let m = stepped(&[0x1F, 0x34], &[(0x34, 0x45)], flags(1, 1)); // LD A,34h
    assert_eq!((m.data[0xFF], m.data[0x34], m.flags[0]), (0x45, 0x45, flags(0, 1)));
    let m = stepped(&[0x0D, 0x34, 0x45], &[], flags(1, 1)); // LDI 34h,45h
    assert_eq!((m.data[0x34], m.flags[0], m.pc), (0x45, BOTH, 0x103));
    let m = stepped(&[0x0D, 0xFF, 0x00], &[(A, 1)], CLEAR); // LDI to A sets no flag
    assert_eq!((m.data[0xFF], m.flags[0]), (0, CLEAR));
    let m = stepped(&[0x17, 0x00], &[(A, 1)], CLEAR); // LDI A,0 sets Z
    assert_eq!((m.data[0xFF], m.flags[0]), (0, flags(1, 0)));
    let m = stepped(&[0x0D, 0x22, 0x00], &[(0x22, 0x33)], CLEAR); // CLR 22h
    assert_eq!((m.data[0x22], m.flags[0]), (0, CLEAR));
    let m = stepped(&[0x9F, 0x22], &[(A, 0), (0x22, 9)], CLEAR); // LD 22h,A
    assert_eq!((m.data[0x22], m.flags[0]), (0, flags(1, 0)));
    let m = stepped(&[0x9F, 0x62], &[(A, 0), (0x62, 9)], CLEAR); // LD into the window
    assert_eq!((m.data[0x62], m.flags[0]), (9, flags(1, 0)));
    let m = stepped(&[0xBD], &[(A, 7)], flags(1, 1)); // LD V,A
    assert_eq!((m.data[0x82], m.flags[0]), (7, flags(0, 1)));
    let m = stepped(&[0x8F], &[(A, 7), (Y, 0x81)], CLEAR); // LD (Y),A onto Y itself
    assert_eq!(m.data[0x81], 7);
}

#[test]
fn manual_bits_and_jumps() {
    let m = stepped(&[0x3B, 0x23], &[], BOTH); // SET 4,23h
    assert_eq!((m.data[0x23], m.flags[0]), (0x10, BOTH));
    // RLC before JRC +8, JRNC -5, JRNZ -5, JRZ +8.
    let code = |digit: u8, by: i8| ((by - 1) as u8) << 3 | digit;
    assert_eq!(stepped(&[code(6, 8)], &[], flags(0, 1)).pc, 0x108);
    assert_eq!(stepped(&[code(2, -5)], &[], flags(1, 0)).pc, 0x0FB);
    assert_eq!(stepped(&[code(0, -5)], &[], flags(0, 1)).pc, 0x0FB);
    assert_eq!(stepped(&[code(4, 8)], &[], flags(1, 0)).pc, 0x108);
    let m = stepped(&[0x04], &[], BOTH); // NOP
    assert_eq!((m.pc, m.flags[0]), (0x101, BOTH));
}

#[test]
fn manual_returns() {
    let mut m = machine(0x456, &[]);
    (m.levels, m.stack[0], m.stack[1]) = (2, 0x111, 0x3DF);
    let mut r = m.clone();
    assert_eq!(m.step(&image(0x456, &[0xCD]), 0), Ok(2));
    assert_eq!((m.pc, m.levels, m.mode), (0x3DF, 1, Mode::Normal));
    r.mode = Mode::NmiOverInterrupt;
    r.flags = [flags(0, 1), flags(1, 0), flags(1, 1)];
    let kept = r.flags;
    assert_eq!(r.step(&image(0x456, &[0x4D]), 0), Ok(2));
    assert_eq!((r.pc, r.levels, r.mode, r.flags), (0x3DF, 1, Mode::Interrupt, kept));
}
