//! P1 to P12, and the cases after them.

use super::*;
use crate::check::check;
use crate::chip::{A, VECTORS};
use crate::job::line;
use crate::Refusal::*;

#[test]
fn p1_add() {
    let m = stepped(&[0x5F, 0x22], &[(A, 0x20), (0x22, 0x33)], BOTH);
    assert_eq!((m.data[0xFF], m.data[0x22], m.flags[0]), (0x53, 0x33, flags(0, 0)));
    assert_eq!(m.pc, 0x102);
}

#[test]
fn p2_com() {
    let m = stepped(&[0x2D], &[(A, 0xB9)], CLEAR);
    assert_eq!((m.data[0xFF], m.flags[0]), (0x46, flags(0, 1)));
    let m = stepped(&[0x2D], &[(A, 0xFF)], CLEAR);
    assert_eq!((m.data[0xFF], m.flags[0]), (0, flags(1, 1)));
}

#[test]
fn p3_clear_a() {
    let m = stepped(&[0xDF, 0xFF], &[(A, 0x77)], flags(0, 1));
    assert_eq!((m.data[0xFF], m.flags[0]), (0, flags(1, 0)));
}

#[test]
fn p4_compare() {
    let m = stepped(&[0x37, 0x11], &[(A, 0x10)], CLEAR);
    assert_eq!((m.data[0xFF], m.flags[0]), (0x10, flags(0, 1)));
    let m = stepped(&[0x3F, 0x20], &[(A, 0x10), (0x20, 0x11)], CLEAR);
    assert_eq!((m.data[0xFF], m.flags[0]), (0x10, flags(0, 1)));
    let m = stepped(&[0x3F, 0x20], &[(A, 0x10), (0x20, 0x10)], BOTH);
    assert_eq!(m.flags[0], flags(1, 0));
}

#[test]
fn p5_rotate() {
    let m = stepped(&[0xAD], &[(A, 0x81)], flags(0, 1));
    assert_eq!((m.data[0xFF], m.flags[0]), (0x03, flags(0, 1)));
}

#[test]
fn p6_res() {
    let m = stepped(&[0x2B, 0x23], &[(0x23, 0xFF)], BOTH);
    assert_eq!((m.data[0x23], m.flags[0]), (0xEF, BOTH));
}

#[test]
fn p7_short_jumps() {
    for (opcode, by) in [(0x7E, 16), (0x86, -15), (0xFE, 0)] {
        let m = stepped(&[opcode], &[], flags(0, 1));
        assert_eq!(m.pc as i32, 0x100 + by);
        let m = stepped(&[opcode], &[], CLEAR);
        assert_eq!(m.pc, 0x101);
    }
}

#[test]
fn p8_jrr() {
    // Cell 70h shows the ROM: page 0 shows the byte at 30h.
    let mut rom = image(110, &[0x23, 0x70, 0xEA]);
    let mut m = machine(110, &[]);
    m.flags[0] = BOTH;
    assert_eq!(m.step(&rom, 0), Ok(5));
    assert_eq!((m.pc, m.flags[0]), (90, flags(1, 0)));
    rom[0x30] = 0x10;
    let mut m = machine(110, &[]);
    assert_eq!(m.step(&rom, 0), Ok(5));
    assert_eq!((m.pc, m.flags[0]), (113, flags(0, 1)));
}

#[test]
fn p9_jrs() {
    let rom = image(123, &[0xF3, 0xAF, 0x17]);
    let mut m = machine(123, &[(0xAF, 0x80)]);
    assert_eq!(m.step(&rom, 0), Ok(5));
    assert_eq!((m.pc, m.flags[0]), (148, flags(0, 1)));
    let mut m = machine(123, &[(0xAF, 0x7F)]);
    m.flags[0] = BOTH;
    assert_eq!(m.step(&rom, 0), Ok(5));
    assert_eq!((m.pc, m.flags[0]), (126, flags(1, 0)));
}

#[test]
fn p10_call_and_jump() {
    let mut m = machine(0x345, &[]);
    assert_eq!(m.step(&image(0x345, &[0xC1, 0x8D]), 0), Ok(4));
    assert_eq!((m.pc, m.levels, m.stack[0]), (0x8DC, 1, 0x347));
    let m = stepped(&[0xD9, 0x5C], &[], BOTH);
    assert_eq!((m.pc, m.levels), (0x5CD, 0));
}

#[test]
fn p11_accepted() {
    let (image, marks) = p11();
    assert_eq!(check(&image, &marks, 0x01), Ok(2));
    assert_eq!(line(&job(0x01, &image, &marks)), "accepted 2\n");
}

#[test]
fn p12_refused() {
    let (image, mut marks) = p11();
    marks[0x083] = 0x20;
    assert_eq!(check(&image, &marks, 0x01), Err(Need(0x883)));
    assert_eq!(line(&job(0x01, &image, &marks)), "refused 17 883\n");
}

#[test]
fn the_other_bench_cases() {
    // A start-up that jumps to itself, and services that return at once.
    let start = |need: u8, wired: u8| {
        let mut image = vec![0; 2048];
        let mut marks = vec![0; 2048];
        image[0x7FE..].copy_from_slice(&[0xE9, 0xFF]);
        marks[0x7FE] = 0x10 | need;
        for vector in VECTORS {
            image[vector as usize - 0x800] = 0x4D;
            marks[vector as usize - 0x800] = 0x30;
        }
        check(&image, &marks, wired)
    };
    assert_eq!(start(6, 0), Ok(6));
    assert_eq!(start(4, 0x03), Ok(6));
    assert_eq!(start(4, 0x1F), Ok(6));
    assert_eq!(start(5, 0x03), Err(TooManyLevels));
    assert_eq!(check(&vec![0; 2047], &vec![0; 2047], 0), Err(ImageLength));
    assert_eq!(check(&vec![0; 2049], &vec![0; 2049], 0), Err(ImageLength));
    let mut image = vec![0; 2048];
    let mut marks = vec![0; 2048];
    image[0x7FF] = 0x09;
    marks[0x7FF] = 0x10;
    assert_eq!(check(&image, &marks, 0), Err(OutsideRom(0xFFF)));
}
