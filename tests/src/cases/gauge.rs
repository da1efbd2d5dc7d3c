//! The gauge, on programs written by hand.

use crate::boundary;
use crate::check::check;
use crate::gauge::{gauge, Gauged};
use crate::generate::{soonest, timed, Rng};
use crate::Refusal::*;

/// The table of [`by_hand`].
fn entry(index: usize) -> u8 {
    (17 * index) as u8
}

const MAIN: [(usize, &[u8]); 16] = [
    (0x880, &[0x0D, 0xC9, 0x28]), // LDI 0C9h,28h: the window shows A00h
    (0x883, &[0x1F, 0xC0]),       // LD A,0C0h
    (0x885, &[0xB7, 0x3F]),       // ANDI A,3Fh
    (0x887, &[0x57, 0x40]),       // ADDI A,40h
    (0x889, &[0x3D]),             // LD X,A
    (0x88A, &[0x07]),             // LD A,(X)
    (0x88B, &[0x57, 0x64]),       // ADDI A,100
    (0x88D, &[0x12]),             // JRNC over the next
    (0x88E, &[0x7F, 0x84]),       // INC 084h
    (0x890, &[0x9F, 0x85]),       // LD 085h,A
    (0x892, &[0x0D, 0x82, 0x03]), // LDI V,3
    (0x895, &[0x01, 0x8B]),       // CALL 8B0h
    (0x897, &[0x9D]),             // DEC V
    (0x898, &[0xE0]),             // JRNZ 895h
    (0x899, &[0x6D]),             // STOP
    (0x89A, &[0xA9, 0x89]),       // JP 89Ah
];

/// Adds the count to the width.
const SUBROUTINE: [(usize, &[u8]); 6] = [
    (0x8B0, &[0x1F, 0x85]), // LD A,085h
    (0x8B2, &[0x5F, 0xC0]), // ADD A,0C0h
    (0x8B4, &[0x9F, 0x85]), // LD 085h,A
    (0x8B6, &[0x12]),       // JRNC over the next
    (0x8B7, &[0x7F, 0x84]), // INC 084h
    (0x8B9, &[0xCD]),       // RET
];

/// A 2K program whose width is 100, three times the count, and an entry of a
/// table at A00h.
fn by_hand() -> (Vec<u8>, Vec<u8>) {
    let (mut image, mut marks) = (vec![0; 2048], vec![0; 2048]);
    let marked = MAIN.map(|line| (line, 0x11)).into_iter();
    for ((address, bytes), mark) in marked.chain(SUBROUTINE.map(|line| (line, 0x40))) {
        image[address - 0x800..][..bytes.len()].copy_from_slice(bytes);
        marks[address - 0x800] = mark;
    }
    image[0x7FE..].copy_from_slice(&[0x09, 0x88]); // JP 880h
    marks[0x7FE] = 0x11;
    for index in 0..64 {
        image[0x200 + index] = entry(index);
    }
    (image, marks)
}

/// The same with nothing below 800h.
fn in_4k((image, marks): &(Vec<u8>, Vec<u8>)) -> (Vec<u8>, Vec<u8>) {
    ([vec![0; 2048], image.clone()].concat(), [vec![0; 2048], marks.clone()].concat())
}

#[test]
fn widths_by_hand() {
    let small = by_hand();
    for (image, marks) in [in_4k(&small), small] {
        for count in 0..=255u8 {
            let width = 100 + 3 * count as u16 + entry(count as usize % 64) as u16;
            // 36 steps without a carry, and one INC for each.
            let steps = 36 + width / 256;
            assert_eq!(gauge(&image, &marks, count), Ok(Gauged { width, steps }));
            let word = (steps as u64) << 40 | (width as u64) << 24;
            assert_eq!(boundary::width(&image, &marks, count as u32), word);
            assert_eq!(boundary::gauged(word), Gauged { width, steps });
        }
    }
}

#[test]
fn every_refusal_of_the_check_is_23() {
    let (image, marks) = by_hand();
    for (address, byte, mark, number) in [
        (0xFFF, 0x89, 0x10, 4),
        (0x900, 0x05, 0x10, 5),
        (0x900, 0x04, 0x01, 14),
        (0x900, 0xCD, 0x10, 15),
        (0x900, 0x04, 0x10, 16),
        (0x880, 0x0D, 0x10, 17),
        (0xFFE, 0x09, 0x00, 18),
    ] {
        let (mut image, mut marks) = (image.clone(), marks.clone());
        image[address - 0x800] = byte;
        marks[address - 0x800] = mark;
        assert_eq!(check(&image, &marks, 0).unwrap_err().number(), number);
        assert_eq!(boundary::width(&image, &marks, 7), 23);
    }
    for (image, marks, number) in [
        (&image[..2047], &marks[..2047], 1),
        (&image[..], &marks[..2047], 13),
        (&image[..2047], &marks[..], 1),
        (&[], &[], 1),
    ] {
        assert_eq!(check(image, marks, 0).unwrap_err().number(), number);
        assert_eq!(boundary::width(image, marks, 7), 23);
    }
}

/// Sources that aren't wired need no service.
#[test]
fn nothing_is_wired() {
    let (image, mut marks) = by_hand();
    assert_eq!(check(&image, &marks, 0x1F), Err(Vector(0xFFC)));
    assert!(gauge(&image, &marks, 7).is_ok());
    marks[0x7FE] = 0x16;
    assert_eq!(check(&image, &marks, 0), Ok(6));
    assert!(gauge(&image, &marks, 7).is_ok());
}

#[test]
fn a_count_beyond_its_byte_comes_first() {
    let (image, marks) = by_hand();
    for count in [256, 65_536, 1 << 31, u32::MAX] {
        assert_eq!(boundary::width(&image, &marks, count), 8);
        assert_eq!(boundary::width(&image[1..], &marks, count), 8);
        assert_eq!(boundary::width(&image, &marks[1..], count), 8);
        assert_eq!(boundary::width(&[], &[], count), 8);
    }
}

/// JP 880h, loops of 65,409 steps in all, NOPs, then STOP or WAIT.
fn long(nops: usize, sleep: u8) -> Result<Gauged, crate::Refusal> {
    let loops = [0x0D, 0x83, 128, 0x0D, 0x82, 254, 0x9D, 0xF0, 0xDD, 0xC8];
    let (mut image, mut marks) = (vec![0; 2048], vec![0; 2048]);
    let end = 0x08A + nops;
    image[0x080..0x08A].copy_from_slice(&loops);
    image[0x08A..end].fill(0x04);
    image[end..end + 3].copy_from_slice(&[sleep, 0x09, 0x88]);
    image[0x7FE..].copy_from_slice(&[0x09, 0x88]);
    for address in [0x080, 0x083, 0x086, 0x087, 0x088, 0x089, 0x7FE] {
        marks[address] = 0x10;
    }
    marks[0x08A..end + 2].fill(0x10);
    gauge(&image, &marks, 0)
}

#[test]
fn the_last_step_that_may_sleep() {
    for sleep in [0x6D, 0xED] {
        for nops in 0..=124 {
            let steps = 1 + 65_409 + nops as u16 + 1;
            assert_eq!(long(nops, sleep), Ok(Gauged { width: 0, steps }));
        }
        for nops in 125..130 {
            assert_eq!(long(nops, sleep), Err(NoSleep));
        }
    }
}

#[test]
fn no_sleep() {
    let (mut image, mut marks) = (vec![0; 2048], vec![0; 2048]);
    image[0x7FE..].copy_from_slice(&[0xE9, 0xFF]); // JP FFEh
    marks[0x7FE] = 0x10;
    assert_eq!(gauge(&image, &marks, 0), Err(NoSleep));
    assert_eq!(boundary::width(&image, &marks, 255), 24);
    marks[0x7FE] = 0x20;
    assert_eq!(boundary::width(&image, &marks, 255), 23);
}

#[test]
fn the_first_steps() {
    for (program, steps) in soonest() {
        for count in [0, 255] {
            let answer = gauge(&program.image, &program.certificate, count).unwrap();
            assert_eq!(answer.steps, steps);
        }
    }
    let widths = soonest().into_iter().map(|(p, _)| gauge(&p.image, &p.certificate, 1));
    assert_eq!(widths.filter(|answer| answer.unwrap().width == 0x77).count(), 2);
}

#[test]
fn timed_programs() {
    let mut rng = Rng::new(5);
    for round in 0..200 {
        let count = rng.byte();
        for steps in [5_000, 65_534, 65_535, 65_536, 70_000] {
            let program = timed(&mut rng, count, steps);
            let answer = gauge(&program.image, &program.certificate, count);
            let expected = if steps <= 65_535 { Ok(steps as u16) } else { Err(NoSleep) };
            assert_eq!(answer.map(|gauged| gauged.steps), expected, "round {round}");
        }
    }
}
