//! Programs with every byte marked, and with few marks.

use super::{marks, Program, Rng};
use crate::chip::{write, Instruction, HALF, RESET_VECTOR, VECTORS};

// Bytes that are good both as one-byte instructions and as operands, and
// jump at most a few places on.
const ONE: [u8; 24] = [
    0x04, 0x0C, 0x10, 0x1A, 0x24, 0x2E, 0x15, 0x35, 0x55, 0x75, 0x95, 0xB5, 0xD5, 0xF5, 0x07, 0x27,
    0x47, 0x2D, 0x1D, 0x3D, 0xAD, 0x0F, 0x6F, 0xA7,
];
const TWO: [u8; 12] = [0x17, 0x37, 0x57, 0xB7, 0xD7, 0x1F, 0x3F, 0x5F, 0x9F, 0xBF, 0x2B, 0x3B];
const THREE: [u8; 4] = [0x0D, 0x23, 0x33, 0xF3];
const CALL: u8 = 0xF1;

/// A program with every byte marked, operand bytes too: each is itself an
/// instruction that may be executed. All is start-up, but for a RET at FFFh.
/// Pages differ throughout.
pub fn dense(rng: &mut Rng, length: usize) -> Program {
    let mut image = vec![0x04; length];
    let calls = fill(rng, &mut image);
    let need = if calls { 1 + rng.below(6) as u8 } else { rng.below(7) as u8 };
    let mut certificate = vec![0x10 | need; marks(length)];
    into_fixed_half(rng, &mut image);
    // Nothing may run or jump off the end: NOPs, then JP CD0h at FFEh, with
    // the RET as its operand.
    image[length - 40..].fill(0x04);
    image[length - 2] = 0x09;
    image[length - 1] = 0xCD;
    *certificate.last_mut().expect("it has marks") = 0x40;
    Program { image, certificate, wired: 0 }
}

/// What stands at the end of a page goes on in the fixed half: no CALL, whose
/// target would stand there.
fn into_fixed_half(rng: &mut Rng, image: &mut [u8]) {
    let last_page = image.len().saturating_sub(2 * HALF);
    for page in image[..last_page].chunks_exact_mut(HALF) {
        if page[HALF - 1] == CALL {
            page[HALF - 1] = rng.pick(&TWO);
        }
    }
}

/// Fills an image but for its end; gives whether a CALL is in it.
fn fill(rng: &mut Rng, image: &mut [u8]) -> bool {
    let last = image.len() - 48;
    let mut index = 0;
    let mut calls = false;
    while index < last {
        match rng.below(12) {
            0..=6 => image[index] = rng.pick(&ONE),
            7..=9 => {
                image[index] = rng.pick(&TWO);
                image[index + 1] = rng.pick(&ONE);
                index += 1;
            }
            10 => {
                image[index] = rng.pick(&THREE);
                image[index + 1] = rng.pick(&ONE);
                image[index + 2] = rng.pick(&[0x04, 0x15, 0x1D, 0x07]);
                index += 2;
            }
            _ => {
                // CALL FFFh; its second byte is DEC of the byte after it.
                image[index] = CALL;
                image[index + 1] = 0xFF;
                calls = true;
                index += 1;
            }
        }
        index += 1;
    }
    calls
}

/// Document 01's P11, in an image of a length.
pub fn p11(length: usize) -> Program {
    six_marks(length, 0x880, 0x890)
}

/// P11 with its code at other places.
pub fn sparse(rng: &mut Rng, length: usize) -> Program {
    let low = (0x1000 - length) as u16;
    let start = low + rng.below(length / 2) as u16;
    let subroutine = start + 5 + rng.below(length / 4) as u16;
    six_marks(length, start, subroutine)
}

/// A start-up that is one RETI, a main loop that calls a subroutine, and the
/// service of NMI.
fn six_marks(length: usize, start: u16, subroutine: u16) -> Program {
    use Instruction::*;
    let code = [
        (start, Reti, 0x11),
        (start + 1, Call(subroutine), 0x21),
        (start + 3, Jp(start + 1), 0x21),
        (subroutine, Ret, 0x40),
        (VECTORS[0], Reti, 0x30),
        (RESET_VECTOR, Jp(start), 0x11),
    ];
    Program { wired: 0x01, ..written(length, &code) }
}

/// A 4K program with branches from its end to its beginning, and back.
pub fn round_the_end() -> Program {
    use Instruction::*;
    let (bit, address) = (0, 0);
    let code = [
        (0x000, Jrc(-16), 0x10),                                 // to FF1h
        (0x001, Jrs { bit, address, displacement: -128 }, 0x10), // to F83h
        (0x004, Jp(0x004), 0x10),
        (0x073, Jp(0x073), 0x10),
        (0xF83, Jp(0xF83), 0x10),
        (0xFF1, Jrz(15), 0x10),                                 // to 001h
        (0xFF2, Jrr { bit, address, displacement: 127 }, 0x10), // to 073h
        (0xFF5, Jp(0xFF5), 0x10),
        (RESET_VECTOR, Jp(0x000), 0x10),
    ];
    written(4096, &code)
}

/// A program of instructions with their addresses and marks, nothing wired.
/// In 4K an instruction may run over the end.
pub fn written(length: usize, code: &[(u16, Instruction, u8)]) -> Program {
    let mut program = Program { image: vec![0; length], certificate: vec![0; length], wired: 0 };
    for &(address, instruction, mark) in code {
        let index = address as usize - (0x1000 - length);
        let mut bytes = [0; 3];
        let size = write(instruction, &mut bytes).expect("a good instruction");
        for (offset, &byte) in bytes[..size].iter().enumerate() {
            program.image[(index + offset) % length] = byte;
        }
        program.certificate[index] = mark;
    }
    program
}

/// Instructions one after another, with their addresses and a mark.
pub fn placed(from: u16, mark: u8, code: &[Instruction]) -> Vec<(u16, Instruction, u8)> {
    let mut address = from;
    let mut lines = Vec::new();
    for &instruction in code {
        lines.push((address, instruction, mark));
        address += write(instruction, &mut [0; 3]).expect("a good instruction") as u16;
    }
    lines
}

/// A 4K image with code at some addresses.
pub fn laid_out(code: &[(u16, &[Instruction])]) -> Vec<u8> {
    let lines: Vec<_> = code.iter().flat_map(|&(from, code)| placed(from, 0, code)).collect();
    written(2 * HALF, &lines).image
}
