//! Certificates, checked.

use crate::harness::Harness;
use second::chip::SIZES;
use second::generate::{damage, dense, image_length, marks, program, random_image, Program, Rng};
use second::play::Call;
use std::borrow::Cow::Borrowed;

pub fn checks(h: &mut Harness, count: u64) {
    let mut valid = program(&mut h.rng);
    let mut marked = dense(&mut h.rng, 2048);
    for index in 0..count {
        if index % 8 == 0 {
            valid = program(&mut h.rng);
        }
        if index % 64 == 0 {
            let length = image_length(&mut h.rng);
            marked = dense(&mut h.rng, length);
        }
        let program = checked_program(&mut h.rng, &valid, &marked);
        let wired = match h.rng.below(200) {
            0 => h.rng.draw() as u32,
            1 => program.wired as u32 | 0x100,
            _ => program.wired as u32,
        };
        h.compare(Call::Check {
            image: Borrowed(&program.image),
            certificate: Borrowed(&program.certificate),
            wired,
        });
    }
}

/// A program for the check: valid, damaged, marked throughout, or random.
pub fn checked_program(rng: &mut Rng, valid: &Program, marked: &Program) -> Program {
    match rng.below(22) {
        0 | 1 => valid.clone(),
        2 => marked.clone(),
        20 => last_addresses(rng),
        3..=11 => {
            let mut program = valid.clone();
            for _ in 0..1 + rng.below(3) {
                damage(rng, &mut program);
            }
            program
        }
        12 | 13 => {
            let mut program = marked.clone();
            damage(rng, &mut program);
            program
        }
        14 => same_marks(rng),
        15 => {
            let certificate = random_marks(rng, valid.certificate.len());
            Program { certificate, ..valid.clone() }
        }
        16 => other_needs(rng, valid),
        17 => Program { wired: rng.byte() & 0x3F, ..valid.clone() },
        _ => {
            let image = random_image(rng);
            let certificate = random_marks(rng, marks(image.len()));
            Program { image, certificate, wired: rng.byte() & 0x1F }
        }
    }
}

/// A random image with one mark throughout, and only defined opcodes, so that
/// more than 5 is met.
fn same_marks(rng: &mut Rng) -> Program {
    let mut image = random_image(rng);
    for byte in &mut image {
        if SIZES[*byte as usize].length == 0 {
            *byte = 0x04;
        }
    }
    let kind = (1 + rng.below(4) as u8) << 4;
    let certificate = vec![kind | rng.below(7) as u8; marks(image.len())];
    Program { image, certificate, wired: rng.byte() & 0x1F }
}

/// A program with some needs drawn anew, kinds kept.
fn other_needs(rng: &mut Rng, valid: &Program) -> Program {
    let mut program = valid.clone();
    for mark in program.certificate.iter_mut().filter(|mark| **mark != 0) {
        if rng.chance(10) {
            *mark = *mark & 0xF0 | rng.below(7) as u8;
        }
    }
    program
}

/// A certificate of random marks.
fn random_marks(rng: &mut Rng, length: usize) -> Vec<u8> {
    let mut marks = vec![0; length];
    for _ in 0..1 + rng.any_size(200) {
        let index = if rng.chance(30) { length - 1 - rng.below(18) } else { rng.below(length) };
        marks[index] = match rng.below(10) {
            0 => rng.byte(),
            1 => rng.below(16) as u8,
            _ => (1 + rng.below(4) as u8) << 4 | rng.below(7) as u8,
        };
    }
    marks
}

/// Few marks, all at the end of ROM, where instructions run off it.
fn last_addresses(rng: &mut Rng) -> Program {
    let mut image = random_image(rng);
    let mut certificate = vec![0; marks(image.len())];
    let kind = (1 + rng.below(4) as u8) << 4;
    let few = 1 + rng.below(3);
    let last_bytes = image.iter_mut().rev().take(few);
    for ((byte, mark), left) in last_bytes.zip(certificate.iter_mut().rev()).zip((0..few).rev()) {
        *byte = rng.pick(&[0x04, 0x15, 0x17, 0x1F, 0x0D, 0x23, 0x01, 0x09, 0x05, 0xCD]);
        if left == 0 || rng.chance(60) {
            *mark = kind | rng.below(7) as u8;
        }
    }
    Program { image, certificate, wired: rng.byte() & 0x1F }
}
