//! Opcodes, decoding and writing.

use crate::case::Case;
use crate::harness::Harness;
use second::boundary::{self, FIELDS, FORMS, WRITTEN_FIELDS};
use second::chip::{Rom, Space, BANK, HALF, SIZES};
use second::generate::{machine, marks, paged_length, random_image, request, EDGES};
use second::play::Call;
use std::borrow::Cow::{Borrowed, Owned};

/// All opcodes with edge operands: decode, write back, and step on machines
/// with edge data.
pub fn opcodes(h: &mut Harness, machines: usize) {
    for halves in [1, 2, 0] {
        for opcode in 0..=255u8 {
            let length = if halves == 0 { paged_length(&mut h.rng) } else { HALF * halves };
            let bank = h.rng.byte();
            let mut case = Case::new(&mut h.rng, length, 0);
            case.state[BANK as usize] = bank;
            let low = 0x1000 - marks(length);
            for second in EDGES {
                for third in EDGES {
                    let places =
                        [low, low + 0x123, 0x7FE, 0x7FF, 0xABC, 0xFF0, 0xFFD, 0xFFE, 0xFFF];
                    case.pc = h.rng.pick(&places).max(low);
                    case.write(&[opcode, second, third]);
                    opcode_at(h, &case.image, case.pc as u16, bank, machines);
                }
            }
        }
    }
}

fn opcode_at(h: &mut Harness, image: &[u8], pc: u16, bank: u8, machines: usize) {
    let image = Borrowed(image);
    let (address, bank) = (pc as u32, bank as u32);
    let out = if h.rng.chance(90) { FIELDS } else { h.rng.pick(&[0, 1, 9, 11, 20]) };
    h.compare(Call::Decode { image: image.clone(), address, bank, out });
    let decoded = h.compare(Call::Decode { image: image.clone(), address, bank, out: FIELDS });
    if boundary::number(decoded.answer) == 0 {
        let length = boundary::value(decoded.answer) as usize;
        let rom = Rom::new(&image).expect("decoded").with_bank(bank as u8);
        write_back(h, &rom, pc, decoded.out.bytes(), length);
    }
    for _ in 0..machines {
        let mut state = edge_machine(h, pc);
        state[BANK as usize] = bank as u8;
        let request = if h.rng.chance(90) { 0 } else { request(&mut h.rng) as u32 };
        h.compare(Call::Step { image: image.clone(), state: Owned(state), request });
    }
}

/// Writes what was decoded at an address: the same bytes come back.
fn write_back(h: &mut Harness, rom: &Rom, address: u16, fields: &[u8], length: usize) {
    for out in 0..=4 {
        let given = if out % 2 == 0 { fields } else { &fields[..WRITTEN_FIELDS] };
        let written = h.compare(Call::Write { fields: Borrowed(given), out });
        if out >= length {
            for (offset, &byte) in written.out.bytes()[..length].iter().enumerate() {
                let place = (address + offset as u16) & 0xFFF;
                assert_eq!(rom.byte(place), Some(byte), "writing back gives the bytes");
            }
        }
    }
}

/// A machine at an address with edge data, awake more often than not.
fn edge_machine(h: &mut Harness, pc: u16) -> Vec<u8> {
    let mut state = machine(&mut h.rng);
    for byte in &mut state[..256] {
        *byte = h.rng.edge();
    }
    state[256..258].copy_from_slice(&pc.to_le_bytes());
    if h.rng.chance(80) {
        state[260] = 0;
    }
    if h.rng.chance(30) {
        // Pointers at the places that are special.
        state[0x80] = h.rng.pick(&[0x3F, 0x40, 0x7F, 0x80, 0x81, 0xC8, 0xC9, 0xFF]);
        state[0x81] = h.rng.pick(&[0x3F, 0x40, 0x7F, 0x80, 0x81, 0xC8, 0xC9, 0xFF]);
        state[0xC9] = h.rng.byte();
    }
    state
}

/// What is small enough to be tried out in full: every opcode with every
/// second byte, every third byte, every sum and difference, every window.
pub fn exhaustive(h: &mut Harness) {
    let mut image = vec![0; 4096];
    for opcode in 0..=255u8 {
        let third_matters = SIZES[opcode as usize].length == 3;
        for second in 0..=255u8 {
            image[..3].copy_from_slice(&[opcode, second, h.rng.byte()]);
            opcode_at(h, &image, 0, 0, 1);
        }
        for third in (0..=255u8).filter(|_| third_matters) {
            image[..3].copy_from_slice(&[opcode, h.rng.byte(), third]);
            opcode_at(h, &image, 0, 0, 1);
        }
    }
    let mut state = machine(&mut h.rng);
    state[258..261].copy_from_slice(&[0, 1, 0]);
    state[256..258].fill(0);
    every_immediate(h, &mut image, &mut state);
    every_accumulator(h, &mut image, &mut state);
    every_window(h, &mut state);
}

/// A step in any mode with any flags.
fn one_step(h: &mut Harness, image: &[u8], state: &mut [u8]) {
    state[259] = h.rng.below(5) as u8;
    for flag in &mut state[261..267] {
        *flag = h.rng.chance(50) as u8;
    }
    h.compare(Call::Step { image: Borrowed(image), state: Borrowed(state), request: 0 });
}

/// Every A with every immediate of ADDI, SUBI, CPI, ANDI and LDI.
fn every_immediate(h: &mut Harness, image: &mut [u8], state: &mut [u8]) {
    for opcode in [0x57, 0xD7, 0x37, 0xB7, 0x17] {
        for a in 0..=255u8 {
            for source in 0..=255u8 {
                image[..2].copy_from_slice(&[opcode, source]);
                state[0xFF] = a;
                one_step(h, image, state);
            }
        }
    }
}

/// Every A, and every X, as the operand of instructions that change a byte.
fn every_accumulator(h: &mut Harness, image: &mut [u8], state: &mut [u8]) {
    const ON_A: [u8; 8] = [0x5F, 0xDF, 0x3F, 0xBF, 0x7F, 0xFF, 0x1F, 0x9F];
    const ON_X: [u8; 8] = [0x3D, 0x35, 0x15, 0x1D, 0x67, 0xE7, 0x87, 0x07];
    let codes = [[0x2D, 0], [0xAD, 0]].into_iter();
    let codes =
        codes.chain(ON_A.map(|opcode| [opcode, 0xFF])).chain(ON_X.map(|opcode| [opcode, 0]));
    for bytes in codes {
        image[..2].copy_from_slice(&bytes);
        for a in 0..=255u8 {
            for _ in 0..8 {
                state[0xFF] = a;
                state[0x80] = a;
                one_step(h, image, state);
            }
        }
    }
}

/// The ROM window, page by page.
fn every_window(h: &mut Harness, state: &mut [u8]) {
    for length in [2048, 4096] {
        let mut image = vec![0; length];
        h.rng.fill(&mut image);
        image[length - 2] = 0x1F; // LD A,rr at FFEh
        state[256..258].copy_from_slice(&[0xFE, 0x0F]);
        for page in 0..=255u8 {
            for address in 0x3F..=0x80 {
                image[length - 1] = address;
                state[0xC9] = page;
                one_step(h, &image, state);
            }
        }
    }
}

/// Every address decoded in random images, and numbers above FFFh.
pub fn decodes(h: &mut Harness, images: usize) {
    for _ in 0..images {
        let image = random_image(&mut h.rng);
        for address in 0..0x1000 {
            let bank = h.rng.byte() as u32;
            h.compare(Call::Decode { image: Borrowed(&image), address, bank, out: FIELDS });
        }
        for address in [0x1000, 0x1001, 0x1FFF, 0xFFFF, 0x1_0000, 0x1_0FFE, u32::MAX] {
            for out in [0, FIELDS] {
                for bank in [0, 1, 255, 256, 0x101, 0x8000_0000, u32::MAX] {
                    h.compare(Call::Decode { image: Borrowed(&image), address, bank, out });
                }
            }
        }
    }
}

/// Fields of every kind, good and bad.
pub fn writes(h: &mut Harness, count: usize) {
    edge_writes(h);
    for _ in 0..count {
        let mut fields = vec![0; if h.rng.chance(90) { FIELDS } else { h.rng.below(13) }];
        for (index, byte) in fields.iter_mut().enumerate() {
            let good = h.rng.chance(90);
            *byte = match index {
                0 => h.rng.below(if good { FORMS } else { 256 }) as u8,
                1 => h.rng.below(if good { 5 } else { 256 }) as u8,
                _ if h.rng.chance(60) => 0,
                3 => h.rng.below(0x11) as u8,
                5 => h.rng.below(9) as u8,
                6 => (h.rng.below(40) as u8).wrapping_sub(20),
                _ => h.rng.byte(),
            };
        }
        if fields.len() > WRITTEN_FIELDS && h.rng.chance(20) {
            h.rng.fill(&mut fields[WRITTEN_FIELDS..]); // what write doesn't read
        }
        let out = h.rng.below(6);
        h.compare(Call::Write { fields: Owned(fields), out });
    }
}

/// Every form with every operand kind and edge fields.
fn edge_writes(h: &mut Harness) {
    // Second value, bit, displacement.
    const REST: [[u8; 3]; 10] = [
        [0, 0, 0],
        [0, 7, 0],
        [0, 8, 0],
        [1, 0, 0],
        [0, 0, 15],
        [0, 0, 16],
        [0, 0, 0xF0],
        [0, 0, 0xEF],
        [0, 7, 0x80],
        [9, 7, 1],
    ];
    for form in 0..FORMS as u8 + 2 {
        for kind in 0..6 {
            for low in [0, 1, 3, 4, 0x80, 0x83, 0xFF] {
                for high in [0, 1, 0x0F, 0x10, 0xFF] {
                    for [second, bit, by] in REST {
                        let fields = [form, kind, low, high, second, bit, by];
                        h.compare(Call::Write { fields: Borrowed(&fields), out: 3 });
                    }
                }
            }
        }
    }
}
