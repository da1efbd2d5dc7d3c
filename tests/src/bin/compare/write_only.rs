//! 0C8h and 0C9h, which can't be read: every read gives 0, and what is stored
//! enables sources and chooses the window's page.

use crate::case::Case;
use crate::harness::Harness;
use crate::opcode_map::{operations, reads_anywhere};
use crate::origins::read;
use second::chip::{IOR, SIZES, WINDOW, X, Y};
use second::generate::image_length;

const REGISTERS: [u8; 2] = [IOR, WINDOW];
/// With those beside them, which can be read.
const ADDRESSES: [u8; 4] = [0xC7, IOR, WINDOW, 0xCA];
/// LDI and ADD of a data address.
const LDI: u8 = 0x0D;
const ADD: u8 = 0x5F;

pub fn write_only(h: &mut Harness) {
    for (opcode, operation) in (0..=255u8).zip(operations()) {
        if let Some([_, kind]) = operation.filter(reads_anywhere) {
            every_stored_byte(h, opcode, kind);
            stored_and_read(h, opcode);
        }
    }
    every_enable(h);
    every_read(h);
}

fn any_case(h: &mut Harness) -> Case {
    let length = image_length(&mut h.rng);
    Case::new(&mut h.rng, length, 0xABC)
}

/// Steps that read every stored byte with an opcode.
fn every_stored_byte(h: &mut Harness, opcode: u8, kind: u8) {
    let mut case = any_case(h);
    for address in ADDRESSES {
        for stored in 0..=255u8 {
            case.aim(&mut h.rng, opcode, kind, address);
            case.state[address as usize] = stored;
            case.step(h, 0);
        }
    }
}

/// Runs that point X and Y at a register, store in it, read it with an opcode,
/// and then use the window or take a request.
fn stored_and_read(h: &mut Harness, opcode: u8) {
    let length = SIZES[opcode as usize].length as usize;
    for register in REGISTERS {
        for stored in 0..=255u8 {
            let mut case = any_case(h);
            let mut code = vec![LDI, X, register, LDI, Y, register, LDI, register, stored];
            // JRR and JRS go on at the next address, jumping or not.
            code.extend(&[opcode, register, 0x01][..length]);
            code.extend([ADD, window_address(h)]);
            case.write(&code);
            // Only normal mode takes sources.
            if h.rng.chance(50) {
                case.state[259] = 1;
            }
            let request = source(h);
            case.run(h, &[0, 0, 0, 0, request], 5);
        }
    }
}

fn window_address(h: &mut Harness) -> u8 {
    0x40 + h.rng.below(0x40) as u8
}

/// One of the sources 1 to 4, or all, or none.
fn source(h: &mut Harness) -> u8 {
    h.rng.pick(&[0x00, 0x00, 0x02, 0x04, 0x08, 0x10, 0x1E])
}

/// Every byte of 0C8h with every request, in any mode, awake or not.
fn every_enable(h: &mut Harness) {
    let mut case = any_case(h);
    for stored in 0..=255u8 {
        case.state[IOR as usize] = stored;
        for request in 0..0x20 {
            let mode = if h.rng.chance(60) { 1 } else { h.rng.below(5) as u8 };
            let (levels, asleep) = (h.rng.below(7) as u8, h.rng.chance(30) as u8);
            case.state[258..261].copy_from_slice(&[levels, mode, asleep]);
            case.step(h, request);
        }
    }
}

fn every_read(h: &mut Harness) {
    for stored in 0..=255u8 {
        let mut case = any_case(h);
        for address in ADDRESSES {
            case.state[address as usize] = stored;
            read(h, &case.image, &case.state, address as u32);
        }
    }
}
