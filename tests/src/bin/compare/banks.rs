//! Pages and the bank byte: every byte with every number of halves,
//! instructions across both seams, programs and hosts that change the page,
//! and windows into pages.

use crate::case::Case;
use crate::harness::{state_after, Harness};
use crate::opcode_map::{BY_X, BY_Y, DIRECT};
use crate::origins::read;
use crate::refusals::LENGTHS;
use second::boundary::{FIELDS, REPORT};
use second::chip::{BANK, HALF, MOST_HALVES, WINDOW};
use second::generate::{any_length, filled, machine, request, requests, spoil};
use second::play::Call;
use std::borrow::Cow::{Borrowed, Owned};

const BEYOND: [u32; 6] = [256, 257, 0x1CA, 0x1_0000, 0x8000_0000, u32::MAX];
/// On both sides of both seams.
const SEAMS: [usize; 8] = [0x000, 0x7FD, 0x7FE, 0x7FF, 0x800, 0xFFD, 0xFFE, 0xFFF];
/// Opcodes that store, with the kinds of operand that they have: LDI, LD, INC
/// and DEC, and of RES and SET one each.
const STORING: [(u8, u8); 12] = [
    (0x0D, DIRECT),
    (0x9F, DIRECT),
    (0x87, BY_X),
    (0x8F, BY_Y),
    (0x7F, DIRECT),
    (0x67, BY_X),
    (0x6F, BY_Y),
    (0xFF, DIRECT),
    (0xE7, BY_X),
    (0xEF, BY_Y),
    (0x0B, DIRECT),
    (0x1B, DIRECT),
];
/// Opcodes that read the window: LD A, and others whose flags tell the byte.
const READING: [u8; 4] = [0x1F, 0x5F, 0x3F, 0x03];

pub fn banks(h: &mut Harness, rounds: usize) {
    lengths(h);
    resets(h);
    for halves in 1..=MOST_HALVES {
        every_bank(h, halves);
        every_seam(h, halves);
        every_store(h, halves, rounds);
        every_window(h, halves);
    }
    for _ in 0..100 * rounds {
        host_changes(h);
    }
}

/// A case with a number of halves that stands at an address.
fn case(h: &mut Harness, halves: usize, pc: usize) -> Case {
    let low = if halves == 1 { 0x800 } else { 0 };
    let mut case = Case::new(&mut h.rng, HALF * halves, pc.max(low));
    case.state[BANK as usize] = h.rng.byte();
    case
}

fn decode(h: &mut Harness, image: &[u8], address: u32, bank: u32) {
    h.compare(Call::Decode { image: Borrowed(image), address, bank, out: FIELDS });
}

/// Decodes, steps and reads with every bank byte.
fn every_bank(h: &mut Harness, halves: usize) {
    for bank in 0..=255u8 {
        let mut case = case(h, halves, 0);
        case.state[BANK as usize] = bank;
        let others = [h.rng.below(0x800), h.rng.below(0x800), 0x800 + h.rng.below(0x800)];
        for address in SEAMS.into_iter().chain(others) {
            decode(h, &case.image, address as u32, bank as u32);
            case.stand_at(address);
            case.step(h, 0);
        }
        for page in [h.rng.below(32) as u8, 32 + h.rng.below(32) as u8] {
            case.state[WINDOW as usize] = page;
            let address = 0x40 + h.rng.below(0x40) as u32;
            read(h, &case.image, &case.state, address);
        }
    }
}

/// Resets with every bank byte, of good machines and of others.
fn resets(h: &mut Harness) {
    for bank in 0..=255 {
        for bad in [0, 0, 1, 1, 2] {
            let mut state = machine(&mut h.rng);
            state[BANK as usize] = bank;
            (0..bad).for_each(|_| spoil(&mut h.rng, &mut state));
            h.compare(Call::Reset { state: Owned(state) });
        }
    }
}

/// Every opcode across both seams: decoded, stepped, and run.
fn every_seam(h: &mut Harness, halves: usize) {
    for opcode in 0..=255u8 {
        for pc in [0x7FE, 0x7FF, 0xFFE, 0xFFF] {
            let mut case = case(h, halves, pc);
            case.write(&[opcode]);
            let bank = case.state[BANK as usize];
            decode(h, &case.image, pc as u32, bank as u32);
            case.step(h, 0);
            case.run(h, &[], 3);
        }
    }
}

/// Stores to the bank byte by programs in the page, at the seams and in the
/// fixed half: what comes next is fetched with the new one.
fn every_store(h: &mut Harness, halves: usize, rounds: usize) {
    for (opcode, kind) in STORING {
        for pc in [0x123, 0x7FC, 0x7FD, 0x7FE, 0x7FF, 0x923, 0xFFD, 0xFFE, 0xFFF] {
            for _ in 0..rounds {
                let mut case = case(h, halves, pc);
                // RES and SET have their bit number above.
                let bit = if opcode & 0x0F == 0x0B { h.rng.byte() & 0xE0 } else { 0 };
                case.aim(&mut h.rng, opcode | bit, kind, BANK);
                case.step(h, 0);
                let n = 1 + h.rng.below(6) as u32;
                case.run(h, &[], n);
            }
        }
    }
}

/// The window into the page and into the fixed half with every bank byte, by
/// reads and by steps in the page and in the fixed half.
fn every_window(h: &mut Harness, halves: usize) {
    for bank in 0..=255u8 {
        for half in [0, 0x20, 0, 0x20] {
            let pc = h.rng.pick(&[0x3C0, 0xABC]);
            let mut case = case(h, halves, pc);
            let address = 0x40 + h.rng.below(0x40) as u8;
            case.state[BANK as usize] = bank;
            case.state[WINDOW as usize] = half | h.rng.byte() & 0xDF;
            case.write(&[h.rng.pick(&READING), address, h.rng.byte()]);
            case.step(h, 0);
            case.run(h, &[], 2);
            read(h, &case.image, &case.state, address as u32);
        }
    }
}

/// Steps and runs with stores of the host to the bank byte between them, and a
/// reset now and then.
fn host_changes(h: &mut Harness) {
    let length = any_length(&mut h.rng);
    let pc = h.rng.below(0x1000).max(0x1000 - length.min(0x1000));
    let mut case = Case::new(&mut h.rng, length, pc);
    for _ in 0..8 {
        let state = Owned(case.state.clone());
        let outcome = match h.rng.below(12) {
            0 => h.compare(Call::Reset { state }),
            1..=4 => {
                let value = h.rng.byte() as u32;
                h.compare(Call::Store { state, address: BANK as u32, value })
            }
            5..=7 => {
                let n = h.rng.below(5) as u32;
                let requests = Owned(requests(&mut h.rng, n as usize, 0x1F));
                let image = Borrowed(&case.image[..]);
                h.compare(Call::Run { image, state, requests, n, report: REPORT })
            }
            _ => {
                let request = if h.rng.chance(30) { request(&mut h.rng) } else { 0 };
                let (image, request) = (Borrowed(&case.image[..]), request as u32);
                h.compare(Call::Step { image, state, request })
            }
        };
        case.state = state_after(&outcome);
        if h.rng.chance(30) {
            let low = 0x1000 - length.min(0x1000);
            let pc = h.rng.below(0x1000).max(low);
            case.stand_at(pc);
        }
    }
}

/// Images of all lengths with good and bad machines, and bank bytes beyond.
fn lengths(h: &mut Harness) {
    for length in LENGTHS.into_iter().chain((0..=12).map(|halves| HALF * halves)) {
        let image = filled(&mut h.rng, length);
        for index in 0..40 {
            let mut state = machine(&mut h.rng);
            for _ in 0..index % 4 {
                spoil(&mut h.rng, &mut state);
            }
            refused(h, &image, &state);
        }
    }
}

/// Every call of an image and a state.
fn refused(h: &mut Harness, image: &[u8], state: &[u8]) {
    let bank = h.rng.byte() as u32;
    for address in [0, 0x7FF, 0xFFF, 0x1000, u32::MAX] {
        for bank in [bank].into_iter().chain(BEYOND) {
            let out = h.rng.pick(&[FIELDS, FIELDS, 0, 9]);
            h.compare(Call::Decode { image: Borrowed(image), address, bank, out });
        }
    }
    let address = h.rng.byte() as u32;
    read(h, image, state, address);
    let (image, state) = (Borrowed(image), Borrowed(state));
    let request = h.rng.pick(&[0, 0, 0x20, 0x100]);
    h.compare(Call::Step { image: image.clone(), state: state.clone(), request });
    let n = h.rng.pick(&[0, 1, 5, 65_536]);
    let requests = Owned(vec![h.rng.pick(&[0, 0x80])]);
    h.compare(Call::Run { image, state, requests, n, report: REPORT });
}
