//! Where data bytes come from: steps with operands at every address, and
//! reads.

use crate::case::Case;
use crate::harness::Harness;
use crate::opcode_map::{BY_X, BY_Y, DIRECT};
use crate::refusals::LENGTHS;
use second::generate::{machine, marks, paged_length, spoil};
use second::play::Call;
use std::borrow::Cow::{Borrowed, Owned};

/// The ends of RAM, window and registers, and registers with a use of their
/// own.
const EDGE_ADDRESSES: [u8; 9] = [0x00, 0x3F, 0x40, 0x7F, 0x80, 0x81, 0xC8, 0xC9, 0xFF];
/// Bytes of 0C9h: the first pages, those on both sides of 800h, the last one,
/// and some with the two bits that don't count.
const PAGES: [u8; 8] = [0x00, 0x01, 0x1F, 0x20, 0x3F, 0x5F, 0xA0, 0xFF];
const BEYOND: [u32; 6] = [256, 257, 0x140, 0x1_0000, 0x8000_0040, u32::MAX];
/// Opcodes that read, with a direct operand, through X, and through Y.
const READING: [u8; 25] = [
    0x1F, 0x3F, 0x5F, 0x7F, 0xBF, 0xDF, 0xFF, 0x03, 0x13, 0x0B, 0x1B, 0x07, 0x27, 0x47, 0x67, 0xA7,
    0xC7, 0xE7, 0x0F, 0x2F, 0x4F, 0x6F, 0xAF, 0xCF, 0xEF,
];

pub fn origins(h: &mut Harness, reads: usize) {
    for length in [2048, 4096, paged_length(&mut h.rng)] {
        every_operand(h, length);
        every_situation(h, length);
        every_page(h, length);
        every_read(h, length);
    }
    refused_reads(h);
    random_reads(h, reads);
}

/// Every opcode, with every second byte, every X and every Y, and on some
/// pages where that lies in the window.
fn every_operand(h: &mut Harness, length: usize) {
    for opcode in 0..=255u8 {
        let low = 0x1000 - marks(length);
        let pc = h.rng.pick(&[low, low + 0x1FF, 0xABC, 0xFF0, 0xFFD]);
        let mut case = Case::new(&mut h.rng, length, pc);
        for address in 0..=255u8 {
            let in_window = (0x40..=0x7F).contains(&address);
            let any_page = [h.rng.byte()];
            for &page in if in_window { &PAGES[..] } else { &any_page[..] } {
                operands(h, &mut case, opcode, address, page);
            }
        }
    }
}

/// An address as the second byte, through X, and through Y, the others being
/// something else.
fn operands(h: &mut Harness, case: &mut Case, opcode: u8, address: u8, page: u8) {
    for kind in [DIRECT, BY_X, BY_Y] {
        case.aim(&mut h.rng, opcode, kind, address);
        case.state[0xC9] = page;
        case.step(h, 0);
    }
}

/// A machine's mode, levels, sleep and 0C8h, and a request.
type Situation = ([u8; 4], u32);

/// Steps that read none, whatever stands at PC, and steps with requests that
/// aren't taken.
const SITUATIONS: [Situation; 15] = [
    ([1, 0, 0, 0x00], 0x01),  // NMI is taken
    ([1, 5, 1, 0x10], 0x1E),  // source 1 is taken in sleep
    ([2, 1, 0, 0x00], 0x1F),  // NMI is taken in interrupt mode
    ([1, 6, 0, 0x10], 0x08),  // a stop: source 3 on six levels
    ([2, 6, 1, 0x10], 0x01),  // a stop: NMI on six levels, in sleep
    ([0, 0, 0, 0x10], 0x1F),  // none is taken in reset mode
    ([3, 6, 0, 0x10], 0x1F),  // none is taken in NMI mode
    ([2, 3, 0, 0x10], 0x1E),  // none is taken in interrupt mode
    ([1, 1, 0, 0xEF], 0x1E),  // none is taken without the enable bit
    ([1, 0, 0, 0x00], 0x00),  // no request, and an empty stack
    ([1, 3, 1, 0x00], 0x00),  // idle
    ([4, 3, 1, 0x10], 0x1F),  // idle with requests
    ([1, 1, 0, 0x00], 0x20),  // refused: a request that there isn't
    ([1, 1, 0, 0x00], 0x100), // refused: beyond its byte
    ([1, 7, 0, 0x00], 0x00),  // refused: an ill-formed machine
];

/// Every opcode in each of these, with operands at the edges, and at the ends
/// of ROM too.
fn every_situation(h: &mut Harness, length: usize) {
    for opcode in 0..=255u8 {
        for pc in [0x7FF, 0x987, 0xFFE, 0xFFF] {
            let mut case = Case::new(&mut h.rng, length, pc);
            for address in EDGE_ADDRESSES {
                case.write(&[opcode, address, h.rng.byte()]);
                case.state[0x80..0x82].fill(address);
                case.state[0xC9] = h.rng.byte();
                for (given, request) in SITUATIONS {
                    let [mode, levels, asleep, enable] = given;
                    case.state[258..261].copy_from_slice(&[levels, mode, asleep]);
                    case.state[0xC8] = enable;
                    case.step(h, request);
                }
            }
        }
    }
}

/// Every byte of 0C9h with every window address, and one beside each end.
fn every_page(h: &mut Harness, length: usize) {
    let mut case = Case::new(&mut h.rng, length, 0xCBA);
    for page in 0..=255u8 {
        for address in 0x3F..=0x80 {
            let opcode = h.rng.pick(&READING);
            case.write(&[opcode, address, h.rng.byte()]);
            case.state[0x80..0x82].fill(address);
            case.state[0xC9] = page;
            case.step(h, 0);
        }
    }
}

pub fn read(h: &mut Harness, image: &[u8], state: &[u8], address: u32) {
    h.compare(Call::Read { image: Borrowed(image), state: Borrowed(state), address });
}

/// Every address and some beyond, with every byte of 0C9h.
fn every_read(h: &mut Harness, length: usize) {
    let mut image = vec![0; length];
    h.rng.fill(&mut image);
    for page in 0..=255u8 {
        let mut state = machine(&mut h.rng);
        state[0xC9] = page;
        for address in (0..256).chain(BEYOND) {
            read(h, &image, &state, address);
        }
    }
}

/// Images of all lengths with good and bad machines, at good addresses and
/// beyond.
fn refused_reads(h: &mut Harness) {
    for length in LENGTHS {
        let mut image = vec![0; length];
        h.rng.fill(&mut image);
        for index in 0..200 {
            let mut state = machine(&mut h.rng);
            for _ in 0..index % 4 {
                spoil(&mut h.rng, &mut state);
            }
            let address = h.rng.pick(&EDGE_ADDRESSES) as u32;
            for address in [address, h.rng.byte() as u32].into_iter().chain(BEYOND) {
                read(h, &image, &state, address);
            }
        }
    }
}

/// Anything at once.
fn random_reads(h: &mut Harness, count: usize) {
    let mut image = Vec::new();
    for index in 0..count {
        if index.is_multiple_of(64) {
            let paged = paged_length(&mut h.rng);
            let length = if h.rng.chance(90) { [2048, 4096, paged][index / 64 % 3] } else { 0 };
            image.resize(length, 0);
            h.rng.fill(&mut image);
        }
        let mut state = machine(&mut h.rng);
        if h.rng.chance(10) {
            spoil(&mut h.rng, &mut state);
        }
        let address = match h.rng.below(20) {
            0 => h.rng.draw() as u32,
            1 => 0x100 << h.rng.below(24),
            _ => h.rng.byte() as u32,
        };
        h.compare(Call::Read { image: Borrowed(&image), state: Owned(state), address });
    }
}
