//! Data bytes read and their origins told in another way than the second
//! emulator's: by opcode, from a packed machine.

use super::bank::{bank, seen, told_by_index};
use super::{fault, faulty};
use crate::boundary::{self, unpack, STATE};

/// The reading, of what is seen.
pub fn read(image: &[u8], state: &[u8], address: u32) -> u64 {
    let bank = if faulty("bank-read-0") { 0 } else { bank(state) };
    told_by_index(image, bank, read_seen(&seen(image, bank), state, address))
}

/// The same with the fault.
fn read_seen(image: &[u8], state: &[u8], address: u32) -> u64 {
    let address = if faulty("read-beyond") { address & 0xFF } else { address };
    let answer = boundary::read(image, state, address);
    let packed = state.len() == STATE;
    match (fault(), boundary::number(answer)) {
        (_, 0) => byte_and_origin(image, state, address as u8),
        (Some("read-order"), 1) if boundary::read(&[0; 2048], state, 0) == 2 => 2,
        (Some("read-8-last"), 8) => match boundary::read(image, state, 0) {
            refused @ (1 | 2) => refused,
            _ => 8,
        },
        (Some("read-ill-formed"), 2) if unpack(state).is_ok() => {
            byte_and_origin(image, state, address as u8)
        }
        (Some("read-packing"), 2) if packed && unpack(state).is_err() => {
            byte_and_origin(image, state, address as u8)
        }
        _ => answer,
    }
}

fn byte_and_origin(image: &[u8], state: &[u8], address: u8) -> u64 {
    let page_bits = if faulty("read-page-0") { 0 } else { 0x3F };
    let byte = match address {
        _ if reads_zero(address) => 0,
        0x40..=0x7F if !faulty("read-array") => {
            let index = shown(state, address, page_bits).wrapping_sub(base(image));
            image.get(index).copied().unwrap_or(0)
        }
        _ => state[address as usize],
    };
    let told = match address {
        0xC8 | 0xC9 if faulty("read-no-origin") => 0,
        _ => told(image, state, address),
    };
    told | (byte as u64) << 24
}

/// Whether a register can't be read.
fn reads_zero(address: u8) -> bool {
    match (fault(), address) {
        (Some("read-stored-c8"), 0xC8) | (Some("read-stored-c9"), 0xC9) => false,
        (Some("read-zero-c7"), 0xC7) | (Some("read-zero-ca"), 0xCA) => true,
        _ => matches!(address, 0xC8 | 0xC9),
    }
}

/// The ROM address that the window shows at a data address.
fn shown(state: &[u8], address: u8, page_bits: u8) -> usize {
    ((state[0xC9] & page_bits) as usize) << 6 | (address & 0x3F) as usize
}

/// The lowest address in ROM.
fn base(image: &[u8]) -> usize {
    0x1000 - image.len()
}

/// What is told of a data address, in its place in an answer.
fn told(image: &[u8], state: &[u8], address: u8) -> u64 {
    let shown = shown(state, address, if faulty("origin-mask") { 0xFF } else { 0x3F });
    let (origin, rom_address) = match address {
        0x40 if faulty("origin-40h") => (1, 0),
        0x80 if faulty("origin-80h") => (1, 0),
        0x00..=0x3F => (1, 0),
        0x80..=0xFF if faulty("origin-reg-at") => (2, address as usize),
        0x80..=0xFF => (2, 0),
        _ if faulty("origin-no-rom") => (3, shown),
        _ if shown >= base(image) => (3, told_address(image, shown)),
        _ if faulty("origin-empty-at") => (4, shown),
        _ => (4, 0),
    };
    (rom_address as u64) << 40 | origin << 32
}

fn told_address(image: &[u8], shown: usize) -> usize {
    match fault() {
        Some("origin-page") => shown & 0x3F,
        Some("origin-index") => shown - base(image),
        _ => shown,
    }
}

/// The answer of a step, with what is told here in it.
pub fn retold(image: &[u8], before: &[u8], after: &[u8], answer: u64) -> u64 {
    let tells = match (boundary::number(answer), boundary::cycles(answer)) {
        (0, 0) => faulty("origin-idle"),
        (0, 1) => faulty("origin-taken"),
        (0, _) => true,
        (4..=7, _) => faulty("origin-stop"),
        (11, _) => faulty("origin-refused"),
        _ => false,
    };
    let state = if faulty("origin-after") { after } else { before };
    let operand = if tells { operand_at_pc(image, before, state) } else { None };
    answer & 0xFFFF_FFFF | operand.map_or(0, |address| told(image, state, address))
}

/// The data address that the instruction at PC reads, with the pointers of
/// another state.
fn operand_at_pc(image: &[u8], before: &[u8], state: &[u8]) -> Option<u8> {
    let code = code_at_pc(image, before);
    wrong_operand(code, state).unwrap_or_else(|| operand(code, state))
}

/// The opcode at PC and the byte after it; 0 where the image has nothing.
pub(super) fn code_at_pc(image: &[u8], state: &[u8]) -> [u8; 2] {
    let pc = u16::from_le_bytes([state[256], state[257]]) as usize;
    [pc, pc + 1].map(|address| {
        let index = (address & 0xFFF).wrapping_sub(base(image));
        image.get(index).copied().unwrap_or(0)
    })
}

/// The number of the register that a short operand names, as an address.
fn short(opcode: u8) -> u8 {
    0x80 | opcode >> 6
}

/// By the opcode's low digit, and by its row where that isn't enough.
pub(super) fn operand([opcode, second]: [u8; 2], state: &[u8]) -> Option<u8> {
    let odd_row = opcode & 0x10 != 0;
    match opcode & 0x0F {
        0x3 | 0xB => Some(second),
        0x5 => Some(short(opcode)),
        0xD if opcode & 0x30 == 0x10 => Some(short(opcode)),
        0x7 | 0xF if matches!(opcode, 0x87 | 0x8F | 0x9F) => None, // LD from A
        0x7 => (!odd_row).then_some(state[0x80]),
        0xF => Some(if odd_row { second } else { state[0x81] }),
        _ => None,
    }
}

/// What is told in place of the operand that is read, with a fault.
fn wrong_operand([opcode, second]: [u8; 2], state: &[u8]) -> Option<Option<u8>> {
    let (x, y) = (state[0x80], state[0x81]);
    let pointer = if opcode & 0x08 == 0 { x } else { y };
    let by_pointer = opcode & 0x17 == 0x07 && !matches!(opcode, 0x87 | 0x8F);
    let direct = opcode & 0x1F == 0x1F && opcode != 0x9F;
    let is_short = matches!(opcode & 0x3F, 0x15 | 0x35 | 0x1D);
    let changes = matches!(opcode & 0x7F, 0x67 | 0x6F | 0x7F) || opcode & 0x37 == 0x15;
    let unread = matches!(operand([opcode, second], state), Some(0xC8 | 0xC9));
    let told = match (fault()?, opcode) {
        ("origin-pointer", 0x07) | ("origin-store-x", 0x87) => Some(0x80),
        ("origin-pointer", 0x0F) | ("origin-store-x", 0x8F) => Some(0x81),
        ("origin-store-at", 0x87 | 0x8F) => Some(pointer),
        ("origin-store", 0x9F) | ("origin-ldi", 0x0D) => Some(second),
        ("origin-store-v", 0x3D | 0x7D | 0xBD | 0xFD) => Some(short(opcode)),
        ("origin-ldi-a", 0x17) => Some(0xFF),
        ("origin-addi", 0x37 | 0x57 | 0xB7 | 0xD7) => Some(0xFF),
        ("origin-add", 0x3F | 0x5F | 0xBF | 0xDF) => Some(0xFF),
        ("origin-com", 0x2D | 0xAD) => Some(0xFF),
        ("origin-ff", _) if direct && second == 0xFF => None,
        ("origin-by-ff", _) if by_pointer && pointer == 0xFF => None,
        ("origin-by-x", _) if by_pointer && matches!(pointer, 0x80 | 0x81) => None,
        ("origin-short", _) if is_short => None,
        ("origin-jump", _) if opcode & 0x0F == 0x03 => None,
        ("origin-bits", _) if opcode & 0x0F == 0x0B => None,
        ("origin-inc", _) if changes => None,
        ("origin-cp", 0x27 | 0x2F | 0x3F) => None,
        ("origin-unread", _) if unread => None,
        _ => return None,
    };
    Some(told)
}
