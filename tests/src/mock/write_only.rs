//! Steps that read 0C8h, 0C9h and the registers beside them by another rule,
//! with the fault.

use super::fault;
use super::origin::{code_at_pc, operand};
use crate::boundary;

/// A register that can be read, and one that can't.
const READABLE: u8 = 0xCB;
const WRITE_ONLY: u8 = 0xC8;
/// Places in a state: both registers, the window register, and the flags.
const BOTH: std::ops::Range<usize> = 0xC8..0xCA;
const PAGE: usize = 0xC9;
const FLAGS: std::ops::Range<usize> = 261..267;

/// Changes the state after the instruction at PC, which was executed.
pub(super) fn misread(image: &[u8], before: &[u8], state: &mut [u8], in_run: bool) {
    let Some(name) = fault() else { return };
    let code = code_at_pc(image, before);
    let Some(address) = operand(code, before) else { return };
    match (name, address) {
        ("zero-c7", 0xC7) | ("zero-ca", 0xCA) => {
            state.copy_from_slice(&read_as(WRITE_ONLY, image, before, address));
        }
        ("zero-page", 0x40..=0x7F) => {
            state.copy_from_slice(before);
            state[PAGE] = 0;
            boundary::step(image, state, 0);
            state[PAGE] = before[PAGE];
        }
        ("stored-kept", 0xC8 | 0xC9) => state[BOTH].copy_from_slice(&before[BOTH]),
        ("stored-flags", 0xC8 | 0xC9) => {
            let other = read_as(READABLE, image, before, address);
            state[FLAGS].copy_from_slice(&other[FLAGS]);
        }
        (_, 0xC8 | 0xC9) if reads_stored(name, code[0], address, in_run) => {
            state.copy_from_slice(&read_as(READABLE, image, before, address));
        }
        _ => {}
    }
}

/// Whether what is stored at 0C8h or 0C9h is read.
fn reads_stored(name: &str, opcode: u8, address: u8, in_run: bool) -> bool {
    let (row, column) = (opcode & 0xE0, opcode & 0x1F);
    let on_bits = matches!(opcode & 0x0F, 0x3 | 0xB);
    match name {
        "stored-c8" => address == 0xC8,
        "stored-c9" => address == 0xC9,
        "stored-by-x" => column == 0x07,
        "stored-by-y" => column == 0x0F,
        "stored-direct" => on_bits || column == 0x1F,
        "stored-jump" => opcode & 0x0F == 0x3,
        "stored-bits" => opcode & 0x0F == 0xB,
        "stored-ld" => !on_bits && row == 0x00,
        "stored-inc" => !on_bits && matches!(row, 0x60 | 0xE0),
        "stored-add" => !on_bits && !matches!(row, 0x00 | 0x60 | 0xE0),
        "stored-run" => in_run,
        _ => false,
    }
}

/// The state after a step that reads its operand as another register is read:
/// that one's address and byte have the operand's place.
fn read_as(other: u8, image: &[u8], before: &[u8], address: u8) -> Vec<u8> {
    let (mut image, mut state) = (image.to_vec(), before.to_vec());
    let pc = u16::from_le_bytes([before[256], before[257]]) as usize;
    let second = ((pc + 1) & 0xFFF).wrapping_sub(0x1000 - image.len());
    if let Some(byte) = image.get_mut(second) {
        *byte = other;
    }
    state[0x80..0x82].fill(other);
    state.swap(address as usize, other as usize);
    boundary::step(&image, &mut state, 0);
    state.swap(address as usize, other as usize);
    state[0x80..0x82].copy_from_slice(&before[0x80..0x82]);
    state
}

/// Read as the other register that can't be read, an operand is read rightly:
/// the faults are in the byte, and in nothing else.
#[test]
fn moving_an_operand_changes_nothing() {
    let mut before = vec![0; boundary::STATE];
    boundary::reset(&mut before);
    (before[0xC8], before[0xC9], before[0xFF]) = (0x11, 0x22, 0x33);
    before[256..258].fill(0);
    let mut moved = 0;
    for (opcode, address) in (0..=255).flat_map(|opcode| [(opcode, 0xC8), (opcode, 0xC9)]) {
        let mut image = vec![0; 4096];
        image[..2].copy_from_slice(&[opcode, address]);
        before[0x80..0x82].fill(address);
        let mut state = before.clone();
        let done = boundary::number(boundary::step(&image, &mut state, 0)) == 0;
        if done && operand([opcode, address], &before) == Some(address) {
            assert_eq!(read_as(address ^ 1, &image, &before, address), state, "{opcode:02X}");
            moved += 1;
        }
    }
    // 32 opcodes on bits and 21 others, with both registers.
    assert_eq!(moved, 2 * (32 + 21));
}
