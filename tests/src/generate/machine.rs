//! Random machines and requests.

use super::Rng;
use crate::boundary::STATE;
use crate::chip::VECTORS;

fn put(state: &mut [u8], index: usize, word: u16) {
    state[index..index + 2].copy_from_slice(&word.to_le_bytes());
}

fn program_address(rng: &mut Rng) -> u16 {
    match rng.below(8) {
        0 => rng.pick(&[0x000, 0x001, 0x7FE, 0x7FF, 0x800, 0x801, 0xFFD, 0xFFE, 0xFFF]),
        1 => rng.below(0x1000) as u16,
        2 => rng.pick(&VECTORS),
        _ => 0x800 + rng.below(0x800) as u16,
    }
}

/// A well-formed machine.
pub fn machine(rng: &mut Rng) -> Vec<u8> {
    let mut state = vec![0; STATE];
    match rng.below(4) {
        0 => {
            for byte in &mut state[..256] {
                *byte = rng.edge();
            }
        }
        1 => {
            for _ in 0..rng.below(20) {
                let index = rng.below(256);
                state[index] = rng.byte();
            }
        }
        _ => rng.fill(&mut state[..256]),
    }
    let pc = program_address(rng);
    put(&mut state, 256, pc);
    state[258] = if rng.chance(40) { rng.pick(&[0, 1, 5, 6]) } else { rng.below(7) as u8 };
    state[259] = if rng.chance(50) { 1 } else { rng.below(5) as u8 };
    state[260] = rng.chance(15) as u8;
    for flag in &mut state[261..267] {
        *flag = rng.chance(50) as u8;
    }
    let used = state[258] as usize;
    let junk = rng.chance(50);
    for level in 0..6 {
        let address = if level < used {
            program_address(rng)
        } else if junk {
            rng.draw() as u16
        } else {
            0
        };
        put(&mut state, 268 + 2 * level, address);
    }
    state
}

/// A machine that is ill-formed in one way, or in its packing.
pub fn ill_formed(rng: &mut Rng) -> Vec<u8> {
    let mut state = machine(rng);
    spoil(rng, &mut state);
    state
}

/// Makes a state ill-formed in one more way.
pub fn spoil(rng: &mut Rng, state: &mut Vec<u8>) {
    if state.len() != STATE {
        return;
    }
    match rng.below(10) {
        0 | 1 => put(state, 256, rng.pick(&[0x1000, 0x1001, 0x8000, 0xFFFF])),
        2 => state[258] = rng.pick(&[7, 8, 127, 128, 255]),
        3..=5 => {
            let level = rng.below(6);
            put(state, 268 + 2 * level, rng.pick(&[0x1000, 0x1001, 0x8000, 0xFFFF]));
            if rng.chance(70) {
                state[258] = (level + 1 + rng.below(6 - level)) as u8;
            }
        }
        6 => state[259] = rng.pick(&[5, 6, 128, 255]),
        7 => {
            let index = 260 + rng.below(7);
            state[index] = rng.pick(&[2, 3, 128, 255]);
        }
        8 => state[267] = rng.pick(&[1, 128, 255]),
        _ => {
            let length = rng.pick(&[0, 1, 256, 268, 279, 281, 300]);
            state.resize(length, 0);
        }
    }
}

pub fn request(rng: &mut Rng) -> u8 {
    match rng.below(8) {
        0..=2 => 0,
        3 | 4 => 1 << rng.below(5),
        5 | 6 => rng.byte() & 0x1F,
        _ => rng.byte(),
    }
}

/// A list whose bytes set bits of a mask only, some of them in some places.
pub fn requests(rng: &mut Rng, length: usize, mask: u8) -> Vec<u8> {
    let mut list = vec![0; length];
    let gap = rng.pick(&[1, 2, 5, 20, 100, 1000]);
    let mut index = rng.below(gap);
    while index < length {
        list[index] = match rng.below(3) {
            0 => rng.byte() & mask,
            _ => 1 << rng.below(5) & mask,
        };
        index += 1 + rng.below(2 * gap);
    }
    list
}
