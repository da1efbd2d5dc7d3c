//! A machine as bytes.

use crate::chip::{Flags, Machine, Mode};
use crate::Refusal;

pub const STATE: usize = 280;

/// Takes a packed state apart. Ill-formed machines pass; a wrong length or a
/// byte that is no mode or flag doesn't.
pub fn unpack(state: &[u8]) -> Result<Machine, Refusal> {
    let state: &[u8; STATE] = state.try_into().map_err(|_| Refusal::IllFormed)?;
    let flag = |index: usize| match state[index] {
        0 => Ok(false),
        1 => Ok(true),
        _ => Err(Refusal::IllFormed),
    };
    let pair = |index: usize| Ok(Flags { z: flag(index)?, c: flag(index + 1)? });
    let word = |index: usize| u16::from_le_bytes([state[index], state[index + 1]]);
    let mode = match state[259] {
        0 => Mode::Reset,
        1 => Mode::Normal,
        2 => Mode::Interrupt,
        3 => Mode::NmiOverNormal,
        4 => Mode::NmiOverInterrupt,
        _ => return Err(Refusal::IllFormed),
    };
    if state[267] != 0 {
        return Err(Refusal::IllFormed);
    }
    let mut data = [0; 256];
    data.copy_from_slice(&state[..256]);
    Ok(Machine {
        data,
        pc: word(256),
        stack: [word(268), word(270), word(272), word(274), word(276), word(278)],
        levels: state[258],
        mode,
        asleep: flag(260)?,
        flags: [pair(261)?, pair(263)?, pair(265)?],
    })
}

/// Puts a machine into a state of the right length.
pub fn pack(machine: &Machine, state: &mut [u8]) {
    let state: &mut [u8; STATE] = state.try_into().expect("a state has 280 bytes");
    state[..256].copy_from_slice(&machine.data);
    state[256..258].copy_from_slice(&machine.pc.to_le_bytes());
    state[258] = machine.levels;
    state[259] = machine.mode as u8;
    state[260] = machine.asleep as u8;
    for (place, flags) in state[261..267].chunks_exact_mut(2).zip(machine.flags) {
        place.copy_from_slice(&[flags.z as u8, flags.c as u8]);
    }
    state[267] = 0;
    for (place, address) in state[268..].chunks_exact_mut(2).zip(machine.stack) {
        place.copy_from_slice(&address.to_le_bytes());
    }
}
