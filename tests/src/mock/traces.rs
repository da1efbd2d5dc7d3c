//! Services that leave a trace, with the fault: in takings, in what is executed
//! in them, in their RETI, and in the host's calls within them.

use super::fault;
use super::origin::code_at_pc;
use crate::boundary::{self, STATE};
use std::ops::Range;

/// Places in a state.
pub(super) const PC: usize = 256;
const LEVELS: usize = 258;
pub(super) const MODE: usize = 259;
const ASLEEP: usize = 260;
pub(super) const NORMAL_PAIR: Range<usize> = 261..263;
const INTERRUPT_PAIR: Range<usize> = 263..265;
const NMI_PAIR: Range<usize> = 265..267;
const BOTTOM: usize = 268;
const IOR: usize = 0xC8;
const BANK: usize = 0xCA;

pub(super) const NORMAL: u8 = 1;
const INTERRUPT: u8 = 2;
const NMI_OVER_NORMAL: u8 = 3;
const NMI_OVER_INTERRUPT: u8 = 4;

const RETI: u8 = 0x4D;
const RET: u8 = 0xCD;

/// Changes the state after a step of what was seen.
pub(super) fn after_step(in_run: bool, seen: &[u8], before: &[u8], state: &mut [u8], answer: u64) {
    let Some(name) = trace_in(state) else { return };
    match (boundary::number(answer), boundary::cycles(answer)) {
        (0, 0) => {}
        (0, 1) => taking(name, before, state),
        (0, _) => executed(name, in_run, seen, before, state),
        (11, _) if name == "trace-11" && in_service(state) => {
            let bottom = word(state, BOTTOM);
            put(state, BOTTOM, bottom + 1);
        }
        _ => {}
    }
}

pub(super) fn after_store(state: &mut [u8], address: u32, answer: u64) {
    let Some(name) = trace_in(state).filter(|_| in_service(state)) else { return };
    match (name, answer) {
        ("trace-store", 0) => put(state, BOTTOM, 0),
        ("trace-enable", 0) if address as usize == IOR && state[IOR] & 0x10 == 0 => {
            state[MODE] = NORMAL;
        }
        ("trace-10", 10) => state[NORMAL_PAIR.start] ^= 1,
        _ => {}
    }
}

pub(super) fn after_refused_run(state: &mut [u8], answer: u64) {
    if answer == 12 && trace_in(state) == Some("trace-12") && in_service(state) {
        state[LEVELS] = 0;
    }
}

/// The fault, if it is one of these and the state has its length.
fn trace_in(state: &[u8]) -> Option<&'static str> {
    fault().filter(|name| name.starts_with("trace-") && state.len() == STATE)
}

/// Whether a machine is in a service, and has levels in use.
fn in_service(state: &[u8]) -> bool {
    (INTERRUPT..=NMI_OVER_INTERRUPT).contains(&state[MODE]) && (1..=6).contains(&state[LEVELS])
}

/// Where the return address in use stands that was pushed last.
fn top(state: &[u8]) -> usize {
    BOTTOM + 2 * (state[LEVELS] as usize - 1)
}

fn word(state: &[u8], index: usize) -> u16 {
    u16::from_le_bytes([state[index], state[index + 1]])
}

fn put(state: &mut [u8], index: usize, word: u16) {
    state[index..index + 2].copy_from_slice(&(word & 0xFFF).to_le_bytes());
}

fn put_top(state: &mut [u8], word: u16) {
    let place = top(state);
    put(state, place, word);
}

/// After a request was taken.
fn taking(name: &str, before: &[u8], state: &mut [u8]) {
    let (mode, pc, levels) = (state[MODE], word(before, PC), before[LEVELS]);
    match name {
        "trace-next" if mode >= NMI_OVER_NORMAL => put_top(state, pc + 1),
        "trace-wake" if before[ASLEEP] == 1 => put_top(state, pc.wrapping_sub(1)),
        "trace-bottom" if levels >= 2 => put(state, BOTTOM, 0),
        "trace-fifth" if levels == 5 => state.copy_within(BOTTOM + 2..STATE, BOTTOM),
        "trace-over" if mode == NMI_OVER_INTERRUPT => state[MODE] = NMI_OVER_NORMAL,
        "trace-cleared" if before[MODE] == NORMAL => state[NORMAL_PAIR].fill(0),
        "trace-cleared" => state[INTERRUPT_PAIR].fill(0),
        _ => {}
    }
}

/// After the instruction at PC was executed.
fn executed(name: &str, in_run: bool, seen: &[u8], before: &[u8], state: &mut [u8]) {
    if !in_service(before) {
        return;
    }
    let [opcode, _] = code_at_pc(seen, before);
    if opcode == RETI {
        returned(name, in_run, seen, before[MODE], state);
    }
    match (name, before[MODE]) {
        ("trace-flags", INTERRUPT) if state[INTERRUPT_PAIR] != before[INTERRUPT_PAIR] => {
            state.copy_within(INTERRUPT_PAIR, NORMAL_PAIR.start);
        }
        ("trace-flags-nmi", NMI_OVER_INTERRUPT) if state[NMI_PAIR] != before[NMI_PAIR] => {
            state.copy_within(NMI_PAIR, INTERRUPT_PAIR.start);
        }
        ("trace-page", _) if state[BANK] != before[BANK] => {
            let address = word(state, top(state));
            put_top(state, address ^ 0x100);
        }
        ("trace-call", _) if opcode & 0x0F == 1 => {
            let pushed = top(state);
            state.copy_within(pushed..pushed + 2, pushed - 2);
        }
        ("trace-ret", _) if opcode == RET => pop(state),
        _ => {}
    }
}

/// Pops once more.
fn pop(state: &mut [u8]) {
    if state[LEVELS] > 0 {
        let address = word(state, top(state));
        put(state, PC, address);
        state[LEVELS] -= 1;
    }
}

/// After a RETI in a mode.
fn returned(name: &str, in_run: bool, seen: &[u8], mode: u8, state: &mut [u8]) {
    let pc = word(state, PC);
    match (name, mode) {
        ("trace-two", NMI_OVER_INTERRUPT) => pop(state),
        ("trace-mode", NMI_OVER_INTERRUPT) => state[MODE] = NORMAL,
        ("trace-pair", NMI_OVER_INTERRUPT) => state.copy_within(NMI_PAIR, INTERRUPT_PAIR.start),
        ("trace-pair-nmi", INTERRUPT) => state.copy_within(NMI_PAIR, NORMAL_PAIR.start),
        ("trace-empty", INTERRUPT) => state[LEVELS] = 0,
        ("trace-late", NMI_OVER_NORMAL) => put(state, PC, pc + 1),
        ("trace-run", _) if in_run => put(state, PC, pc + 1),
        ("trace-asleep", _) => {
            let index = (pc as usize).wrapping_sub(0x1000 - seen.len() + 1);
            let sleeps = seen.get(index).is_some_and(|opcode| matches!(opcode, 0x6D | 0xED));
            state[ASLEEP] = sleeps as u8;
        }
        _ => {}
    }
}
