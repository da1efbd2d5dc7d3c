//! Programs for the gauge: they read the slide count, and most of them sleep.

use super::program::{finished, subroutines, Subroutines};
use super::routine::Builder;
use super::{Program, Rng};
use crate::chip::{write, Instruction, Operand, RESET_VECTOR, WINDOW, X, Y};
use crate::gauge::{COUNT, WIDTH};
use Instruction::*;
use Operand::{ByX, ByY, Direct, Short};

/// The cells of the gauge.
const CELLS: [u8; 3] = [COUNT, WIDTH[0], WIDTH[1]];
/// V, W and two cells of RAM, as counters of loops.
const COUNTERS: [u8; 4] = [0x82, 0x83, 0x10, 0x3F];
/// The bytes that JRNZ can go back over, itself included.
const SHORT_BACK: usize = 16;

/// An accepted program with nothing wired: start-up, in part of them a main
/// part after it, then sleep.
pub fn sizing(rng: &mut Rng) -> Program {
    let mut b = Builder::new(rng);
    b.cells = &CELLS;
    b.sleeps_anywhere = true;
    if b.rng.chance(60) {
        b.rng.fill(&mut b.program.image); // tables
    }
    b.cursor = b.cursor.max(2); // `enter` may use 000h
    let need = b.rng.below(7) as u8;
    let subroutines = subroutines(&mut b, need);
    let start = b.cursor as u16;
    let mut kind = 1;
    for _ in 0..1 + b.rng.below(8) {
        if kind == 1 && b.rng.chance(15) {
            b.place(&[Reti], 1, need);
            kind = 2;
        }
        let code = piece(&mut b, need, &subroutines);
        b.place(&code, kind, need);
    }
    let end = if b.rng.chance(2) { Jrz(0) } else { b.rng.pick(&[Stop, Wait]) };
    b.place(&[end], kind, need);
    b.place(&[Jp(b.cursor as u16)], kind, need);
    enter(&mut b, start, need);
    finished(b)
}

/// The way from FFEh to the start: a jump, or in 4K also code that goes on
/// at 000h. Gives its steps.
pub(super) fn enter(b: &mut Builder, start: u16, need: u8) -> u32 {
    let reset = RESET_VECTOR as usize;
    b.mark(reset, 1, need);
    if b.base == 0 && b.rng.chance(30) {
        b.put(reset, LdA(Direct(COUNT)));
        b.put(0, Jp(start));
        b.mark(0, 1, need);
        2
    } else {
        b.put(reset, Jp(start));
        1
    }
}

/// Some instructions that end at the next address. All jumps are relative, so
/// that pieces can stand in each other.
fn piece(b: &mut Builder, need: u8, subroutines: &Subroutines) -> Vec<Instruction> {
    match b.rng.below(11) {
        0 => read_count(b.rng),
        1 | 2 => look_up(b.rng),
        3 => store(b.rng),
        4 | 5 => counted(b, need, subroutines),
        6 | 7 => skipped(b, need, subroutines),
        8 => b.calls(need, subroutines).into_iter().map(Call).collect(),
        _ => (0..1 + b.rng.below(4)).map(|_| b.straight()).collect(),
    }
}

/// The count to A.
fn read_count(rng: &mut Rng) -> Vec<Instruction> {
    match rng.below(4) {
        0 => vec![Ldi { address: X, value: COUNT }, LdA(ByX)],
        1 => vec![Ldi { address: Y, value: COUNT }, LdA(ByY)],
        _ => vec![LdA(Direct(COUNT))],
    }
}

/// The entry of a table in ROM that the count names, to A and to the width.
fn look_up(rng: &mut Rng) -> Vec<Instruction> {
    let mut code = read_count(rng);
    let (pointer, through) = rng.pick(&[(0, ByX), (1, ByY)]);
    code.extend([Andi(0x3F), Addi(0x40), LdTo(Short(pointer))]);
    // Upper pages are in every image; bits 6 and 7 don't matter.
    let page = if rng.chance(70) { 0x20 | rng.byte() } else { rng.byte() };
    code.push(Ldi { address: WINDOW, value: page });
    if rng.chance(20) {
        code.push(Add(Direct(WINDOW))); // 0, whatever the page
    }
    code.push(rng.pick(&[LdA(through), Add(through), Sub(through), And(through)]));
    code.extend(store(rng));
    code
}

/// A to a byte of the width, or a change of one.
fn store(rng: &mut Rng) -> Vec<Instruction> {
    let address = rng.pick(&WIDTH);
    match rng.below(6) {
        0 => vec![Ldi { address: X, value: address }, LdTo(ByX)],
        1 => vec![Ldi { address: Y, value: address }, LdTo(ByY)],
        2 => vec![Inc(Direct(address))],
        3 => vec![Ldi { address, value: rng.byte() }],
        _ => vec![LdTo(Direct(address))],
    }
}

/// A loop that goes round as often as the count says.
fn counted(b: &mut Builder, need: u8, subroutines: &Subroutines) -> Vec<Instruction> {
    let counter = b.rng.pick(&COUNTERS);
    let mut code = read_count(b.rng);
    code.push(LdTo(Direct(counter)));
    let mut round = Vec::new();
    for _ in 0..b.rng.below(3) {
        match b.rng.below(4) {
            0 => round.extend(store(b.rng)),
            1 => round.extend(add_to_width(b.rng)),
            2 => round.extend(b.calls(need.min(1), subroutines).into_iter().map(Call)),
            _ => round.push(b.straight()),
        }
    }
    round.push(Dec(Direct(counter)));
    let length = size(&round);
    round.push(if length < SHORT_BACK && b.rng.chance(70) {
        Jrnz(-(length as i8) - 1)
    } else {
        Jrr { bit: 7, address: counter, displacement: -(length as i8) - 2 }
    });
    code.extend(round);
    code
}

/// A number added to both bytes of the width.
fn add_to_width(rng: &mut Rng) -> Vec<Instruction> {
    let [high, low] = WIDTH;
    let more = if rng.chance(50) { Add(Direct(COUNT)) } else { Addi(rng.byte()) };
    vec![LdA(Direct(low)), more, LdTo(Direct(low)), Jrnc(2), Inc(Direct(high))]
}

/// Pieces that are skipped for some counts.
fn skipped(b: &mut Builder, need: u8, subroutines: &Subroutines) -> Vec<Instruction> {
    let inner = piece(b, need, subroutines);
    let length = size(&inner);
    let bit = b.rng.below(8) as u8;
    let mut code = Vec::new();
    match i8::try_from(length) {
        Ok(by @ 0..=15) if b.rng.chance(60) => {
            code.extend(read_count(b.rng));
            code.push(Cpi(b.rng.byte()));
            code.push(b.rng.pick(&[Jrc(by), Jrnc(by), Jrz(by), Jrnz(by)]));
        }
        Ok(by @ 0..=100) if b.rng.chance(50) => {
            code.push(Jrs { bit, address: COUNT, displacement: by + 1 });
        }
        Ok(by @ 0..=100) => code.push(Jrr { bit, address: COUNT, displacement: by + 1 }),
        _ => {}
    }
    code.extend(inner);
    code
}

/// The bytes of some instructions.
fn size(code: &[Instruction]) -> usize {
    let length = |&one| write(one, &mut [0; 3]).expect("a good instruction");
    code.iter().map(length).sum()
}
