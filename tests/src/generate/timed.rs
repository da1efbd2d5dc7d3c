//! Programs for the gauge that sleep after a given number of steps.

use super::program::finished;
use super::routine::Builder;
use super::sizing::enter;
use super::{written, Program, Rng};
use crate::chip::{Instruction, Operand, RESET_VECTOR};
use crate::gauge::{COUNT, WIDTH};
use Instruction::*;
use Operand::{Direct, Short};

const V: Operand = Short(2);
const W: Operand = Short(3);
const V_ADDRESS: u8 = 0x82;
const W_ADDRESS: u8 = 0x83;
const NOP: Instruction = Jrz(0);

/// A program that sleeps after exactly `steps` steps when it is given this
/// count, and with other counts perhaps sooner or later. It needs some 5,000
/// steps for itself.
pub fn timed(rng: &mut Rng, count: u8, steps: u32) -> Program {
    let mut b = Builder::new(rng);
    b.cursor = b.cursor.max(2); // `enter` may use 000h
    let subroutine = subroutine(&mut b);
    let start = b.cursor as u16;
    let mut made = enter(&mut b, start, 1);
    let mut kind = 1;
    for _ in 0..b.rng.below(8) {
        if kind == 1 && b.rng.chance(20) {
            b.place(&[Reti], 1, 1);
            kind = 2;
            made += 1;
        }
        let (code, taken) = part(b.rng, count, subroutine);
        b.place(&code, kind, 1);
        made += taken;
    }
    sleep(&mut b, kind, steps - made);
    finished(b)
}

/// A subroutine that does nothing for some steps, and how many they are.
fn subroutine(b: &mut Builder) -> (u16, u32) {
    let (address, steps) = (b.cursor as u16, b.rng.below(60) as u32);
    let code = burn(b.rng, steps);
    b.place(&code, 4, 0);
    b.place(&[Ret], 4, 0);
    (address, steps + 1)
}

/// Some instructions, and the steps they take with a count.
fn part(rng: &mut Rng, count: u8, subroutine: (u16, u32)) -> (Vec<Instruction>, u32) {
    let bit = rng.below(8) as u8;
    let set = count >> bit & 1 != 0;
    match rng.below(5) {
        // As often as the count says, 256 times for 0.
        0 => {
            let rounds = if count == 0 { 256 } else { count as u32 };
            (vec![LdA(Direct(COUNT)), LdTo(V), Dec(V), Jrnz(-2)], 2 + 2 * rounds)
        }
        // One step more where the NOP isn't jumped over.
        1 => (vec![Jrs { bit, address: COUNT, displacement: 2 }, NOP], 1 + !set as u32),
        2 => (vec![Jrr { bit, address: COUNT, displacement: 2 }, NOP], 1 + set as u32),
        3 => (vec![Call(subroutine.0)], 1 + subroutine.1),
        _ => (vec![plain(rng)], 1),
    }
}

/// An instruction that leaves the count alone.
fn plain(rng: &mut Rng) -> Instruction {
    let [high, low] = WIDTH;
    let value = rng.byte();
    rng.pick(&[
        LdA(Direct(COUNT)),
        Add(Direct(COUNT)),
        LdiA(value),
        LdTo(Direct(high)),
        LdTo(Direct(low)),
        Inc(Direct(low)),
        Com,
        Rlc,
    ])
}

/// Sleep after exactly a number of steps, in half of the cases in a
/// subroutine.
fn sleep(b: &mut Builder, kind: u8, steps: u32) {
    let deep = b.rng.chance(50);
    let rest = burn(b.rng, steps - if deep { 2 } else { 1 });
    b.place(&rest, kind, 1);
    let sleep = b.rng.pick(&[Stop, Wait]);
    let end = b.cursor as u16 + 4;
    b.place(&[if deep { Call(end) } else { sleep }], kind, 1);
    b.place(&[Jp(b.cursor as u16)], kind, 1);
    if deep {
        b.place(&[sleep, Ret], 4, 0);
    }
}

/// Instructions that take exactly a number of steps: loops in loops, loops,
/// and NOPs. A counter of 0 goes round 256 times.
fn burn(rng: &mut Rng, mut steps: u32) -> Vec<Instruction> {
    let mut code = Vec::new();
    let set = |address: u8, rounds: u32| Ldi { address, value: rounds as u8 };
    while steps > 600 {
        let inner = 100 + rng.below(157) as u32;
        let round = 1 + 2 * inner + 2;
        let outer = ((steps - 1) / round).min(256);
        let loops = [Dec(V), Jrnz(-2), Dec(W), Jrnz(-7)];
        code.extend([set(W_ADDRESS, outer), set(V_ADDRESS, inner)]);
        code.extend(loops);
        steps -= 1 + outer * round;
    }
    while steps > 2 {
        let rounds = ((steps - 1) / 2).min(256);
        code.extend([set(V_ADDRESS, rounds), Dec(V), Jrnz(-2)]);
        steps -= 1 + 2 * rounds;
    }
    code.extend((0..steps).map(|_| NOP));
    code
}

/// Programs that sleep as soon as the check lets them, with their steps. In
/// 2K FFEh must hold a JP: anything else may go on at FFFh or 000h, and what
/// stands at FFFh may go on at 000h, which the image lacks.
pub fn soonest() -> Vec<(Program, u16)> {
    const RESET: u16 = RESET_VECTOR;
    const LAST: u16 = 0xFFF;
    let low = Ldi { address: WIDTH[1], value: 0x77 };
    let with = |sleep: Instruction| {
        let jump = [(RESET, Jp(0x900), 0x10), (0x900, sleep, 0x10), (0x901, Jp(0x900), 0x10)];
        let first = [(RESET, sleep, 0x10), (LAST, NOP, 0x10), (0, Jp(RESET), 0x10)];
        let normal = [(RESET, Reti, 0x10), (LAST, sleep, 0x20), (0, Jp(LAST), 0x20)];
        let over_end = [(RESET, low, 0x10), (1, sleep, 0x10), (2, Jp(1), 0x10)];
        let called = [
            (RESET, Call(0x123), 0x11),
            (0, Jp(0), 0x10),
            (0x123, sleep, 0x40),
            (0x124, Ret, 0x40),
        ];
        [
            (written(2048, &jump), 2),
            (written(4096, &jump), 2),
            (written(4096, &first), 1),
            (written(4096, &normal), 2),
            (written(4096, &over_end), 2),
            (written(4096, &called), 2),
        ]
    };
    [Stop, Wait].into_iter().flat_map(with).collect()
}
