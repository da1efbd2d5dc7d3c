//! Small routines that call each other.

use super::{image_length, written, Program, Rng};
use crate::chip::{Instruction, RESET_VECTOR, VECTORS};
use Instruction::*;

/// Where routines and services stand, and how far apart.
const ROUTINES: u16 = 0x900;
const SERVICES: u16 = 0xA00;
const APART: u16 = 0x10;

type Line = (u16, Instruction, u8);

/// A start-up, subroutines, and a service of each source. Calls are drawn at
/// random, so that some call too deep and some themselves. There is no
/// certificate.
pub fn call_graph(rng: &mut Rng) -> Program {
    let routines: Vec<u16> = (0..2 + rng.below(9) as u16).map(|i| ROUTINES + APART * i).collect();
    let mut code = vec![(RESET_VECTOR, Jp(ROUTINES), 0)];
    for index in 0..routines.len() {
        // Mostly those just after it: deep, but not endless.
        let window = index + 1..(index + 3).min(routines.len());
        let targets = &routines[if rng.chance(95) { window } else { 1..routines.len() }];
        let last = if index == 0 { Jp(ROUTINES) } else { Ret };
        code.extend(routine(rng, routines[index], targets, last));
    }
    code.extend(services(rng, &routines));
    let length = image_length(rng);
    Program { wired: rng.byte() & rng.byte() & 0x1F, ..written(length, &code) }
}

fn services(rng: &mut Rng, routines: &[u16]) -> Vec<Line> {
    let mut code = Vec::new();
    for (source, vector) in (0..).zip(VECTORS) {
        let service = SERVICES + APART * source;
        code.push((vector, Jp(service), 0));
        let targets = &routines[1 + rng.below(routines.len())..];
        code.extend(routine(rng, service, targets, Reti));
    }
    code
}

/// One to three calls and branches, then a last instruction.
fn routine(rng: &mut Rng, from: u16, targets: &[u16], last: Instruction) -> Vec<Line> {
    let mut code = Vec::new();
    let mut at = from;
    for _ in 0..1 + rng.below(3) {
        if targets.is_empty() || rng.chance(30) {
            let to_start = (from as i16 - at as i16 - 1) as i8;
            code.push((at, Jrnz(rng.pick(&[0, -1, to_start])), 0));
            at += 1;
        } else {
            code.push((at, Call(rng.pick(targets)), 0));
            at += 2;
        }
    }
    code.push((at, last, 0));
    code
}
