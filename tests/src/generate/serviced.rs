//! Programs whose services come often: they call, sleep and change the page,
//! and interrupt every depth of a main loop that mostly sleeps.

use super::paged::{with_pages, CELLS};
use super::program::{needs, services, subroutines, Needs, Subroutines, ENABLE};
use super::routine::{Builder, End, Routine};
use super::{Program, Rng};
use crate::chip::{Instruction, BANK, HALF, RESET_VECTOR};
use crate::maker::make;
use Instruction::*;

/// All sources, all but NMI, NMI alone, and NMI with each other one.
const WIRED: [u8; 8] = [0x1F, 0x1F, 0x1E, 0x01, 0x03, 0x05, 0x09, 0x11];

/// An accepted program of a length, with the certificate that is made for it.
pub fn serviced(rng: &mut Rng, length: usize) -> Program {
    loop {
        let mut program = built(rng, length);
        // Now and then one needs seven levels.
        if make(&program.image, program.wired, &mut program.certificate).is_ok() {
            return program;
        }
    }
}

fn built(rng: &mut Rng, length: usize) -> Program {
    let mut b = Builder::of_length(rng, length.min(2 * HALF));
    if length > HALF {
        // Mostly in the page.
        b.cells = &CELLS;
        b.cursor = b.rng.below(0x600);
    }
    b.sleeps_anywhere = b.rng.chance(30);
    b.program.wired = b.rng.pick(&WIRED);
    let needs = needs(b.rng, b.program.wired);
    let subroutines = subroutines(&mut b, needs.deepest());
    start_and_main(&mut b, &needs, &subroutines);
    let turn = Ldi { address: BANK, value: b.rng.byte() };
    let first: &[Instruction] = if length > HALF && b.rng.chance(50) { &[turn] } else { &[] };
    services(&mut b, &needs, &subroutines, first);
    if length > HALF {
        with_pages(b, length)
    } else {
        b.program
    }
}

/// A start-up that only enables the sources, then the main loop, most often
/// with a sleep in each round.
fn start_and_main(b: &mut Builder, needs: &Needs, subroutines: &Subroutines) {
    b.put(RESET_VECTOR as usize, Jp(b.cursor as u16));
    b.mark(RESET_VECTOR as usize, 1, needs.main);
    b.place(&[ENABLE, Reti], 1, needs.main);
    let calls = &b.calls(needs.main, subroutines);
    let mut first = vec![ENABLE];
    if b.rng.chance(60) {
        first.push(b.rng.pick(&[Stop, Wait]));
    }
    b.routine(&Routine { kind: 2, need: needs.main, calls, first: &first, end: End::Loop });
}
