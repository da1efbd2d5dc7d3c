//! Programs that reach through every page, with other ways on each: a
//! certificate maker has most to do with them.

use super::{place, Program, Rng};
use crate::chip::{write, Instruction, HALF, RESET_VECTOR};
use Instruction::*;

#[derive(Clone, Copy, PartialEq, Eq, Debug)]
pub enum Tangle {
    /// One-byte branches to anywhere near.
    Branches,
    /// JPs to anywhere.
    Jumps,
    /// The same, with CALLs of subroutines of all depths among them.
    Calls,
}

/// The subroutine goes from 000h to its end, then come those below it, and
/// start-up.
const END: usize = 0xF80;
const BELOW: usize = 0xF90;
const START: u16 = 0xFC0;

/// A start-up that calls a subroutine that fills pages and fixed half, with
/// other branches or jumps in every page. At its end it calls itself, and there
/// is no certificate then if it gets there; or it calls the first of five others
/// below each other.
pub fn tangle(rng: &mut Rng, length: usize, how: Tangle, recursive: bool) -> Program {
    let mut image = vec![0x04; length];
    let mut put = |page: usize, address: usize, instruction: Instruction| {
        write(instruction, &mut image[place(length, page, address)..]).expect("it is good")
    };
    for page in 0..length / HALF - 1 {
        let mut address = 0;
        while address < END {
            let way = way(rng, how, address);
            address += put(page, address, way);
        }
    }
    put(0, END, Call(if recursive { 0 } else { BELOW as u16 }));
    put(0, END + 2, Ret);
    for level in 0..5 {
        let at = BELOW + 4 * level;
        put(0, at, if level == 4 { LdiA(0) } else { Call(at as u16 + 4) });
        put(0, at + 2, Ret);
    }
    put(0, START as usize, Call(0));
    put(0, START as usize + 2, Jp(START + 2));
    put(0, RESET_VECTOR as usize, Jp(START));
    Program { image, certificate: vec![0; 4096], wired: 0 }
}

/// An instruction of the subroutine that stays in it.
fn way(rng: &mut Rng, how: Tangle, address: usize) -> Instruction {
    match how {
        Tangle::Branches => {
            let (back, on) = (address.min(15), (END - address - 1).min(15));
            Jrz((rng.below(back + on + 1) as i8) - back as i8)
        }
        Tangle::Calls if rng.chance(25) => Call((BELOW + 4 * rng.below(5)) as u16),
        Tangle::Jumps | Tangle::Calls => Jp(2 * rng.below(END / 2 + 1) as u16),
    }
}
