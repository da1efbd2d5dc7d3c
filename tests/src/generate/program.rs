//! Programs with start-up, main loop, subroutines and services, and their
//! certificates.

use super::routine::{Builder, End, Routine};
use super::{Program, Rng};
use crate::chip::{
    decode_at, Instruction, Rom, Space, IOR, RESET_VECTOR, SIZES, VECTORS, WINDOW, X, Y,
};
use Instruction::*;

/// Subroutines by the levels that they need.
pub(super) type Subroutines = Vec<Vec<u16>>;

/// The levels that the parts of a program may need.
pub(super) struct Needs {
    pub main: u8,
    pub sources: u8,
    pub nmi: u8,
}

impl Needs {
    pub fn deepest(&self) -> u8 {
        self.main.max(self.sources).max(self.nmi)
    }
}

/// What lets sources 1 to 4 be taken.
pub(super) const ENABLE: Instruction = Ldi { address: IOR, value: 0x10 };

/// A program with its certificate. Most are accepted; some need more than six
/// levels.
pub fn program(rng: &mut Rng) -> Program {
    program_using(rng, &[])
}

/// The same, with much use of the registers that can't be read.
pub fn write_only_program(rng: &mut Rng) -> Program {
    program_using(rng, &[IOR, WINDOW, IOR, WINDOW, X, Y])
}

fn program_using(rng: &mut Rng, cells: &'static [u8]) -> Program {
    let mut b = Builder::new(rng);
    b.cells = cells;
    build(&mut b);
    finished(b)
}

/// Puts in all parts of a program; gives where its start-up begins.
pub(super) fn build(b: &mut Builder) -> u16 {
    let wired = if b.rng.chance(15) { 0 } else { b.rng.byte() & 0x1F };
    b.program.wired = wired;
    let needs = needs(b.rng, wired);
    let subroutines = subroutines(b, needs.deepest());
    let start = start_and_main(b, needs.main, &subroutines);
    services(b, &needs, &subroutines, &[]);
    start
}

/// The program, in half of the cases with the least needs.
pub(super) fn finished(mut b: Builder) -> Program {
    tighten_some(&mut b);
    b.program
}

/// Lowers the needs of a program, in half of the cases.
pub(super) fn tighten_some(b: &mut Builder) {
    if b.rng.chance(50) {
        tighten(&mut b.program);
    }
}

/// Shares six levels out, now and then one too many.
pub(super) fn needs(rng: &mut Rng, wired: u8) -> Needs {
    let (nmi, sources) = (wired & 1 != 0, wired & 0x1E != 0);
    let mut left = 6 - nmi as u8 - sources as u8;
    let mut share = |rng: &mut Rng, wanted: bool| {
        let part = if wanted { rng.below(left as usize + 1) as u8 } else { 0 };
        left -= part;
        part
    };
    let main = share(rng, true);
    let sources = share(rng, sources);
    let nmi = share(rng, nmi);
    let main = if rng.chance(5) { (main + 1).min(6) } else { main };
    Needs { main, sources, nmi }
}

pub(super) fn subroutines(b: &mut Builder, deepest: u8) -> Subroutines {
    let mut subroutines = Subroutines::new();
    for need in 0..deepest {
        let mut same_need = Vec::new();
        for _ in 0..1 + b.rng.below(2) {
            let calls = &b.calls(need, &subroutines);
            let wanted = Routine { kind: 4, need, calls, first: &[], end: End::Return };
            same_need.push(b.routine(&wanted));
        }
        subroutines.push(same_need);
    }
    subroutines
}

/// Start-up, then the main loop at the address after its RETI. Gives where
/// start-up begins.
fn start_and_main(b: &mut Builder, need: u8, subroutines: &Subroutines) -> u16 {
    let calls = &if b.rng.chance(50) { b.calls(need, subroutines) } else { vec![] };
    let end = End::ReturnFromInterrupt;
    let start = b.routine(&Routine { kind: 1, need, calls, first: &[ENABLE], end });
    b.cursor = (b.program.certificate.iter().rposition(|&mark| mark >> 4 == 1))
        .map_or(b.cursor, |last| last + b.base + 1);
    let calls = &b.calls(need, subroutines);
    let first: &[Instruction] = if b.rng.chance(70) { &[ENABLE] } else { &[] };
    b.routine(&Routine { kind: 2, need, calls, first, end: End::Loop });
    b.put(RESET_VECTOR as usize, Jp(start));
    b.mark(RESET_VECTOR as usize, 1, need);
    start
}

/// A service for each wired source, with something in front; sources may share
/// one.
pub(super) fn services(
    b: &mut Builder,
    needs: &Needs,
    subroutines: &Subroutines,
    first: &[Instruction],
) {
    let mut shared = None;
    for (source, &vector) in VECTORS.iter().enumerate() {
        if b.program.wired >> source & 1 == 0 {
            continue;
        }
        let vector = vector as usize;
        if b.rng.chance(20) {
            b.put(vector, Reti);
            b.mark(vector, 3, 0);
            continue;
        }
        let need = if source == 0 { needs.nmi } else { needs.sources };
        let service = match shared {
            Some(service) if source > 0 && b.rng.chance(40) => service,
            _ => {
                let calls = &b.calls(need, subroutines);
                let end = End::ReturnFromInterrupt;
                b.routine(&Routine { kind: 3, need, calls, first, end })
            }
        };
        if source > 0 {
            shared = Some(service);
        }
        b.put(vector, Jp(service));
        b.mark(vector, 3, need);
    }
}

/// Lowers every need to the least that the rules allow.
fn tighten(program: &mut Program) {
    for mark in &mut program.certificate {
        *mark &= 0xF0;
    }
    let mut changed = true;
    while changed {
        changed = false;
        for index in (0..program.certificate.len()).rev() {
            let mark = program.certificate[index];
            if mark != 0 {
                let least = least_need(program, index);
                if mark & 0x0F < least {
                    program.certificate[index] = mark & 0xF0 | least;
                    changed = true;
                }
            }
        }
    }
}

/// The least need of a marked address, by the needs where it continues.
fn least_need(program: &Program, index: usize) -> u8 {
    let rom = Rom::new(&program.image).expect("a good image");
    let base = rom.base() as usize;
    let address = (base + index) as u16;
    let length = SIZES[program.image[index] as usize].length as u16;
    let need = |place: u16| program.certificate[(place & 0xFFF) as usize - base] & 0x0F;
    let displaced = |from: u16, by: i8| need((address + from).wrapping_add_signed(by as i16));
    let next = || need(address + length);
    match decode_at(&rom, address).expect("marked code decodes") {
        Ret => 0,
        Reti if program.certificate[index] >> 4 == 3 => 0,
        Jp(target) => need(target),
        Call(target) => next().max(need(target) + 1),
        Jrnz(by) | Jrnc(by) | Jrz(by) | Jrc(by) => next().max(displaced(1, by)),
        Jrr { displacement, .. } | Jrs { displacement, .. } => {
            next().max(displaced(2, displacement))
        }
        _ => next(),
    }
}
