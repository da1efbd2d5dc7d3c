//! Programs with several pages, whose code is good at the same marks with
//! every page in place.

use super::program::{build, tighten_some};
use super::routine::Builder;
use super::{written, Program, Rng};
use crate::chip::{
    decode_at, write, Instruction, Rom, BANK, FIXED, HALF, RESET_VECTOR, SPACE, VECTORS, WINDOW, X,
    Y,
};
use Instruction::*;

/// Much use of the bank register, also through pointers.
pub(super) const CELLS: [u8; 6] = [BANK, BANK, BANK, WINDOW, X, Y];

/// Where the byte at a program address stands in an image of a length, with a
/// page in place.
pub fn place(length: usize, page: usize, address: usize) -> usize {
    if length > HALF && address < FIXED as usize {
        page * HALF + address
    } else {
        address + length - SPACE as usize
    }
}

/// A program of a length with at least one page, and its certificate. Most
/// are accepted; some need more than six levels. It changes the bank all the
/// time, in the page and in the fixed half.
pub fn paged_program(rng: &mut Rng, length: usize) -> Program {
    let mut b = Builder::of_length(rng, 2 * HALF);
    b.cells = &CELLS;
    // Code before the fixed half more often than not, and `over_end` has the
    // first three bytes.
    b.cursor = 3 + if b.rng.chance(70) { b.rng.below(0x780) } else { b.cursor };
    let start = build(&mut b);
    if b.rng.chance(40) {
        over_end(&mut b, start);
    }
    tighten_some(&mut b);
    with_pages(b, length)
}

/// A 4K program lengthened by other pages, to a length.
pub(super) fn with_pages(mut b: Builder, length: usize) -> Program {
    let mut image = b.program.image[..HALF].to_vec();
    while image.len() < length - HALF {
        image.extend(other_page(&mut b));
    }
    image.extend(&b.program.image[HALF..]);
    Program { image, ..b.program }
}

/// Start-up begins with an instruction at FFEh whose last byte is the one at
/// 000h, and goes on at 001h.
fn over_end(b: &mut Builder, start: u16) {
    let reset = RESET_VECTOR as usize;
    let (address, value) = (b.rng.pick(&CELLS), b.rng.byte());
    b.program.image[reset..].copy_from_slice(&[0x0D, address]);
    b.program.image[0] = value;
    b.put(1, Jp(start));
    b.program.certificate[1] = b.program.certificate[reset];
}

/// A page with other code at the same marks as the first one's, and anything
/// else elsewhere. What reaches into the fixed half has its end there.
fn other_page(b: &mut Builder) -> Vec<u8> {
    let mut page = b.program.image[..HALF].to_vec();
    if b.rng.chance(80) {
        b.rng.fill(&mut page);
    }
    for address in 0..HALF {
        if b.program.certificate[address] != 0 {
            let mut bytes = [0; 3];
            let length = write(other_code(b, address), &mut bytes).expect("a good instruction");
            let end = HALF.min(address + length);
            page[address..end].copy_from_slice(&bytes[..end - address]);
        }
    }
    page
}

/// Another instruction in place of one of the first page, of the same length:
/// its marks are good for both.
fn other_code(b: &mut Builder, address: usize) -> Instruction {
    let rom = Rom::new(&b.program.image).expect("a good image");
    let now = decode_at(&rom, address as u16).expect("marked code decodes");
    let (bit, cell) = (b.rng.below(8) as u8, b.data_address());
    match now {
        Jrnz(by) | Jrnc(by) | Jrz(by) | Jrc(by) => {
            b.rng.pick(&[Jrnz(by), Jrnc(by), Jrz(by), Jrc(by)])
        }
        Jrr { displacement, .. } | Jrs { displacement, .. } => b.rng.pick(&[
            Jrr { bit, address: cell, displacement },
            Jrs { bit, address: cell, displacement },
        ]),
        Ret | Reti => now,
        Stop | Wait => b.rng.pick(&[Stop, Wait]),
        Jp(_) | Call(_) if address + 1 == HALF => now,
        Jp(_) => Jp(other_place(b, b.program.certificate[address] & 0xF0, address, 0)),
        Call(_) => Call(other_place(b, 0x40, address, 1)),
        other => straight(b, write(other, &mut [0; 3]).expect("it was decoded")),
    }
}

/// A marked address of a kind that needs no more than the one at an address
/// has, less what is pushed.
fn other_place(b: &mut Builder, kind: u8, address: usize, pushed: u8) -> u16 {
    let marks = &b.program.certificate;
    let most = kind | ((marks[address] & 0x0F) - pushed);
    let good = |&place: &u16| (kind..=most).contains(&marks[place as usize]);
    let places: Vec<u16> = (0..SPACE).filter(good).collect();
    b.rng.pick(&places)
}

/// An instruction of a length that goes on at the next address.
fn straight(b: &mut Builder, length: usize) -> Instruction {
    loop {
        let one = b.straight();
        if write(one, &mut [0; 3]) == Ok(length) {
            return one;
        }
    }
}

/// Where the routines of a graph stand, and how far apart.
const ROUTINES: u16 = 0x100;
const SERVICES: u16 = 0x700;
const APART: u16 = 0x10;
/// The instructions of a routine before its last, of two bytes each.
const SLOTS: u16 = 3;

/// A start-up, subroutines and services at the same places of each page, with
/// calls of their own: some are too deep, or call themselves, only because
/// the pages change. There is no certificate.
pub fn paged_graph(rng: &mut Rng, length: usize) -> Program {
    let routines: Vec<u16> = (0..2 + rng.below(9) as u16).map(|i| ROUTINES + APART * i).collect();
    let mut image = Vec::new();
    let mut last = Vec::new();
    while image.len() < length - HALF {
        last = written(2 * HALF, &graph_code(rng, &routines)).image;
        image.extend(&last[..HALF]);
    }
    image.extend(&last[HALF..]);
    let wired = rng.byte() & rng.byte() & 0x1F;
    Program { image, certificate: vec![0; SPACE as usize], wired }
}

type Line = (u16, Instruction, u8);

fn graph_code(rng: &mut Rng, routines: &[u16]) -> Vec<Line> {
    let mut code = vec![(RESET_VECTOR, Jp(ROUTINES), 0)];
    for (index, &from) in routines.iter().enumerate() {
        // Mostly those just after it: deep, but not endless.
        let window = index + 1..(index + 3).min(routines.len());
        let targets = &routines[if rng.chance(99) { window } else { 1..routines.len() }];
        let last = if index == 0 { Jp(ROUTINES) } else { Ret };
        code.extend(routine(rng, from, targets, last));
    }
    for (source, vector) in (0..).zip(VECTORS) {
        let service = SERVICES + APART * source;
        code.push((vector, Jp(service), 0));
        let targets = &routines[routines.len().div_ceil(2)..];
        code.extend(routine(rng, service, targets, Reti));
    }
    code
}

/// Calls and jumps, then a last instruction.
fn routine(rng: &mut Rng, from: u16, targets: &[u16], last: Instruction) -> Vec<Line> {
    let mut code = Vec::new();
    for slot in 0..SLOTS {
        let one = match rng.below(4) {
            0 if !targets.is_empty() => Call(rng.pick(targets)),
            1 => Jp(from + 2 * rng.below(SLOTS as usize + 1) as u16),
            _ => LdiA(rng.byte()),
        };
        code.push((from + 2 * slot, one, 0));
    }
    code.push((from + 2 * SLOTS, last, 0));
    code
}

/// Undefined opcodes, RET and RETI: no good in most code.
const MISPLACED: [u8; 5] = [0x05, 0x77, 0x8D, 0xCD, 0x4D];

/// Puts code that mostly is no good into the pages: at one address with some
/// of them, and now and then at another with others.
pub fn misplaced(rng: &mut Rng, program: &mut Program) {
    let marked = program.marked();
    let places: Vec<usize> = marked.iter().copied().filter(|&mark| mark < FIXED as usize).collect();
    if places.is_empty() {
        return;
    }
    for _ in 0..1 + rng.below(2) {
        let mark = rng.pick(&places);
        for _ in 0..1 + rng.below(3) {
            let page = rng.below(program.pages());
            let index = program.index(page, mark);
            let to = rng.pick(&marked) as u16;
            match rng.below(3) {
                0 => drop(write(Jp(to), &mut program.image[index..])),
                1 => drop(write(Call(to), &mut program.image[index..])),
                _ => program.image[index] = rng.pick(&MISPLACED),
            }
        }
    }
}
