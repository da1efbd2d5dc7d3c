//! Programs for runs in which pages change: loops that store to the bank byte
//! by one form, and loops that visit places with given bank bytes.

use super::{laid_out, marks, place, Program, Rng};
use crate::chip::{
    Instruction, Operand, BANK, FIXED, HALF, IOR, RESET_VECTOR, SPACE, VECTORS, WINDOW, X, Y,
};
use crate::gauge::{COUNT, WIDTH};
use crate::maker::make;
use std::ops::Range;
use Instruction::*;
use Operand::*;

/// The forms that store, with the operands by which they reach the bank byte.
pub const TURNS: [&str; 12] = [
    "RES",
    "SET",
    "LDI-rr",
    "LD-to direct",
    "LD-to (X)",
    "LD-to (Y)",
    "INC direct",
    "INC (X)",
    "INC (Y)",
    "DEC direct",
    "DEC (X)",
    "DEC (Y)",
];

type Code = Vec<(u16, Vec<Instruction>)>;

/// What stands at a place of every page, as far as all have it in common: so
/// it ends at the same address, and a change of page goes on at an instruction.
#[derive(Clone, Copy)]
enum Slot {
    Straight(usize),
    /// Over the one-byte instruction after it, or not.
    Branch,
    Turn,
    Call,
}

/// The slots of each routine.
struct Shapes {
    main: Vec<Slot>,
    subroutine: Vec<Slot>,
    services: [Vec<Slot>; VECTORS.len()],
    fixed: Vec<Slot>,
}

/// How a program changes the page: by a form, and to which bank bytes, if the
/// form can choose. With another cell in the bank byte's place it stays.
#[derive(Default)]
struct Turner {
    form: usize,
    banks: Vec<u8>,
    cell: u8,
}

/// Where the fixed half has its start and its loop, and its services.
const START: u16 = 0xC00;
const FIXED_SERVICES: u16 = 0xD00;
const APART: u16 = 0x40;
/// RAM that nothing but the loop's own counting uses, and RAM in the place of
/// the bank byte.
const COUNTER: u8 = 0x3F;
const OTHER: u8 = 0x3E;

/// An image of some halves with a loop through the page and the fixed half, a
/// subroutine in the page, and services in both. All of them change the page by
/// one form, and most pages have other code. It never stops or sleeps.
pub fn turning(rng: &mut Rng, halves: usize, form: usize) -> Vec<u8> {
    storing(rng, halves, form, BANK)
}

/// The same with stores to a byte of RAM, so that the page stays.
pub fn staying(rng: &mut Rng, halves: usize, form: usize) -> Vec<u8> {
    storing(rng, halves, form, OTHER)
}

fn storing(rng: &mut Rng, halves: usize, form: usize, cell: u8) -> Vec<u8> {
    let banks = (0..2 + rng.below(4)).map(|_| rng.byte()).collect();
    let turner = Turner { form, banks, cell };
    let shapes = Shapes {
        main: shape(rng, 14, true),
        subroutine: shape(rng, 6, false),
        services: [(); VECTORS.len()].map(|()| shape(rng, 6, false)),
        fixed: shape(rng, 8, true),
    };
    let base = if halves == 1 { 0x900 } else { 0x100 };
    let fixed = fixed_code(rng, base, &shapes, &turner);
    assembled(halves, fixed, |_| page_code(rng, base, &shapes, &turner))
}

/// So many slots, one of them at least a change of the page.
fn shape(rng: &mut Rng, most: usize, calls: bool) -> Vec<Slot> {
    let mut slots = Vec::new();
    for _ in 0..1 + rng.below(most) {
        match rng.below(12) {
            0 | 1 => slots.extend([Slot::Branch, Slot::Straight(1)]),
            2 | 3 => slots.push(Slot::Turn),
            4 if calls => slots.push(Slot::Call),
            other => slots.push(Slot::Straight(1 + other % 3)),
        }
    }
    // Not behind a branch, which may jump over one byte only.
    slots.push(Slot::Turn);
    slots
}

/// A page's code for the shapes.
fn page_code(rng: &mut Rng, base: u16, shapes: &Shapes, turner: &Turner) -> Code {
    let mut routine = |from: u16, slots: &[Slot], last: Instruction| {
        let mut code = turner.code(rng, base, slots);
        code.push(last);
        (from, code)
    };
    let mut code = vec![
        routine(base, &shapes.main, Jp(LOOP)),
        routine(base + SUBROUTINE, &shapes.subroutine, Ret),
    ];
    for (source, slots) in (0..).zip(&shapes.services) {
        code.push(routine(base + SERVICES + APART * source, slots, Reti));
    }
    code
}

/// From a page's code on.
const SUBROUTINE: u16 = 0x100;
const SERVICES: u16 = 0x180;
/// After four instructions of three bytes and RETI.
const LOOP: u16 = START + 13;

/// Start-up, the loop's half, and the services: each in the page or here.
fn fixed_code(rng: &mut Rng, base: u16, shapes: &Shapes, turner: &Turner) -> Code {
    let registers = [(IOR, 0x10), (X, turner.cell), (Y, turner.cell), (WINDOW, rng.byte() & 0x1F)];
    let mut start = registers.map(|(address, value)| Ldi { address, value }).to_vec();
    start.push(Reti);
    // RES and SET alone soon change nothing more.
    if turner.form < 2 || rng.chance(50) {
        let count = [Inc(Direct(COUNTER)), LdA(Direct(COUNTER)), LdTo(Direct(turner.cell))];
        start.extend(count);
    }
    start.extend(turner.code(rng, base, &shapes.fixed));
    start.push(Jp(base));
    let mut code = vec![(RESET_VECTOR, vec![Jp(START)]), (START, start)];
    for (source, (vector, slots)) in (0..).zip(VECTORS.iter().zip(&shapes.services)) {
        let here = FIXED_SERVICES + APART * source;
        let in_page = rng.chance(70);
        let from = if in_page { base + SERVICES + APART * source } else { here };
        code.push((*vector, vec![Jp(from)]));
        let mut service = turner.code(rng, base, slots);
        service.push(Reti);
        code.push((here, service));
    }
    code
}

impl Turner {
    fn code(&self, rng: &mut Rng, base: u16, slots: &[Slot]) -> Vec<Instruction> {
        let mut code = Vec::new();
        for slot in slots {
            match *slot {
                Slot::Straight(length) => code.push(straight(rng, length)),
                Slot::Branch => code.push(rng.pick(&[Jrnz(1), Jrnc(1), Jrz(1), Jrc(1)])),
                Slot::Turn => self.turn(rng, &mut code),
                Slot::Call => code.push(Call(base + SUBROUTINE)),
            }
        }
        code
    }

    fn turn(&self, rng: &mut Rng, code: &mut Vec<Instruction>) {
        let (bit, address, value) = (rng.below(8) as u8, self.cell, rng.pick(&self.banks));
        if (3..=5).contains(&self.form) {
            code.push(LdiA(value));
        }
        let operand = [Direct(self.cell), ByX, ByY][self.form % 3];
        code.push(match self.form {
            // The other one now and then: else no bit would be left.
            0 | 1 if rng.chance(25) => [Set { bit, address }, Res { bit, address }][self.form],
            0 => Res { bit, address },
            1 => Set { bit, address },
            2 => Ldi { address, value },
            3..=5 => LdTo(operand),
            6..=8 => Inc(operand),
            _ => Dec(operand),
        });
    }
}

/// An instruction of a length that keeps X and Y, which point at the bank byte,
/// and what enables the sources. Some read the window.
fn straight(rng: &mut Rng, length: usize) -> Instruction {
    let cell = if rng.chance(20) { 0x40 + rng.below(0x40) } else { rng.below(0x30) } as u8;
    let (short, value) = (Short(2 + rng.below(2) as u8), rng.byte());
    match length {
        1 => rng.pick(&[Inc(short), Dec(short), LdA(short), LdTo(short), Com, Rlc, Jrz(0)]),
        2 => rng.pick(&[
            LdA(Direct(cell)),
            LdTo(Direct(cell)),
            Add(Direct(cell)),
            Sub(Direct(cell)),
            Cp(Direct(cell)),
            Addi(value),
            Cpi(value),
            Inc(Direct(cell)),
        ]),
        _ => rng.pick(&[
            Ldi { address: cell, value },
            Jrr { bit: value % 8, address: cell, displacement: 1 },
            Jrs { bit: value % 8, address: cell, displacement: 1 },
        ]),
    }
}

/// An image of some halves with code in the fixed half and, other code for
/// each, in the pages; all in the fixed half if there are none.
fn assembled(halves: usize, fixed: Code, mut page: impl FnMut(usize) -> Code) -> Vec<u8> {
    let whole = |code: &Code| {
        let lines: Vec<(u16, &[Instruction])> =
            code.iter().map(|(from, code)| (*from, &code[..])).collect();
        laid_out(&lines)
    };
    if halves == 1 {
        return whole(&[fixed, page(0)].concat())[HALF..].to_vec();
    }
    let mut image: Vec<u8> =
        (0..halves - 1).flat_map(|number| whole(&page(number))[..HALF].to_vec()).collect();
    image.extend(&whole(&fixed)[HALF..]);
    image
}

/// Where an instruction begins in the fixed half that ends in the page, and how
/// many bytes it has; likewise from the page into the fixed half.
const OVER_END: [(usize, usize); 3] = [(0xFFE, 3), (0xFFF, 2), (0xFFF, 3)];
const OVER_SEAM: [(usize, usize); 3] = [(0x7FE, 3), (0x7FF, 2), (0x7FF, 3)];
/// Opcodes of two and of three bytes whose operands may be any cell, and 1
/// after it: that displacement leads to the next instruction.
const TWO: [u8; 6] = [0x1F, 0x5F, 0x3F, 0x7F, 0x57, 0x37];
const THREE: [u8; 3] = [LDI, 0x03, 0x13];
const LDI: u8 = 0x0D;

/// An image with pages, and a loop over both seams: what stands there is of the
/// same length with every page, but other code, or has other operands. It
/// changes the page by one form, and begins at FFEh. X and Y must point at the
/// bank byte; services are one RETI.
pub fn over_seams(rng: &mut Rng, halves: usize, form: usize) -> Vec<u8> {
    let turner = Turner { form, banks: vec![rng.byte(), rng.byte(), rng.byte()], cell: BANK };
    let (end, seam) = (rng.pick(&OVER_END), rng.pick(&OVER_SEAM));
    let after = (end.0 + end.1 - SPACE as usize) as u16;
    let slots = shape(rng, 6, false);
    let mut fixed: Code = VECTORS.map(|vector| (vector, vec![Reti])).to_vec();
    fixed.push(((seam.0 + seam.1) as u16, vec![Jp(RESET_VECTOR)]));
    let mut image = assembled(halves, fixed, |_| {
        let mut code = turner.code(rng, 0, &slots);
        code.push(Jp(seam.0 as u16));
        vec![(after, code)]
    });
    write_over(rng, &mut image, end, seam);
    image
}

/// Writes what stands over the end and over the seam, for each page.
fn write_over(rng: &mut Rng, image: &mut [u8], end: (usize, usize), seam: (usize, usize)) {
    let length = image.len();
    let opcode = |rng: &mut Rng, bytes: usize| rng.pick(if bytes == 2 { &TWO[..] } else { &THREE });
    // COM before what begins at FFFh.
    image[length - 2] = 0x2D;
    let at_end = opcode(rng, end.1);
    for page in 0..length / HALF - 1 {
        let mut put = |(from, bytes): (usize, usize), opcode: u8, last: u8| {
            let code = [opcode, rng.below(0x30) as u8, last];
            for (address, byte) in (from..).zip(code).take(bytes) {
                image[place(length, page, address % SPACE as usize)] = byte;
            }
        };
        put(end, at_end, if at_end == LDI { page as u8 } else { 1 });
        put(seam, 0, 1);
        image[page * HALF + seam.0] = opcode(rng, seam.1);
    }
}

/// A bank byte, and an address that is visited with it.
pub type Visit = (u8, u16);

/// What visits of a loop have in common. The library keeps decoded
/// instructions at places that it finds by address and page.
#[derive(Clone, Copy, PartialEq, Eq, Debug)]
pub enum Sharing {
    /// The same place of so many, for other addresses. With one page each
    /// address has one of the many for itself: then it stays.
    Place(usize),
    /// The same page and address, for other bank bytes.
    Page,
    /// The same address, for other pages.
    Address,
}

/// The places of long runs, and of short ones.
pub const PLACES: usize = 4096;
pub const FEW_PLACES: usize = 64;

/// Where a decoded instruction is kept, of so many places: by the page that the
/// bank byte picks, of at least one.
pub fn kept_at((bank, address): Visit, pages: usize, places: usize) -> usize {
    (address as usize + 397 * (bank as usize % pages)) % places
}

/// The most bytes of what is visited.
const ROOM: u16 = 12;
/// Where it may stand, in the page and in the fixed half.
const VISITED: [Range<u16>; 3] = [0..FIXED - ROOM, FIXED..START - ROOM, START + 0x40..0xFD0];

/// Some visits that share something, in an image of some halves.
pub fn visits(rng: &mut Rng, halves: usize, sharing: Sharing) -> Vec<Visit> {
    let mut lists = std::iter::repeat_with(|| {
        // Only in a page it matters which one it is.
        let most = if halves > 1 && rng.chance(80) { FIXED } else { SPACE };
        let first = (rng.byte(), rng.below(most as usize) as u16);
        let others = (0..1 + rng.below(4)).map(|_| sharing.with(rng, first, pages(halves)));
        std::iter::once(first).chain(others).collect::<Vec<Visit>>()
    });
    lists.find(|visits| apart(visits, halves)).expect("there is no end of them")
}

/// How many pages an image has that may be told apart.
fn pages(halves: usize) -> usize {
    (halves - 1).max(1)
}

impl Sharing {
    /// Another visit that has this in common with a first one.
    fn with(self, rng: &mut Rng, first: Visit, pages: usize) -> Visit {
        loop {
            let bank = rng.byte();
            let same_page = bank as usize % pages == first.0 as usize % pages;
            match self {
                Sharing::Place(places) => {
                    let any = (bank, rng.below(SPACE as usize) as u16);
                    let [to, from] = [first, any].map(|visit| kept_at(visit, pages, places));
                    let address = (any.1 + (to + places - from) as u16) % SPACE;
                    if address != first.1 || pages == 1 && places == PLACES {
                        return (bank, address);
                    }
                }
                Sharing::Page if same_page && bank != first.0 => return (bank, first.1),
                Sharing::Address if !same_page || pages == 1 => return (bank, first.1),
                _ => {}
            }
        }
    }
}

/// Where a visit leads: a page, or none for the fixed half; and the address.
fn led_to((bank, address): Visit, halves: usize) -> (Option<usize>, u16) {
    ((address < FIXED).then_some(bank as usize % pages(halves)), address)
}

/// Whether the visits lead into the image, and there is room at each.
fn apart(visits: &[Visit], halves: usize) -> bool {
    let good = |(_, address): &Visit| {
        let in_image = halves > 1 || *address >= FIXED;
        in_image && VISITED.iter().any(|range| range.contains(address))
    };
    let far = |a: Visit, b: Visit| {
        let (a, b) = (led_to(a, halves), led_to(b, halves));
        a == b || a.0 != b.0 || a.1.abs_diff(b.1) >= ROOM
    };
    visits.iter().all(good) && visits.iter().all(|&a| visits.iter().all(|&b| far(a, b)))
}

/// An image of some halves whose main loop makes visits in turn: it stores the
/// bank byte and calls. What is visited is other code each time. Sources may be
/// taken; their services are one RETI.
pub fn visiting(rng: &mut Rng, halves: usize, visits: &[Visit]) -> Vec<u8> {
    visiting_until(rng, halves, visits, &[])
}

/// The same as a sizing program, of an image without pages or with one: what was
/// visited makes the width, and it sleeps after 256 rounds.
pub fn sizing_visits(rng: &mut Rng, halves: usize, visits: &[Visit]) -> Program {
    let [high, low] = WIDTH.map(Direct);
    // RLC, since 256 times the same is nothing.
    let end = [
        Add(high),
        Rlc,
        LdTo(high),
        LdA(low),
        Rlc,
        Add(Direct(0x82)),
        Sub(Direct(0x83)),
        Add(Direct(COUNT)),
        LdTo(low),
        Inc(Direct(COUNTER)),
        Jrnz(1), // over the next
        Stop,
    ];
    let image = visiting_until(rng, halves, visits, &end);
    let mut certificate = vec![0; marks(image.len())];
    make(&image, 0, &mut certificate).expect("it has a certificate");
    Program { image, certificate, wired: 0 }
}

/// With something more at the end of each round.
fn visiting_until(rng: &mut Rng, halves: usize, visits: &[Visit], end: &[Instruction]) -> Vec<u8> {
    const LOOP: u16 = START + 4;
    let mut main = vec![Ldi { address: IOR, value: 0x10 }, Reti];
    for &(value, address) in visits {
        main.extend([Ldi { address: BANK, value }, Call(address)]);
    }
    main.extend_from_slice(end);
    main.push(Jp(LOOP));
    let mut fixed = vec![(RESET_VECTOR, vec![Jp(START)]), (START, main)];
    fixed.extend(VECTORS.map(|vector| (vector, vec![Reti])));
    let mut led: Vec<_> = visits.iter().map(|&visit| led_to(visit, halves)).collect();
    led.sort_unstable();
    led.dedup();
    let mut in_pages: Vec<Code> = vec![Vec::new(); pages(halves)];
    for (page, address) in led {
        let slots = [Slot::Straight(1), Slot::Straight(2), Slot::Straight(1), Slot::Straight(2)];
        let from = rng.below(3);
        let mut code = Turner::default().code(rng, 0, &slots[from..]);
        code.push(Ret);
        page.map_or(&mut fixed, |page| &mut in_pages[page]).push((address, code));
    }
    assembled(halves, fixed, |page| std::mem::take(&mut in_pages[page]))
}
