//! Loops that are run: of mixed instructions, in images without pages and with
//! them; one that picks page after page; and a long one.

use crate::chip::{Instruction, Operand, BANK, HALF, MOST_HALVES, RESET_VECTOR};
use crate::generate::laid_out;
use Instruction::*;
use Operand::*;

type Code<'a> = &'a [Instruction];

/// Where the loop stands.
#[derive(Clone, Copy, PartialEq, Eq)]
pub enum Place {
    Fixed,
    /// In every page.
    Page,
    /// In every page too, and about every fourth step changes the page.
    Changing,
}

/// An image with some pages, all the same: from FFEh a way to RETI at 880h or
/// 080h, then some eighteen instructions.
pub fn mixed_loop(pages: usize, place: Place) -> Vec<u8> {
    let from = if place == Place::Fixed { 0x880 } else { 0x080 };
    let (start, subroutine) = (from + 1, from + 0x40);
    let whole = laid_out(&[
        (RESET_VECTOR, &[Jp(from)]),
        (from, &[Reti]),
        (start, &body(start, subroutine, place == Place::Changing)),
        (subroutine, &[Rlc, Inc(Short(0)), Ret]),
    ]);
    let (page, fixed) = whole.split_at(HALF);
    [&page.repeat(pages), fixed].concat()
}

fn body(start: u16, subroutine: u16, changing: bool) -> Vec<Instruction> {
    let parts: [Code; 6] = [
        &[Ldi { address: 0x10, value: 0x05 }, LdA(Direct(0x10)), Add(Direct(0x11))],
        &[Addi(0x37), Inc(Direct(0x12)), Set { bit: 3, address: 0x13 }],
        // Over COM, half the time.
        &[Res { bit: 3, address: 0x13 }, Jrs { bit: 2, address: 0x12, displacement: 2 }, Com],
        &[Call(subroutine)],
        // Over INC.
        &[LdTo(Direct(0x11)), Cp(Direct(0x14)), Jrnz(1), Inc(Short(2))],
        &[Jrz(0), Jp(start)],
    ];
    let change: Code = if changing { &[Inc(Direct(BANK))] } else { &[] };
    parts.join(change)
}

/// Where the subroutines of the pages stand.
const SUBROUTINE: u16 = 0x100;
/// What the long bodies have, again and again.
const STRAIGHT: [Instruction; 6] =
    [Inc(Short(0)), Addi(3), LdTo(Direct(0x11)), Com, Cp(Direct(0x12)), Rlc];

/// Nine pages, and in the fixed half a loop that picks them one after another
/// and calls a subroutine in each. A page stays for so many steps, four or
/// more. The pages have other code at the same addresses, as programs do.
pub fn picking_loop(every: usize) -> Vec<u8> {
    let pages = 0..MOST_HALVES - 1;
    let pick = |page: usize| [Ldi { address: BANK, value: page as u8 }, Call(SUBROUTINE)];
    let mut main = vec![Reti];
    main.extend(pages.clone().flat_map(pick));
    main.push(Jp(0x881));
    let subroutine = |page: usize| {
        // Beside these a page has the picking, the call and the return.
        let body = STRAIGHT.iter().cycle().skip(page).take(every - 3);
        [&body.copied().collect::<Vec<_>>()[..], &[Ret]].concat()
    };
    let page = |page| laid_out(&[(SUBROUTINE, &subroutine(page))])[..HALF].to_vec();
    let mut image: Vec<u8> = pages.flat_map(page).collect();
    image.extend(&laid_out(&[(RESET_VECTOR, &[Jp(0x880)]), (0x880, &main)])[HALF..]);
    image
}

/// The instructions of the long loop, beside its jump.
pub const LONG: usize = 1200;

/// A loop of straight code below 800h, in 4K.
pub fn long_loop() -> Vec<u8> {
    let body: Vec<Instruction> = STRAIGHT.into_iter().cycle().take(LONG).collect();
    let code = [&[Reti][..], &body, &[Jp(0x011)]].concat();
    laid_out(&[(RESET_VECTOR, &[Jp(0x010)]), (0x010, &code)])
}
