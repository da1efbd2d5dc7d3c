//! The certificate check.

use crate::chip::{decode_at, Instruction, Rom, Space, NO_SOURCE, RESET_VECTOR, VECTORS};
use crate::Refusal;

pub(crate) const START_UP: u8 = 1;
pub(crate) const MAIN: u8 = 2;
pub(crate) const SERVICE: u8 = 3;
pub(crate) const SUBROUTINE: u8 = 4;
pub(crate) const MOST_NEED: u8 = 6;
pub(crate) const MOST_LEVELS: u8 = 6;

/// A well-formed mark that isn't 00h.
#[derive(Clone, Copy)]
struct Mark {
    kind: u8,
    need: u8,
}

impl Mark {
    fn new(byte: u8) -> Option<Mark> {
        let (kind, need) = (byte >> 4, byte & 0x0F);
        let good = (START_UP..=SUBROUTINE).contains(&kind) && need <= MOST_NEED;
        good.then_some(Mark { kind, need })
    }
}

/// Checks a certificate against an image; gives the levels.
pub fn check(image: &[u8], certificate: &[u8], wired: u8) -> Result<u8, Refusal> {
    let rom = Rom::new(image)?;
    if certificate.len() != rom.addresses() {
        return Err(Refusal::CertificateLength);
    }
    if wired & NO_SOURCE != 0 {
        return Err(Refusal::Request);
    }
    match rom {
        Rom::Flat(flat) => check_all(flat, certificate, wired),
        Rom::Paged(paged) => check_all(paged, certificate, wired),
    }
}

/// The marked addresses upward, each with every page in place; then vectors
/// and levels.
fn check_all<S: Space>(rom: S, certificate: &[u8], wired: u8) -> Result<u8, Refusal> {
    let other_pages: Vec<S> = rom.with_each_page().skip(1).collect();
    for (index, &byte) in certificate.iter().enumerate() {
        if byte != 0 {
            let address = rom.base() + index as u16;
            let mark = Mark::new(byte).ok_or(Refusal::Mark(address))?;
            check_address(&rom, certificate, address, mark)?;
            for rom in &other_pages {
                check_address(rom, certificate, address, mark)?;
            }
        }
    }
    check_levels(&rom, certificate, wired)
}

/// The mark at an address in ROM, if it is marked and well-formed.
#[inline]
fn mark_at(rom: &impl Space, certificate: &[u8], address: u16) -> Option<Mark> {
    let index = (address as usize).checked_sub(rom.base() as usize)?;
    Mark::new(*certificate.get(index)?)
}

/// What a marked address is refused with, page by page; its mark is good.
pub fn refusals_by_page(image: &[u8], certificate: &[u8], address: u16) -> Vec<Option<Refusal>> {
    let rom = Rom::new(image).expect("a good image");
    let mark = mark_at(&rom, certificate, address).expect("a good mark");
    let with_page = |rom: Rom| check_address(&rom, certificate, address, mark).err();
    rom.with_each_page().map(with_page).collect()
}

/// The rules at one marked address, with a page in place.
#[inline]
fn check_address(
    rom: &impl Space,
    certificate: &[u8],
    address: u16,
    mark: Mark,
) -> Result<(), Refusal> {
    use Instruction::*;
    let after = |bytes: u16| (address + bytes) & 0xFFF;
    let moved = |bytes: u16, by: i8| after(bytes).wrapping_add_signed(by as i16) & 0xFFF;
    // The need of a place where the instruction may continue.
    let need = |place: u16, kind: u8| match mark_at(rom, certificate, place) {
        Some(found) if found.kind == kind => Ok(found.need),
        _ => Err(Refusal::Successor(address)),
    };
    let same = mark.kind;

    let instruction = decode_at(rom, address)?;
    let least = match instruction {
        Ret if same != SUBROUTINE => return Err(Refusal::Placement(address)),
        Reti if same != START_UP && same != SERVICE => return Err(Refusal::Placement(address)),
        Ret => 0,
        Reti if same == SERVICE => 0,
        Reti => need(after(1), MAIN)?,
        Jp(target) => need(target, same)?,
        Call(target) => {
            let back = need(after(2), same)?;
            back.max(need(target, SUBROUTINE)? + 1)
        }
        Jrnz(by) | Jrnc(by) | Jrz(by) | Jrc(by) => {
            need(after(1), same)?.max(need(moved(1, by), same)?)
        }
        Jrr { displacement, .. } | Jrs { displacement, .. } => {
            need(after(3), same)?.max(need(moved(2, displacement), same)?)
        }
        other => need(after(length(other)), same)?,
    };
    if mark.need < least {
        return Err(Refusal::Need(address));
    }
    Ok(())
}

/// The length of an instruction that goes on at the next address.
#[inline]
pub(crate) fn length(instruction: Instruction) -> u16 {
    use crate::chip::Operand::Direct;
    use Instruction::*;
    match instruction {
        Ldi { .. } => 3,
        Res { .. } | Set { .. } | LdiA(_) | Addi(_) | Subi(_) | Andi(_) | Cpi(_) => 2,
        LdA(Direct(_)) | LdTo(Direct(_)) | Inc(Direct(_)) | Dec(Direct(_)) => 2,
        Add(Direct(_)) | Sub(Direct(_)) | And(Direct(_)) | Cp(Direct(_)) => 2,
        _ => 1,
    }
}

/// The rules at the vectors, and the levels.
fn check_levels(rom: &impl Space, certificate: &[u8], wired: u8) -> Result<u8, Refusal> {
    let need = |vector: u16, kind: u8| match mark_at(rom, certificate, vector) {
        Some(mark) if mark.kind == kind => Ok(mark.need),
        _ => Err(Refusal::Vector(vector)),
    };
    let mut levels = need(RESET_VECTOR, START_UP)?;
    let mut sources = 0;
    for (source, &vector) in VECTORS.iter().enumerate() {
        if wired >> source & 1 != 0 {
            let pushed = 1 + need(vector, SERVICE)?;
            if source == 0 {
                levels += pushed;
            } else {
                sources = sources.max(pushed);
            }
        }
    }
    levels += sources;
    if levels > MOST_LEVELS {
        return Err(Refusal::TooManyLevels);
    }
    Ok(levels)
}
