//! The certificate maker (document 02, W-202): the accepted certificate that
//! marks only what is reachable, with the least need at each address. Plain
//! passes find it: over everything, until a pass changes nothing. With pages
//! (W-210) all that may stand at an address counts.

use crate::check::{check, length, MAIN, MOST_NEED, SERVICE, START_UP, SUBROUTINE};
use crate::chip::{decode_at, Instruction, Rom, Space, NO_SOURCE, RESET_VECTOR, SPACE, VECTORS};
use crate::Refusal;

const UNMARKED: u8 = 0;

/// Why no certificate would be accepted. Where several reasons hold, which of
/// them is given doesn't matter.
#[derive(Clone, Copy, PartialEq, Eq, Debug)]
pub enum Reason {
    Undefined,
    /// An instruction that isn't wholly in ROM, or may continue outside it.
    OutsideRom,
    /// An address that would need two kinds.
    TwoKinds,
    /// A RET or RETI where its kind doesn't allow it.
    Misplaced,
    /// A need above six.
    Need,
    /// More than six levels in all.
    Levels,
}

/// The reasons in their order, with names to print.
pub const REASONS: [(Reason, &str); 6] = [
    (Reason::Undefined, "undefined opcode"),
    (Reason::OutsideRom, "outside ROM"),
    (Reason::TwoKinds, "two kinds"),
    (Reason::Misplaced, "RET or RETI misplaced"),
    (Reason::Need, "need above six"),
    (Reason::Levels, "more than six levels"),
];

/// Writes the certificate into a buffer; gives the levels.
pub fn make(image: &[u8], wired: u8, out: &mut [u8]) -> Result<u8, Refusal> {
    let rom = Rom::new(image)?;
    if wired & NO_SOURCE != 0 {
        return Err(Refusal::Request);
    }
    if out.len() != rom.addresses() {
        return Err(Refusal::CertificateBuffer);
    }
    let (certificate, levels) = least(&rom, image, wired).map_err(|_| Refusal::NoCertificate)?;
    out.copy_from_slice(&certificate);
    Ok(levels)
}

/// Why an image gets no certificate; nothing if it gets one, or if it is
/// turned down for its length or the wired byte.
pub fn reason(image: &[u8], wired: u8) -> Option<Reason> {
    let rom = Rom::new(image).ok().filter(|_| wired & NO_SOURCE == 0)?;
    least(&rom, image, wired).err()
}

/// The certificate that has no mark and no need but those that the rules
/// force, and what the check answers for it.
fn least(rom: &Rom, image: &[u8], wired: u8) -> Result<(Vec<u8>, u8), Reason> {
    let code = match rom {
        Rom::Flat(flat) => Code::new(*flat),
        Rom::Paged(paged) => Code::new(*paged),
    };
    let kinds = kinds(&code, wired)?;
    let needs = needs(&rules(&code, &kinds)?)?;
    let marks = kinds.iter().zip(&needs).map(|(kind, need)| kind << 4 | need);
    let certificate: Vec<u8> = marks.skip(rom.base() as usize).collect();
    match check(image, &certificate, wired) {
        Ok(levels) => Ok((certificate, levels)),
        Err(Refusal::TooManyLevels) => Err(Reason::Levels),
        Err(other) => panic!("every rule holds, yet the check gives {other:?}"),
    }
}

/// What stands at each address with the first page in place, and what else may
/// stand there with the others. All 4096 addresses are there, so that one
/// outside ROM is a reason like the others.
struct Code {
    first: Vec<Decoded>,
    others: Vec<(u16, Decoded)>,
}

type Decoded = Result<Instruction, Reason>;

impl Code {
    fn new(rom: impl Space) -> Self {
        let first = decoded(rom);
        let mut others = Vec::new();
        for page in rom.with_each_page().skip(1).map(decoded) {
            let lines = (0..).zip(page).zip(&first);
            others
                .extend(lines.filter(|((_, other), first)| other != *first).map(|(line, _)| line));
        }
        Code { first, others }
    }
}

fn decoded(rom: impl Space) -> Vec<Decoded> {
    let reason = |refusal| match refusal {
        Refusal::OutsideRom(_) => Reason::OutsideRom,
        _ => Reason::Undefined,
    };
    (0..SPACE).map(|address| decode_at(&rom, address).map_err(reason)).collect()
}

/// A place where an instruction may continue: the kind that it must have, and
/// the levels that the instruction needs beyond it.
#[derive(Clone, Copy)]
pub(crate) struct Place {
    pub address: u16,
    pub kind: u8,
    pub pushed: u8,
}

/// Where the instruction at an address may continue, if its kind allows it.
/// A branch counts both ways, and a CALL is taken to return.
pub(crate) fn places(
    instruction: Instruction,
    address: u16,
    kind: u8,
) -> Result<[Option<Place>; 2], Reason> {
    use Instruction::*;
    let after = |bytes: u16| (address + bytes) & 0xFFF;
    let moved = |bytes: u16, by: i8| after(bytes).wrapping_add_signed(by as i16) & 0xFFF;
    let of_kind = |kind: u8, address: u16| Some(Place { address, kind, pushed: 0 });
    let same = |address: u16| of_kind(kind, address);
    Ok(match instruction {
        Ret if kind == SUBROUTINE => [None, None],
        Reti if kind == SERVICE => [None, None],
        Reti if kind == START_UP => [of_kind(MAIN, after(1)), None],
        Ret | Reti => return Err(Reason::Misplaced),
        Jp(target) => [same(target), None],
        Call(target) => {
            [same(after(2)), Some(Place { address: target, kind: SUBROUTINE, pushed: 1 })]
        }
        Jrnz(by) | Jrnc(by) | Jrz(by) | Jrc(by) => [same(after(1)), same(moved(1, by))],
        Jrr { displacement, .. } | Jrs { displacement, .. } => {
            [same(after(3)), same(moved(2, displacement))]
        }
        other => [same(after(length(other))), None],
    })
}

/// The kinds of the reachable addresses; 0 at all others.
fn kinds(code: &Code, wired: u8) -> Result<Vec<u8>, Reason> {
    let mut kinds = starts(wired);
    while reach(code, &mut kinds)? {}
    Ok(kinds)
}

/// Only FFEh and the wired vectors are reached yet.
fn starts(wired: u8) -> Vec<u8> {
    let mut kinds = vec![UNMARKED; SPACE as usize];
    kinds[RESET_VECTOR as usize] = START_UP;
    for (source, &vector) in VECTORS.iter().enumerate() {
        if wired >> source & 1 != 0 {
            kinds[vector as usize] = SERVICE;
        }
    }
    kinds
}

/// One pass over all that stands somewhere: where a reached instruction may
/// continue is reached too. Tells whether any was new.
fn reach(code: &Code, kinds: &mut [u8]) -> Result<bool, Reason> {
    let mut any = false;
    for address in 0..SPACE {
        any |= go_on(kinds, address, || code.first[address as usize])?;
    }
    for &(address, other) in &code.others {
        any |= go_on(kinds, address, || other)?;
    }
    Ok(any)
}

/// Reaches the places where what stands at an address may continue, if it is
/// reached; tells whether any was new.
#[inline(always)]
fn go_on(kinds: &mut [u8], address: u16, line: impl Fn() -> Decoded) -> Result<bool, Reason> {
    let kind = kinds[address as usize];
    if kind == UNMARKED {
        return Ok(false);
    }
    let [first, second] = places(line()?, address, kind)?;
    Ok(give_kind(kinds, first)? | give_kind(kinds, second)?)
}

/// Gives a place its kind; tells whether it had none.
fn give_kind(kinds: &mut [u8], place: Option<Place>) -> Result<bool, Reason> {
    let Some(Place { address, kind, .. }) = place else { return Ok(false) };
    match std::mem::replace(&mut kinds[address as usize], kind) {
        UNMARKED => Ok(true),
        before if before == kind => Ok(false),
        _ => Err(Reason::TwoKinds),
    }
}

/// An address, and a place where it may continue.
type Rule = (u16, Place);

fn rules(code: &Code, kinds: &[u8]) -> Result<Vec<Rule>, Reason> {
    let mut rules = Vec::new();
    let mut add = |address: u16, line: Decoded| {
        let places = places(line?, address, kinds[address as usize])?;
        rules.extend(places.into_iter().flatten().map(|place| (address, place)));
        Ok(())
    };
    let marked = |address: &u16| kinds[*address as usize] != UNMARKED;
    for address in (0..SPACE).filter(marked) {
        add(address, code.first[address as usize])?;
    }
    for &(address, other) in code.others.iter().filter(|(address, _)| marked(address)) {
        add(address, other)?;
    }
    Ok(rules)
}

/// The least needs: from 0, raised until all rules hold.
fn needs(rules: &[Rule]) -> Result<Vec<u8>, Reason> {
    let mut needs = vec![0; SPACE as usize];
    while raise(rules, &mut needs)? {}
    Ok(needs)
}

/// One pass over all rules: a need that is too small is raised to the least
/// that will do. Tells whether any was.
fn raise(rules: &[Rule], needs: &mut [u8]) -> Result<bool, Reason> {
    let mut any = false;
    for &(address, place) in rules.iter().rev() {
        let least = needs[place.address as usize] + place.pushed;
        if least > MOST_NEED {
            return Err(Reason::Need);
        }
        if needs[address as usize] < least {
            needs[address as usize] = least;
            any = true;
        }
    }
    Ok(any)
}
