//! A certificate maker of another build than the second emulator's: it keeps
//! a list of the addresses that are still to be looked at.

use super::bank::{each_seen, halves};
use super::{fault, faulty};
use crate::check::{MOST_LEVELS, MOST_NEED, SERVICE, START_UP};
use crate::chip::{decode_at, Instruction, Rom, Space, NO_SOURCE, RESET_VECTOR, SPACE, VECTORS};
use crate::maker::{places, Place};
use std::ops::Range;

/// What the list holds with the fault that it is too short.
const SHORT_LIST: usize = 64;

pub fn make(image: &[u8], wired: u32, out: &mut [u8]) -> u64 {
    if halves(image).is_none() {
        return 1;
    }
    let wanted = if faulty("paged-25-image") { image.len() } else { image.len().min(4096) };
    let other_length = out.len() != wanted;
    if faulty("make-order") && other_length {
        return 25;
    }
    let Some(wired) = u8::try_from(wired).ok().filter(|wired| wired & NO_SOURCE == 0) else {
        return 11;
    };
    if other_length {
        return 25;
    }
    let seen = each_seen(image);
    let roms = seen.iter().map(|seen| Rom::new(seen).expect("2K or 4K")).collect();
    let mut maker = Maker::new(roms);
    let levels = maker.make(wired);
    if levels.is_some() || faulty("make-writes") {
        maker.write(out);
    }
    levels.map_or(26, |levels| (levels as u64) << 24)
}

struct Maker<'a> {
    /// What is seen with each page.
    roms: Vec<Rom<'a>>,
    /// By address, and for all 4096.
    marks: Vec<u8>,
    /// For each address those that may continue there, and the levels that
    /// they need beyond it.
    before: Vec<Vec<(u16, u8)>>,
    list: Vec<u16>,
    raised: u16,
}

impl<'a> Maker<'a> {
    fn new(roms: Vec<Rom<'a>>) -> Self {
        let (marks, before) = (vec![0; SPACE as usize], vec![Vec::new(); SPACE as usize]);
        Maker { roms, marks, before, list: Vec::new(), raised: 0 }
    }

    /// The levels, if there is a certificate.
    fn make(&mut self, wired: u8) -> Option<u8> {
        self.reach(RESET_VECTOR, START_UP)?;
        let sources = if faulty("make-vectors") { 0 } else { wired };
        for vector in vectors(sources) {
            self.reach(vector, SERVICE)?;
        }
        self.reach_all()?;
        self.raise_all()?;
        self.levels(wired)
    }

    fn reach(&mut self, address: u16, kind: u8) -> Option<()> {
        let mark = &mut self.marks[address as usize];
        match *mark >> 4 {
            0 => {
                *mark = kind << 4;
                if !(faulty("make-list") && self.list.len() >= SHORT_LIST) {
                    self.list.push(address);
                }
            }
            before if before == kind || faulty("make-kinds") => {}
            _ => return None,
        }
        Some(())
    }

    fn reach_all(&mut self) -> Option<()> {
        while let Some(address) = self.list.pop() {
            for page in self.pages(address) {
                self.reach_from(page, address)?;
            }
        }
        Some(())
    }

    /// The pages with which an address is looked at.
    fn pages(&self, address: u16) -> Range<usize> {
        match fault() {
            Some("paged-make-0") => 0..1,
            Some("paged-make-end") if address >= 0x800 => 0..1,
            Some("paged-make-last") => 0..(self.roms.len() - 1).max(1),
            _ => 0..self.roms.len(),
        }
    }

    fn reach_from(&mut self, page: usize, address: u16) -> Option<()> {
        let instruction = decode_at(&self.roms[page], address).ok()?;
        let kind = self.marks[address as usize] >> 4;
        let [mut first, mut second] = followed(instruction, address, kind)?;
        if page > 0 && faulty("paged-make-two") {
            (decode_at(&self.roms[0], address) == Ok(instruction)).then_some(())?;
        }
        if page > 0 && faulty("paged-make-need") {
            [first, second] = [first, second].map(|place| place.filter(|place| place.pushed == 0));
        }
        self.follow(address, first)?;
        self.follow(address, second)
    }

    fn follow(&mut self, from: u16, place: Option<Place>) -> Option<()> {
        let Some(Place { address, kind, pushed }) = place else { return Some(()) };
        self.before[address as usize].push((from, pushed));
        self.reach(address, kind)
    }

    fn raise_all(&mut self) -> Option<()> {
        self.list = (0..SPACE).filter(|&address| self.marks[address as usize] != 0).collect();
        while let Some(address) = self.list.pop() {
            let need = self.marks[address as usize] & 0x0F;
            let before = self.before[address as usize].clone();
            before.into_iter().try_for_each(|(from, pushed)| self.raise(from, need + pushed))?;
        }
        Some(())
    }

    fn raise(&mut self, address: u16, least: u8) -> Option<()> {
        let mark = &mut self.marks[address as usize];
        if *mark & 0x0F >= least {
            return Some(());
        }
        *mark = *mark & 0xF0 | least;
        self.raised += 1;
        if !faulty("make-raised") {
            self.list.push(address);
        }
        let most = if faulty("make-six") { MOST_NEED - 1 } else { MOST_NEED };
        let tired = faulty("make-rounds") && self.raised > SPACE - self.roms[0].base();
        (least <= most && !tired).then_some(())
    }

    fn levels(&self, wired: u8) -> Option<u8> {
        let pushed = |vector: u16| 1 + (self.marks[vector as usize] & 0x0F);
        let greatest = |sources: u8| vectors(sources).map(pushed).max().unwrap_or(0);
        let need = self.marks[RESET_VECTOR as usize] & 0x0F;
        let levels = need + greatest(wired & 0x1E) + greatest(wired & 0x01);
        (levels <= MOST_LEVELS || faulty("make-levels")).then_some(levels)
    }

    fn write(&self, out: &mut [u8]) {
        let marks = &self.marks[self.roms[0].base() as usize..];
        for (place, &mark) in out.iter_mut().zip(marks) {
            if mark != 0 || !faulty("make-keeps") {
                *place = mark;
            }
        }
    }
}

/// The vectors of some sources.
fn vectors(sources: u8) -> impl Iterator<Item = u16> {
    (0..).zip(VECTORS).filter(move |(source, _)| sources >> source & 1 != 0).map(|(_, v)| v)
}

/// Where an instruction may continue, with the fault.
fn followed(instruction: Instruction, address: u16, kind: u8) -> Option<[Option<Place>; 2]> {
    use Instruction::*;
    let [first, second] = places(instruction, address, kind).ok()?;
    Some(match (fault(), instruction) {
        (Some("make-call-level"), Call(_)) => {
            [first, second.map(|place| Place { pushed: 0, ..place })]
        }
        (Some("make-after-call"), Call(_)) => [None, second],
        (Some("make-reti"), Reti) => [first.map(|place| Place { kind, ..place }), None],
        (Some("make-end"), other)
            if !matches!(other, Jp(_)) && first.is_some_and(|place| place.address < address) =>
        {
            return None
        }
        (Some("make-taken"), other) if branches(other) => [None, second],
        (Some("make-not-taken"), other) if branches(other) => [first, None],
        _ => [first, second],
    })
}

fn branches(instruction: Instruction) -> bool {
    use Instruction::*;
    matches!(instruction, Jrnz(_) | Jrnc(_) | Jrz(_) | Jrc(_) | Jrr { .. } | Jrs { .. })
}
