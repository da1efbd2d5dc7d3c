//! Program space: an image seen by program address.

use super::{wrap, Origin, SPACE};
use crate::Refusal;
use std::cell::Cell;

/// The bytes of a half: of a page, or of the fixed half.
pub const HALF: usize = 2048;
/// The most halves that an image has: nine pages and the fixed half.
pub const MOST_HALVES: usize = 10;
/// Where the fixed half is seen; the page in place is seen below it.
pub const FIXED: u16 = 0x800;

/// Program space as it stands: what fetches and reads in ROM.
pub trait Space: Copy {
    /// The lowest address in ROM.
    fn base(&self) -> u16;

    /// The byte at a program address of twelve bits, if there is one.
    fn byte(&self, address: u16) -> Option<u8>;

    /// How many pages there are; none in 2K.
    fn pages(&self) -> usize;

    /// Puts the page in place that a bank byte picks.
    fn turn_to(&mut self, bank: u8);

    fn with_bank(mut self, bank: u8) -> Self {
        self.turn_to(bank);
        self
    }

    /// Each page in place, the first page first; once if there are none.
    fn with_each_page(self) -> impl Iterator<Item = Self> {
        (0..self.pages().max(1)).map(move |page| self.with_bank(page as u8))
    }

    /// How many addresses have a byte, so also how many marks a certificate
    /// has.
    fn addresses(&self) -> usize {
        (SPACE - self.base()) as usize
    }
}

/// An image of an allowed length. Those without a choice of pages have a kind
/// of their own, since they are by far the most.
#[derive(Clone, Copy)]
pub enum Rom<'a> {
    Flat(Flat<'a>),
    Paged(Paged<'a>),
}

/// 2K, or 4K, whose only page is always in place.
#[derive(Clone, Copy)]
pub struct Flat<'a> {
    bytes: &'a [u8],
    base: usize,
}

/// Two pages or more, and the fixed half.
#[derive(Clone, Copy)]
pub struct Paged<'a> {
    pages: &'a [u8],
    fixed: &'a Half,
    bank: u8,
    in_place: &'a Half,
}

type Half = [u8; HALF];

impl<'a> Rom<'a> {
    /// With the first page in place.
    #[inline]
    pub fn new(image: &'a [u8]) -> Result<Self, Refusal> {
        match image.len() {
            2048 => Ok(Rom::Flat(Flat { bytes: image, base: FIXED as usize })),
            4096 => Ok(Rom::Flat(Flat { bytes: image, base: 0 })),
            _ => Paged::new(image).map(Rom::Paged).ok_or(Refusal::ImageLength),
        }
    }
}

impl Space for Rom<'_> {
    fn base(&self) -> u16 {
        match self {
            Rom::Flat(flat) => flat.base(),
            Rom::Paged(paged) => paged.base(),
        }
    }

    #[inline]
    fn byte(&self, address: u16) -> Option<u8> {
        match self {
            Rom::Flat(flat) => flat.byte(address),
            Rom::Paged(paged) => paged.byte(address),
        }
    }

    fn pages(&self) -> usize {
        match self {
            Rom::Flat(flat) => flat.pages(),
            Rom::Paged(paged) => paged.pages(),
        }
    }

    #[inline]
    fn turn_to(&mut self, bank: u8) {
        match self {
            Rom::Flat(flat) => flat.turn_to(bank),
            Rom::Paged(paged) => paged.turn_to(bank),
        }
    }
}

impl Space for Flat<'_> {
    #[inline(always)]
    fn base(&self) -> u16 {
        self.base as u16
    }

    #[inline(always)]
    fn byte(&self, address: u16) -> Option<u8> {
        self.bytes.get((address as usize).wrapping_sub(self.base)).copied()
    }

    fn pages(&self) -> usize {
        self.bytes.len() / HALF - 1
    }

    #[inline(always)]
    fn turn_to(&mut self, _: u8) {}
}

impl<'a> Paged<'a> {
    fn new(image: &'a [u8]) -> Option<Self> {
        let (pages, fixed) = image.split_last_chunk()?;
        let good = pages.len().is_multiple_of(HALF) && pages.len() / HALF < MOST_HALVES;
        let in_place = pages.first_chunk().filter(|_| good)?;
        Some(Paged { pages, fixed, bank: 0, in_place })
    }

    fn change_page(&mut self, bank: u8) {
        let page = bank as usize % self.pages();
        self.bank = bank;
        self.in_place = self.pages[page * HALF..].first_chunk().expect("a whole page");
    }
}

impl Space for Paged<'_> {
    #[inline(always)]
    fn base(&self) -> u16 {
        0
    }

    #[inline(always)]
    fn byte(&self, address: u16) -> Option<u8> {
        let half = if address < FIXED { self.in_place } else { self.fixed };
        Some(half[address as usize % HALF])
    }

    fn pages(&self) -> usize {
        self.pages.len() / HALF
    }

    #[inline(always)]
    fn turn_to(&mut self, bank: u8) {
        if bank != self.bank {
            self.change_page(bank);
        }
    }
}

/// An opcode in ROM, with the way to its operand bytes. The decoder and the
/// machine both read instructions through this.
pub(super) struct Fetched<'a, S> {
    pub rom: &'a S,
    pub address: u16,
    pub opcode: u8,
    /// Where the data operand came from, once the machine has read one.
    pub origin: Cell<Option<Origin>>,
}

impl<'a, S: Space> Fetched<'a, S> {
    #[inline(always)]
    pub fn at(rom: &'a S, address: u16) -> Result<Self, Refusal> {
        let opcode = rom.byte(address).ok_or(Refusal::OutsideRom(address))?;
        Ok(Fetched { rom, address, opcode, origin: Cell::new(None) })
    }

    #[inline(always)]
    pub fn second(&self) -> Result<u8, Refusal> {
        self.operand(1)
    }

    #[inline(always)]
    pub fn third(&self) -> Result<u8, Refusal> {
        self.operand(2)
    }

    #[inline(always)]
    fn operand(&self, offset: u16) -> Result<u8, Refusal> {
        self.rom.byte(wrap(self.address + offset)).ok_or(Refusal::OutsideRom(self.address))
    }

    /// The opcode's top five bits as a signed number.
    #[inline(always)]
    pub fn short_displacement(&self) -> i8 {
        (self.opcode as i8) >> 3
    }

    /// The opcode's top three bits, reversed.
    #[inline(always)]
    pub fn bit_number(&self) -> u8 {
        (self.opcode & 0xE0).reverse_bits()
    }

    /// Whether the opcode stands in an odd row: JRS and SET do, JRR and RES
    /// don't.
    #[inline(always)]
    pub fn odd_row(&self) -> bool {
        self.opcode & 0x10 != 0
    }

    /// The target of CALL and JP: the opcode's high digit is the lowest digit.
    #[inline(always)]
    pub fn target(&self) -> Result<u16, Refusal> {
        Ok((self.second()? as u16) << 4 | (self.opcode >> 4) as u16)
    }

    /// The number of X, Y, V or W where the opcode names one.
    #[inline(always)]
    pub fn register(&self) -> u8 {
        self.opcode >> 6
    }

    /// What is given where the opcode is undefined.
    #[inline(always)]
    pub fn undefined(&self) -> Refusal {
        Refusal::Undefined(self.address)
    }
}
