//! Where data bytes come from (document 02, W-203).

use super::{Machine, Rom, Space, BANK, X};
use crate::Refusal;

/// Where a data byte comes from.
#[derive(Clone, Copy, PartialEq, Eq, Debug)]
pub enum Origin {
    Ram,
    Register,
    /// The ROM window, with the ROM address that it shows: a program address,
    /// whatever the page.
    Rom(u16),
    /// The ROM window where the image has nothing.
    Nothing,
}

/// A data byte and its origin.
#[derive(Clone, Copy, PartialEq, Eq, Debug)]
pub struct DataByte {
    pub byte: u8,
    pub origin: Origin,
}

impl Machine {
    /// The host's reading of the data space: it gives what a program reads.
    pub fn host_read(&self, image: &[u8], address: u8) -> Result<DataByte, Refusal> {
        let rom = Rom::new(image)?.with_bank(self.data[BANK as usize]);
        self.well_formed()?;
        Ok(DataByte { byte: self.read(&rom, address), origin: self.origin(&rom, address) })
    }

    #[inline(always)]
    pub(super) fn origin(&self, rom: &impl Space, address: u8) -> Origin {
        match self.shown(address) {
            Some(rom_address) if rom.byte(rom_address).is_some() => Origin::Rom(rom_address),
            Some(_) => Origin::Nothing,
            None if address < X => Origin::Ram,
            None => Origin::Register,
        }
    }
}
