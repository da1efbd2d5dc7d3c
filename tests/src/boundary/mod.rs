//! The boundary of the proved library, on this crate's own emulator: plain
//! bytes and numbers in, one packed number out. The comparison calls these
//! functions and the library's with the same bytes.
//!
//! An answer has in bits 0-7 the number (0: done), in bits 8-23 the address
//! (0 where none) and in bits 24-55 a value.

mod fields;
mod state;

use crate::check::check as check_certificate;
use crate::chip::{self, DataByte, Origin, Space, Traced, SIZES};
use crate::gauge::{gauge, Gauged};
use crate::maker::make as make_certificate;
use crate::player::{play as play_record, Played};
use crate::{job as jobs, Refusal};
use fields::{fields, instruction};

pub use fields::{FIELDS, FORMS, FORM_NAMES, WRITTEN_FIELDS};
pub use state::{pack, unpack, STATE};

pub const REPORT: usize = 8;

/// The origins by their numbers.
pub const ORIGIN_NAMES: [&str; 5] = ["none", "RAM", "register", "ROM", "no ROM"];

pub fn number(answer: u64) -> u8 {
    answer as u8
}

pub fn address(answer: u64) -> u16 {
    (answer >> 8) as u16
}

pub fn value(answer: u64) -> u32 {
    (answer >> 24) as u32
}

fn done(value: u32) -> u64 {
    (value as u64) << 24
}

fn refused(refusal: Refusal) -> u64 {
    refusal.number() as u64 | (refusal.address().unwrap_or(0) as u64) << 8
}

fn answer(result: Result<u32, Refusal>) -> u64 {
    result.map_or_else(refused, done)
}

fn byte(number: u32, refusal: Refusal) -> Result<u8, Refusal> {
    u8::try_from(number).map_err(|_| refusal)
}

pub fn decode(image: &[u8], address: u32, bank: u32, out: &mut [u8]) -> u64 {
    answer((|| {
        let bank = byte(bank, Refusal::Operand)?;
        let instruction = chip::decode(image, address, bank)?;
        let rom = chip::Rom::new(image)?.with_bank(bank);
        let opcode = rom.byte(address as u16).expect("decoded");
        let fields = fields(instruction, opcode);
        out.get_mut(..FIELDS).ok_or(Refusal::Buffer)?.copy_from_slice(&fields);
        Ok(SIZES[opcode as usize].length as u32)
    })())
}

pub fn write(fields: &[u8], out: &mut [u8]) -> u64 {
    answer(instruction(fields).and_then(|i| chip::write(i, out)).map(|length| length as u32))
}

pub fn reset(state: &mut [u8]) -> u64 {
    answer(unpack(state).map(|mut machine| {
        machine.reset();
        pack(&machine, state);
        0
    }))
}

pub fn store(state: &mut [u8], address: u32, value: u32) -> u64 {
    answer((|| {
        let address = byte(address, Refusal::Operand)?;
        let value = byte(value, Refusal::Operand)?;
        let mut machine = unpack(state)?;
        machine.host_store(address, value)?;
        pack(&machine, state);
        Ok(0)
    })())
}

pub fn step(image: &[u8], state: &mut [u8], request: u32) -> u64 {
    answer((|| {
        chip::Rom::new(image)?;
        let mut machine = unpack(state)?;
        machine.well_formed()?;
        let request = byte(request, Refusal::Request)?;
        let Traced { cycles, origin } = machine.traced_step(image, request)?;
        pack(&machine, state);
        Ok(cycles | told(origin))
    })())
}

/// The value has the byte in its low eight bits.
pub fn read(image: &[u8], state: &[u8], address: u32) -> u64 {
    answer((|| {
        let address = byte(address, Refusal::Operand)?;
        chip::Rom::new(image)?;
        let DataByte { byte, origin } = unpack(state)?.host_read(image, address)?;
        Ok(byte as u32 | told(Some(origin)))
    })())
}

/// An origin as a step and a read tell it: in a value's second byte, and the
/// ROM address in its high half.
fn told(origin: Option<Origin>) -> u32 {
    let (number, rom_address) = match origin {
        None => (0, 0),
        Some(Origin::Ram) => (1, 0),
        Some(Origin::Register) => (2, 0),
        Some(Origin::Rom(address)) => (3, address),
        Some(Origin::Nothing) => (4, 0),
    };
    (rom_address as u32) << 16 | number << 8
}

pub fn run(image: &[u8], state: &mut [u8], requests: &[u8], n: u32, report: &mut [u8]) -> u64 {
    answer((|| {
        chip::Rom::new(image)?;
        let mut machine = unpack(state)?;
        let ran = machine.run(image, requests, n)?;
        write_report(report, ran.steps, ran.cycles)?;
        pack(&machine, state);
        ran.stop.map_or(Ok(0), Err)
    })())
}

/// Puts the report of a run or a playing into a buffer; what comes after it
/// stays.
pub fn write_report(report: &mut [u8], count: u32, cycles: u32) -> Result<(), Refusal> {
    let place = report.get_mut(..REPORT).ok_or(Refusal::Buffer)?;
    place[..4].copy_from_slice(&count.to_le_bytes());
    place[4..].copy_from_slice(&cycles.to_le_bytes());
    Ok(())
}

/// A wired byte beyond its byte is as bad as any with bit 7.
fn wired_byte(wired: u32) -> u8 {
    u8::try_from(wired).unwrap_or(0xFF)
}

pub fn check(image: &[u8], certificate: &[u8], wired: u32) -> u64 {
    answer(check_certificate(image, certificate, wired_byte(wired)).map(u32::from))
}

/// The line is written whether the job was accepted or refused, and the
/// number is then 0; only a buffer shorter than the line is refused, with 9.
pub fn job(job: &[u8], line: &mut [u8]) -> u64 {
    let text = jobs::line(job);
    answer(match line.get_mut(..text.len()) {
        Some(place) => {
            place.copy_from_slice(text.as_bytes());
            Ok(text.len() as u32)
        }
        None => Err(Refusal::Buffer),
    })
}

/// The value has the width in its low half and the steps in its high half.
pub fn width(image: &[u8], certificate: &[u8], count: u32) -> u64 {
    answer((|| {
        let count = byte(count, Refusal::Operand)?;
        let Gauged { width, steps } = gauge(image, certificate, count)?;
        Ok((steps as u32) << 16 | width as u32)
    })())
}

/// The value is what the check answers for the made certificate.
pub fn make(image: &[u8], wired: u32, out: &mut [u8]) -> u64 {
    answer(make_certificate(image, wired_byte(wired), out).map(u32::from))
}

/// The state is only written; what it holds before doesn't matter.
pub fn play(image: &[u8], record: &[u8], state: &mut [u8], report: &mut [u8]) -> u64 {
    answer((|| {
        let Played { machine, entries, cycles, end } = play_record(image, record)?;
        if state.len() != STATE {
            return Err(Refusal::IllFormed);
        }
        write_report(report, entries, cycles)?;
        pack(&machine, state);
        end.map_or(Ok(0), Err)
    })())
}

/// The cycles of an answer of [`step`].
pub fn cycles(answer: u64) -> u32 {
    value(answer) & 0xFF
}

/// The origin's number in an answer of [`step`] or [`read`].
pub fn origin(answer: u64) -> usize {
    (value(answer) >> 8 & 0xFF) as usize
}

/// The ROM address in an answer of [`step`] or [`read`].
pub fn rom_address(answer: u64) -> u16 {
    (value(answer) >> 16) as u16
}

/// The width and the steps of an answer of [`width`].
pub fn gauged(answer: u64) -> Gauged {
    let value = value(answer);
    Gauged { width: value as u16, steps: (value >> 16) as u16 }
}
