//! A call as text, for a difference to be printed.

use super::Call;
use crate::chip::{Rom, Space, FIXED, HALF};
use crate::library::KINDS;
use crate::record::{pieces, read};
use std::fmt::{self, Write};

/// The length of a byte string and its bytes that aren't 0, in runs.
fn show(f: &mut fmt::Formatter, name: &str, bytes: &[u8], base: usize) -> fmt::Result {
    write!(f, "\n  {name}: {} bytes", bytes.len())?;
    let mut text = String::new();
    let mut last = None;
    for (index, &byte) in bytes.iter().enumerate().filter(|(_, &byte)| byte != 0) {
        if last.is_none_or(|last| last + 1 != index) {
            write!(text, "\n    {:03X}h:", base + index)?;
        }
        write!(text, " {byte:02X}")?;
        last = Some(index);
    }
    if text.is_empty() {
        write!(f, ", all 00")
    } else {
        write!(f, ", 00 but for{text}")
    }
}

fn show_state(f: &mut fmt::Formatter, state: &[u8], image: &[u8]) -> fmt::Result {
    show(f, "state", state, 0)?;
    show_image(f, image)
}

/// By its program addresses, each page by itself.
fn show_image(f: &mut fmt::Formatter, image: &[u8]) -> fmt::Result {
    if Rom::new(image).map_or(0, |rom| rom.pages()) < 2 {
        return show(f, "image", image, base(image));
    }
    let (pages, fixed) = image.split_at(image.len() - HALF);
    for (number, page) in pages.chunks_exact(HALF).enumerate() {
        show(f, &format!("page {number}"), page, 0)?;
    }
    show(f, "fixed half", fixed, FIXED as usize)
}

/// A certificate, or the buffer for one.
fn show_certificate(
    f: &mut fmt::Formatter,
    name: &str,
    certificate: &[u8],
    image: &[u8],
) -> fmt::Result {
    show(f, name, certificate, base(certificate))?;
    show_image(f, image)
}

/// How many entries of a record are printed at each of its ends, at most.
const PRINTED: usize = 40;

/// The header of a record, then its entries, each with its number.
fn show_record(f: &mut fmt::Formatter, record: &[u8]) -> fmt::Result {
    let (header, pieces) = pieces(record);
    write!(f, "\n  record: {} bytes, {header:02X?}", record.len())?;
    if let Err(fault) = read(record) {
        write!(f, " ({fault:?})")?;
    }
    let last = pieces.len().saturating_sub(PRINTED);
    for (number, piece) in pieces.iter().enumerate() {
        if number < PRINTED || number >= last {
            write!(f, "\n    {number}: {piece:02X?}")?;
        } else if number == PRINTED {
            write!(f, "\n    and {} more, up to", last - PRINTED)?;
        }
    }
    Ok(())
}

fn base(image: &[u8]) -> usize {
    0x1000usize.saturating_sub(image.len())
}

impl Call<'_> {
    /// The numbers that it is given.
    fn heading(&self) -> String {
        match self {
            Call::Decode { address, bank, out, .. } => {
                format!(" at {address:X}h, bank {bank:X}h, out of {out} bytes")
            }
            Call::Write { fields, out } => format!(" fields {fields:02X?}, out of {out} bytes"),
            Call::Reset { .. } | Call::Play { .. } => String::new(),
            Call::Store { address, value, .. } => format!(" {value:X}h at {address:X}h"),
            Call::Step { request, .. } => format!(" with request {request:X}h"),
            Call::Run { n, report, .. } => format!(" of {n} steps, report of {report} bytes"),
            Call::Check { wired, .. } | Call::Make { wired, .. } => {
                format!(" with wired {wired:X}h")
            }
            Call::Job { line, .. } => format!(" with a line of {line} bytes"),
            Call::Width { count, .. } => format!(" with count {count:X}h"),
            Call::Read { address, .. } => format!(" at {address:X}h"),
        }
    }
}

impl fmt::Display for Call<'_> {
    fn fmt(&self, f: &mut fmt::Formatter) -> fmt::Result {
        write!(f, "{}{}", KINDS[self.kind()], self.heading())?;
        match self {
            Call::Decode { image, .. } => show_image(f, image),
            Call::Write { .. } => Ok(()),
            Call::Reset { state } | Call::Store { state, .. } => show(f, "state", state, 0),
            Call::Step { image, state, .. } | Call::Read { image, state, .. } => {
                show_state(f, state, image)
            }
            Call::Run { image, state, requests, .. } => {
                show(f, "requests", requests, 0)?;
                show_state(f, state, image)
            }
            Call::Check { image, certificate, .. } | Call::Width { image, certificate, .. } => {
                show_certificate(f, "certificate", certificate, image)
            }
            Call::Job { job, .. } => show(f, "job", job, 0),
            Call::Make { image, out, .. } => show_certificate(f, "buffer", out, image),
            Call::Play { image, record, state, report } => {
                show_record(f, record)?;
                show(f, "report", report, 0)?;
                show_state(f, state, image)
            }
        }
    }
}
