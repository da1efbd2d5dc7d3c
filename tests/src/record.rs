//! Records of sessions (document 02, W-206 and W-207): a version, a big-endian
//! count of the bytes after it, then entries. The count has two bytes in
//! version 1 and three in version 2, which is only for more than two can tell.

use crate::Refusal;

pub const VERSION_1: u8 = 1;
pub const VERSION_2: u8 = 2;
/// The most bytes that the entries can have in each.
pub const MOST_1: usize = u16::MAX as usize;
pub const MOST_2: usize = 1_048_576;
/// The fewest in version 2.
pub const LEAST_2: usize = MOST_1 + 1;

/// The first bytes of the entries.
pub const STEP: u8 = 0;
pub const STORE: u8 = 1;
pub const RESET: u8 = 2;

#[derive(Clone, Copy, PartialEq, Eq, Debug)]
pub enum Entry {
    Step { request: u8 },
    Store { address: u8, value: u8 },
    Reset,
}

/// What is wrong with a record.
#[derive(Clone, Copy, PartialEq, Eq, Debug)]
pub enum Fault {
    /// It has less than the header of version 1.
    Short,
    Version,
    /// The count isn't that of the bytes after it.
    Count,
    /// Of version 2: it has three bytes, less than its header.
    Short2,
    Count2,
    /// The count is right, but below or above what version 2 is for.
    TooFew,
    TooMany,
    Unknown,
    CutStep,
    CutStore,
}

impl Fault {
    pub fn refusal(self) -> Refusal {
        use Fault::*;
        match self {
            Version => Refusal::RecordVersion,
            Short | Count | Short2 | Count2 | TooFew => Refusal::RecordLength,
            TooMany => Refusal::RecordTooLong,
            Unknown | CutStep | CutStore => Refusal::RecordEntry,
        }
    }
}

/// The entries of a record. All of them are read before any is played.
pub fn read(record: &[u8]) -> Result<Vec<Entry>, Fault> {
    let mut rest = body(record)?;
    let mut entries = Vec::new();
    while !rest.is_empty() {
        let (entry, after) = first(rest)?;
        entries.push(entry);
        rest = after;
    }
    Ok(entries)
}

/// The bytes of the entries: the one place that reads a header.
pub fn body(record: &[u8]) -> Result<&[u8], Fault> {
    match record {
        [] | [_] | [_, _] => Err(Fault::Short),
        [VERSION_1, high, low, body @ ..] => counted(body, [0, 0, *high, *low]).ok_or(Fault::Count),
        [VERSION_2, high, middle, low, body @ ..] => {
            let body = counted(body, [0, *high, *middle, *low]).ok_or(Fault::Count2)?;
            match body.len() {
                LEAST_2..=MOST_2 => Ok(body),
                ..LEAST_2 => Err(Fault::TooFew),
                _ => Err(Fault::TooMany),
            }
        }
        [VERSION_2, ..] => Err(Fault::Short2),
        _ => Err(Fault::Version),
    }
}

/// Some bytes, if they are as many as a count says.
fn counted(body: &[u8], count: [u8; 4]) -> Option<&[u8]> {
    (u32::from_be_bytes(count) as usize == body.len()).then_some(body)
}

/// The first entry of some bytes, and the bytes after it.
fn first(bytes: &[u8]) -> Result<(Entry, &[u8]), Fault> {
    match *bytes {
        [STEP, request, ref rest @ ..] => Ok((Entry::Step { request }, rest)),
        [STORE, address, value, ref rest @ ..] => Ok((Entry::Store { address, value }, rest)),
        [RESET, ref rest @ ..] => Ok((Entry::Reset, rest)),
        [STEP, ..] => Err(Fault::CutStep),
        [STORE, ..] => Err(Fault::CutStore),
        _ => Err(Fault::Unknown),
    }
}

/// The bytes of a record's header: its version and its count. An unknown
/// version has those of version 1.
pub fn header(record: &[u8]) -> usize {
    if record.first() == Some(&VERSION_2) {
        4
    } else {
        3
    }
}

/// A record in pieces, whatever is wrong with it: its header, as far as it has
/// one, then each entry, and what is none as the last.
pub fn pieces(record: &[u8]) -> (&[u8], Vec<&[u8]>) {
    let (header, mut rest) = record.split_at(record.len().min(header(record)));
    let mut pieces = Vec::new();
    while !rest.is_empty() {
        let after = first(rest).map_or(0, |(_, after)| after.len());
        let (piece, others) = rest.split_at(rest.len() - after);
        pieces.push(piece);
        rest = others;
    }
    (header, pieces)
}

/// The record of some entries, in the version that is for so many bytes.
pub fn record(entries: &[u8]) -> Vec<u8> {
    assert!(entries.len() <= MOST_2, "no version is for more");
    of_version(if entries.len() > MOST_1 { VERSION_2 } else { VERSION_1 }, entries)
}

/// The same in any version, with its count as far as it goes in.
pub fn of_version(version: u8, entries: &[u8]) -> Vec<u8> {
    let mut record = vec![0; header(&[version])];
    record[0] = version;
    record.extend_from_slice(entries);
    count(&mut record);
    record
}

/// Puts in the count of the bytes after it, the high bytes cut off; a record
/// that has no place for it stays as it is.
pub fn count(record: &mut [u8]) {
    let header = header(record);
    if let Some(length) = record.len().checked_sub(header) {
        put_count(record, length);
    }
}

/// Puts in any count, in a header that is whole.
pub fn put_count(record: &mut [u8], count: usize) {
    let header = header(record);
    let place = &mut record[1..header];
    let bytes = (count as u32).to_be_bytes();
    place.copy_from_slice(&bytes[bytes.len() - place.len()..]);
}
