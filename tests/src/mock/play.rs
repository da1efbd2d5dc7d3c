//! A player of another build than the second emulator's: it goes through a
//! record by index, with a packed machine.

use super::bank::{bank, halves, seen};
use super::rows::Row;
use super::{fault, faulty};
use crate::boundary::{self, unpack, REPORT, STATE};

pub fn play(image: &[u8], record: &[u8], state: &mut [u8], report: &mut [u8]) -> u64 {
    let refused = match bad_record(image, record) {
        Some(30) if faulty("long-30-late") => bad_buffer(state, report).or(Some(30)),
        other if faulty("play-2-first") => bad_buffer(state, report).or(other),
        other => other.or_else(|| bad_buffer(state, report)),
    };
    if let Some(number) = refused {
        write_though_refused(number, state, report);
        return number;
    }
    let mut session = Session::new(state);
    let answer = session.play(image, Header::of(record).body(record));
    session.write(answer, state, report);
    match fault() {
        Some("play-address") => answer & 0xFF,
        Some("play-value") if answer == 0 => (session.cycles as u64) << 24,
        _ => answer,
    }
}

/// The greatest count of version 1.
const FIRST_MOST: usize = 0xFFFF;
/// The least and the greatest of version 2.
const LONG_LEAST: usize = 0x1_0000;
const LONG_MOST: usize = 0x10_0000;

/// What is known of a record by its first byte: which bytes the count has,
/// highest first, and where the entries begin.
struct Header {
    long: bool,
    count: &'static [usize],
    entries: usize,
}

impl Header {
    fn of(record: &[u8]) -> Self {
        let version = record.first().copied().unwrap_or(0);
        let long = match fault() {
            Some("long-unknown") => false,
            Some("long-version-3") => matches!(version, 2 | 3),
            Some("long-version-up") => version >= 2,
            Some("long-version-82") => matches!(version, 2 | 0x82),
            _ => version == 2,
        };
        let (count, entries): (&[usize], usize) = match (long, fault()) {
            (true, Some("long-count-2")) => (&[1, 2], 3),
            (true, Some("long-count-le")) => (&[3, 2, 1], 4),
            (true, Some("long-count-turn")) => (&[2, 3, 1], 4),
            (true, Some("long-header-3")) => (&[1, 2, 3], 3),
            (true, Some("long-header-5")) => (&[1, 2, 3, 4], 5),
            (true, _) => (&[1, 2, 3], 4),
            (false, Some("long-first-3")) => (&[1, 2, 3], 4),
            (false, Some("play-count-le")) => (&[2, 1], 3),
            (false, _) => (&[1, 2], 3),
        };
        Header { long, count, entries }
    }

    /// The entries; none where the header is cut.
    fn body<'a>(&self, record: &'a [u8]) -> &'a [u8] {
        record.get(self.entries..).unwrap_or(&[])
    }

    /// The count, if the header has it.
    fn count(&self, record: &[u8]) -> Option<usize> {
        let add = |count: usize, &index: &usize| Some(256 * count + *record.get(index)? as usize);
        self.count.iter().try_fold(0, add)
    }
}

/// A record under three bytes, which gives 28 as a wrong count does.
const SHORT: u64 = 0;

/// The playing's own refusals.
fn bad_record(image: &[u8], record: &[u8]) -> Option<u64> {
    let header = Header::of(record);
    let (body, count) = (header.body(record), header.count(record));
    let applies = |reason: &u64| match reason {
        1 => halves(image).is_none_or(|halves| faulty("play-unpaged") && halves > 2),
        &SHORT => record.len() < 3,
        27 => record.first().is_some_and(|&version| bad_version(version, header.long)),
        28 => bad_count(&header, count, body.len()),
        30 if faulty("long-30-length") => too_many(body.len()),
        30 => header.long && count.is_some_and(too_many),
        _ => bad_entry(body),
    };
    let order = match fault() {
        Some("play-1-late") => [SHORT, 27, 28, 30, 29, 1],
        Some("play-27-first") => [1, 27, SHORT, 28, 30, 29],
        Some("play-28-first") => [1, SHORT, 28, 27, 30, 29],
        Some("play-29-first") => [1, SHORT, 27, 29, 28, 30],
        Some("long-30-first") => [1, SHORT, 27, 30, 28, 29],
        Some("long-30-length") => [1, SHORT, 30, 27, 28, 29],
        Some("long-29-first") => [1, SHORT, 27, 28, 29, 30],
        _ => [1, SHORT, 27, 28, 30, 29],
    };
    match (order.into_iter().find(applies)?, fault()) {
        (SHORT, _) | (30, Some("long-30-28")) => Some(28),
        (30, Some("long-30-29")) => Some(29),
        (28, Some(fault)) if header.long => in_place_of_28(fault, record.len(), count),
        (number, _) => Some(number),
    }
}

/// What a fault gives where version 2 is refused with 28, by the record's
/// length and its count.
fn in_place_of_28(fault: &str, length: usize, count: Option<usize>) -> Option<u64> {
    let few = count.is_some_and(|count| count < LONG_LEAST && count + 4 == length);
    match fault {
        "long-three-0" if length == 3 => None,
        "long-three-27" if length == 3 => Some(27),
        "long-three-30" if length == 3 => Some(30),
        "long-few-27" if few => Some(27),
        "long-few-30" if few => Some(30),
        _ => Some(28),
    }
}

fn bad_version(version: u8, long: bool) -> bool {
    match version {
        0 => !faulty("long-version-0"),
        1 => false,
        _ => !long,
    }
}

/// Whether a count is missing, isn't that of the bytes after it, or is too
/// small for its version.
fn bad_count(header: &Header, count: Option<usize>, length: usize) -> bool {
    match count {
        None => true,
        Some(count) if header.long => bad_long_count(count, length) || too_few(count),
        Some(count) => bad_short_count(count, length),
    }
}

fn bad_long_count(count: usize, length: usize) -> bool {
    match fault() {
        Some("long-count-mod") => count % 0x1_0000 != length % 0x1_0000,
        Some("long-count-24") => count != length % 0x100_0000,
        Some("long-count-own") => count != length + 4,
        Some("long-more") => count > length,
        _ => count != length,
    }
}

fn bad_short_count(count: usize, length: usize) -> bool {
    match fault() {
        Some("play-count-15") => count & 0x7FFF != length,
        Some("play-count-mod") => count != length % 0x1_0000,
        Some("play-more") => count > length,
        Some("play-empty") => count != length || length == 0,
        Some("long-first-most") => count != length || count == FIRST_MOST,
        _ => count != length,
    }
}

/// Of version 2.
fn too_few(count: usize) -> bool {
    match fault() {
        Some("long-few") => false,
        Some("long-empty") => count < LONG_LEAST && count != 0,
        Some("long-65535") => count < LONG_LEAST - 1,
        Some("long-65536") => count <= LONG_LEAST,
        _ => count < LONG_LEAST,
    }
}

/// The same.
fn too_many(count: usize) -> bool {
    match fault() {
        Some("long-many") => false,
        Some("long-1048576") => count >= LONG_MOST,
        Some("long-1048577") => count > LONG_MOST + 1,
        _ => count > LONG_MOST,
    }
}

fn bad_entry(body: &[u8]) -> bool {
    let passed_over = |index: usize| match fault() {
        Some("play-29-late") => true,
        Some("long-29-late") => index > FIRST_MOST,
        _ => false,
    };
    let mut index = 0;
    while let Some(&kind) = body.get(index) {
        match size(kind) {
            Some(size) => index += size,
            None => return !passed_over(index),
        }
    }
    index > body.len() && !passed_over(index) && !faulty("play-cut-last")
}

/// The bytes of an entry, by its first.
fn size(kind: u8) -> Option<usize> {
    match if faulty("play-kind-mask") { kind & 3 } else { kind } {
        0 => Some(2),
        1 => Some(3),
        2 => Some(1),
        _ => None,
    }
}

fn bad_buffer(state: &[u8], report: &[u8]) -> Option<u64> {
    let bad_state = match fault() {
        Some("play-281") => state.len() < STATE,
        Some("play-looks") => unpack(state).is_err(),
        _ => state.len() != STATE,
    };
    match (bad_state, report.len() < REPORT) {
        (true, true) if faulty("play-9-first") => Some(9),
        (true, _) => Some(2),
        (false, true) => Some(9),
        (false, false) => None,
    }
}

fn write_though_refused(number: u64, state: &mut [u8], report: &mut [u8]) {
    match (fault(), number) {
        (Some("play-report"), _) => report.iter_mut().take(REPORT).for_each(|byte| *byte = 0),
        (Some("play-state"), 9) | (Some("long-30-state"), 30) => drop(boundary::reset(state)),
        _ => {}
    }
}

pub(super) struct Session {
    pub(super) machine: Vec<u8>,
    /// Before the last entry that was played, with the fault that needs it.
    earlier: Vec<u8>,
    pub(super) number: u32,
    pub(super) cycles: u32,
    pub(super) row: Row,
}

impl Session {
    fn new(lent: &[u8]) -> Self {
        let mut machine = vec![0; STATE];
        if matches!(fault(), Some("play-lent" | "play-lent-data")) && unpack(lent).is_ok() {
            machine.copy_from_slice(lent);
        }
        if !faulty("play-lent") {
            boundary::reset(&mut machine);
        }
        Session { machine, earlier: Vec::new(), number: 0, cycles: 0, row: Row::default() }
    }

    fn play(&mut self, image: &[u8], body: &[u8]) -> u64 {
        let mut index = 0;
        while let Some(&kind) = body.get(index).filter(|_| !self.ends_early(index)) {
            let Some(end) = size(kind).map(|size| index + size) else { return 29 };
            let Some(entry) = body.get(index..end) else {
                return if faulty("play-cut-last") { 0 } else { 29 };
            };
            let before = faulty("play-early").then(|| self.machine.clone());
            let answer = self.in_row(image, body, index..end);
            let passed_over = match boundary::number(answer) {
                10 => faulty("play-skip-10"),
                11 => faulty("play-skip-11"),
                number => number == 0,
            };
            if !passed_over {
                if let Some(after) = self.passed_row(answer, body, index) {
                    index = after;
                    continue;
                }
                return answer;
            }
            self.earlier = before.unwrap_or_default();
            self.count(entry.len(), boundary::cycles(answer));
            self.count_row(entry.len(), boundary::cycles(answer));
            index = end;
        }
        0
    }

    /// Whether nothing more is played, at an index.
    fn ends_early(&self, index: usize) -> bool {
        match fault() {
            Some("long-bytes") => index >= FIRST_MOST,
            Some("long-entries") => self.number as usize >= FIRST_MOST,
            _ => false,
        }
    }

    /// The answer of an entry.
    pub(super) fn entry(&mut self, image: &[u8], entry: &[u8]) -> u64 {
        let machine = &mut self.machine[..];
        let bank = if faulty("play-bank-0") { 0 } else { bank(machine) };
        match *entry {
            [_, _] if faulty("play-no-request") => boundary::step(&seen(image, bank), machine, 0),
            [_, request] => boundary::step(&seen(image, bank), machine, request as u32),
            [_, address, value] => boundary::store(machine, address as u32, value as u32),
            _ => {
                if faulty("play-reset-data") {
                    machine.fill(0);
                }
                boundary::reset(machine)
            }
        }
    }

    /// Counts an entry of a size: 3 is a store, 1 a reset.
    fn count(&mut self, size: usize, cycles: u32) {
        self.number += 1;
        self.cycles += cycles;
        match (fault(), size) {
            (Some("play-stores"), 3) | (Some("play-resets"), 1) => self.number -= 1,
            (Some("play-store-cost"), 3) | (Some("play-reset-cost"), 1) => self.cycles += 1,
            (Some("play-reset-sum"), 1) => self.cycles = 0,
            _ => {}
        }
    }

    /// What is answered after an answer of the whole, or of the entry that
    /// ended it.
    fn write(&mut self, answer: u64, state: &mut [u8], report: &mut [u8]) {
        let ended = answer != 0;
        let machine = match fault() {
            Some("play-early") if ended && self.number > 0 => &mut self.earlier,
            _ => &mut self.machine,
        };
        match fault() {
            Some("play-fresh") if ended => {
                machine.fill(0);
                boundary::reset(machine);
            }
            Some("play-late") if matches!(boundary::number(answer), 4..=7) => {
                let pc = u16::from_le_bytes([machine[256], machine[257]]) + 1;
                machine[256..258].copy_from_slice(&(pc & 0xFFF).to_le_bytes());
            }
            Some("play-end-cycles") if ended => self.cycles += 4,
            Some("play-from-1") if ended => self.number += 1,
            Some("play-last") if !ended => self.number = self.number.saturating_sub(1),
            Some("play-byte") => self.number &= 0xFF,
            Some("long-number-16") => self.number &= 0xFFFF,
            Some("long-number-max") => self.number = self.number.min(0xFFFF),
            Some("long-cycles-18") => self.cycles &= 0x3_FFFF,
            Some("play-rest") => report[REPORT..].fill(0),
            _ => {}
        }
        state[..STATE].copy_from_slice(machine);
        boundary::write_report(report, self.number, self.cycles).expect("it is long enough");
    }
}
