//! The entries of a record, called one by one.

use super::{Call, Lent, Outcome};
use crate::boundary::{self, write_report, REPORT, STATE};
use crate::chip::Rom;
use crate::library::Library;
use crate::record::{read, Entry};

/// What the boundary's other functions give for a record.
pub struct OneByOne {
    /// As the playing must give it.
    pub outcome: Outcome,
    /// The most levels in use after any of the entries.
    pub deepest: u8,
    /// Steps that were idle, that took a request, and that executed something.
    pub steps: [u64; 3],
}

impl Call<'_> {
    /// The entries of a record on a fresh machine, up to the first that is
    /// refused or stops. Nothing if the playing itself is turned down.
    pub fn one_by_one(&self, library: &Library) -> Option<OneByOne> {
        let Call::Play { image, record, state, report } = self else { return None };
        let entries = read(record).ok()?;
        if Rom::new(image).is_err() || state.len() != STATE || report.len() < REPORT {
            return None;
        }
        let mut machine = vec![0; STATE];
        let mut answer = (library.reset)(&mut machine);
        let (mut number, mut cycles, mut deepest, mut steps) = (0, 0, 0, [0; 3]);
        for entry in entries {
            answer = call(library, image, &mut machine, entry);
            if boundary::number(answer) != 0 {
                break;
            }
            number += 1;
            cycles += boundary::cycles(answer);
            deepest = deepest.max(machine[258]);
            if let Entry::Step { .. } = entry {
                steps[boundary::cycles(answer).min(2) as usize] += 1;
            }
            answer = 0; // of the whole, if this was the last
        }
        let mut report = report.to_vec();
        write_report(&mut report, number, cycles).expect("it is long enough");
        let outcome =
            Outcome { answer, state: Lent::holding(&machine), out: Lent::holding(&report) };
        Some(OneByOne { outcome, deepest, steps })
    }
}

fn call(library: &Library, image: &[u8], machine: &mut [u8], entry: Entry) -> u64 {
    match entry {
        Entry::Step { request } => (library.step)(image, machine, request as u32),
        Entry::Store { address, value } => (library.store)(machine, address as u32, value as u32),
        Entry::Reset => (library.reset)(machine),
    }
}
