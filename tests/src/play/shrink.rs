//! Makes a call that differs smaller.

use super::Call;
use crate::record::{body, count, pieces, record as record_of};
use std::ops::Range;
use std::time::{Duration, Instant};

const PASSES: usize = 4;
/// Of a long record no more than so many parts are tried in turn.
const PARTS: usize = 512;

/// Makes a call that differs smaller: lower numbers, shorter lists, fewer
/// entries, fewer set bytes. It has a time for that, since some calls are
/// large, and each attempt plays one.
pub fn shrink(call: Call, time: Duration, differs: &dyn Fn(&Call) -> bool) -> Call<'static> {
    let end = Instant::now() + time;
    let mut shrinking = Shrinking { best: call.into_owned(), differs, end };
    for _ in 0..PASSES {
        let lower = shrinking.lower_numbers();
        let shorter = shrinking.shorten_requests();
        let fewer = shrinking.drop_entries();
        let cleared = shrinking.clear_bytes();
        let lowered = shrinking.lower_record();
        if !(lower || shorter || fewer || cleared || lowered) {
            break;
        }
    }
    shrinking.best
}

/// The smallest call so far that differs.
struct Shrinking<'a> {
    best: Call<'static>,
    differs: &'a dyn Fn(&Call) -> bool,
    end: Instant,
}

impl Shrinking<'_> {
    /// Keeps a changed call if it still differs.
    fn attempt(&mut self, change: &dyn Fn(&mut Call<'static>)) -> bool {
        if Instant::now() > self.end {
            return false;
        }
        let mut other = self.best.clone();
        change(&mut other);
        let differs = (self.differs)(&other);
        if differs {
            self.best = other;
        }
        differs
    }

    /// Takes ever smaller parts off each number.
    fn lower_numbers(&mut self) -> bool {
        let mut progress = false;
        for index in 0..self.best.numbers().len() {
            let mut cut = u32::MAX;
            while cut > 0 {
                let now = *self.best.numbers()[index];
                if now >= cut && self.attempt(&|call| *call.numbers()[index] -= cut) {
                    progress = true;
                } else {
                    cut /= 2;
                }
            }
        }
        progress
    }

    /// Takes ever smaller parts off a run's list of requests.
    fn shorten_requests(&mut self) -> bool {
        let mut progress = false;
        let mut cut = self.requests();
        while cut > 0 {
            let shorten = |call: &mut Call<'static>| {
                if let Call::Run { requests, .. } = call {
                    let length = requests.len().saturating_sub(cut);
                    requests.to_mut().truncate(length);
                }
            };
            if self.requests() >= cut && self.attempt(&shorten) {
                progress = true;
            } else {
                cut /= 2;
            }
        }
        progress
    }

    /// The length of a run's list; 0 for other calls.
    fn requests(&self) -> usize {
        match &self.best {
            Call::Run { requests, .. } => requests.len(),
            _ => 0,
        }
    }

    /// Takes ever fewer entries out of a record. What is no entry counts as
    /// one here.
    fn drop_entries(&mut self) -> bool {
        let mut progress = false;
        let mut entries = self.entries();
        let mut size = entries;
        while size > 0 && entries / size <= PARTS {
            let mut from = 0;
            while from < entries {
                let dropped = from..from + size;
                if self.attempt(&|call| without(call, &dropped)) {
                    progress = true;
                    entries = self.entries();
                } else {
                    from += size;
                }
            }
            size /= 2;
        }
        progress
    }

    /// Takes ever smaller parts off each byte of a record that is short now.
    fn lower_record(&mut self) -> bool {
        let mut progress = false;
        let length = self.record().len();
        for index in 0..if length <= PARTS { length } else { 0 } {
            let mut cut = 128;
            while cut > 0 {
                let lower = |call: &mut Call<'static>| {
                    if let Call::Play { record, .. } = call {
                        record.to_mut()[index] -= cut;
                    }
                };
                if self.record()[index] >= cut && self.attempt(&lower) {
                    progress = true;
                } else {
                    cut /= 2;
                }
            }
        }
        progress
    }

    /// The record of a playing; empty for other calls.
    fn record(&self) -> &[u8] {
        match &self.best {
            Call::Play { record, .. } => record,
            _ => &[],
        }
    }

    fn entries(&self) -> usize {
        pieces(self.record()).1.len()
    }

    /// Clears ever smaller parts of each byte string.
    fn clear_bytes(&mut self) -> bool {
        let mut progress = false;
        for index in 0..self.best.strings().len() {
            let length = self.best.strings()[index].len();
            let mut size = length.next_power_of_two();
            while size > 0 {
                for from in (0..length).step_by(size) {
                    let to = (from + size).min(length);
                    if self.best.strings()[index][from..to].iter().any(|&byte| byte != 0) {
                        progress |= self.attempt(&|call| call.strings()[index][from..to].fill(0));
                    }
                }
                size /= 2;
            }
        }
        progress
    }
}

/// Takes some of a record's entries out; its count stays right if it was, and
/// a good header good, if need be in the other version.
fn without(call: &mut Call<'static>, dropped: &Range<usize>) {
    let Call::Play { record, .. } = call else { return };
    let (header, pieces) = pieces(record);
    let kept = pieces.iter().enumerate().filter(|(index, _)| !dropped.contains(index));
    let entries = kept.flat_map(|(_, piece)| *piece).copied().collect::<Vec<u8>>();
    if body(record).is_ok() {
        *record = record_of(&entries).into();
        return;
    }
    let mut shorter = [header, &entries].concat();
    let mut counted = record.to_vec();
    count(&mut counted);
    if counted == **record {
        count(&mut shorter);
    }
    *record = shorter.into();
}
