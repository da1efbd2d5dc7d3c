//! What a call gave, and how the outcomes of both sides stand to each other.

use super::{Call, Lent};
use crate::boundary::{self, REPORT, STATE};
use std::fmt::Write;

/// What a call gave: its answer, and what the lent buffers hold after it.
#[derive(Clone, PartialEq, Eq)]
pub struct Outcome {
    pub answer: u64,
    /// The state, where there is one.
    pub state: Lent,
    /// The report, the written bytes, the fields, the line or the certificate.
    pub out: Lent,
}

/// The two numbers of a written report: steps or entries, and cycles.
pub fn report(outcome: &Outcome) -> (u32, u32) {
    let report = &outcome.out.bytes()[..REPORT];
    let word = |index: usize| u32::from_le_bytes(report[index..index + 4].try_into().unwrap());
    (word(0), word(4))
}

/// How two outcomes stand to each other.
#[derive(Clone, Copy, PartialEq, Eq, Debug)]
pub enum Verdict {
    Same,
    /// They differ only in return addresses that aren't in use.
    UnusedDiffer,
    Differ,
}

/// Compares two outcomes of a call. Return addresses that aren't in use after
/// a call that was not turned down are no part of the machine.
pub fn verdict(call: &Call, a: &Outcome, b: &Outcome) -> Verdict {
    if a == b {
        return Verdict::Same;
    }
    let changed = call.writes_machine(boundary::number(a.answer));
    let (before, after) = (a.state.bytes(), b.state.bytes());
    if a.answer == b.answer && a.out == b.out && changed && before.len() == STATE {
        let used = 268 + 2 * (before[258] as usize).min(6);
        if before[..used] == after[..used] && a.state.guards() == b.state.guards() {
            return Verdict::UnusedDiffer;
        }
    }
    Verdict::Differ
}

/// How many bytes of a buffer are printed, at most.
const PRINTED: usize = 32;

/// Where two outcomes differ, each with its name.
pub fn difference(named: [(&str, &Outcome); 2]) -> String {
    let mut text = String::new();
    for (name, outcome) in named {
        let answer = outcome.answer;
        let _ = writeln!(
            text,
            "  {name}: number {}, address {:03X}h, value {} ({:X}h){}",
            boundary::number(answer),
            boundary::address(answer),
            boundary::value(answer),
            boundary::value(answer),
            if answer >> 56 == 0 { "" } else { ", and bits above 55" },
        );
    }
    let [(one, first), (other, second)] = named;
    for (name, a, b) in [("state", &first.state, &second.state), ("out", &first.out, &second.out)] {
        let length = a.bytes().len() as isize;
        let more = a.differences(b).count().saturating_sub(PRINTED);
        for (index, a, b) in a.differences(b).take(PRINTED) {
            let outside = if (0..length).contains(&index) { "" } else { " (outside it)" };
            let _ = writeln!(text, "  {name}[{index}]{outside}: {one} {a:02X}, {other} {b:02X}");
        }
        if more > 0 {
            let _ = writeln!(text, "  and {more} more bytes of {name}");
        }
    }
    text
}
