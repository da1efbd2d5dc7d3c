//! Rows of steps that a player gathers and plays as one, with the fault.

use super::play::Session;
use super::{fault, faulty};
use crate::boundary;
use std::ops::Range;

/// The most steps that are gathered at once.
const MOST: u32 = 4096;
/// The size of a step's entry and of a store's.
const STEP: usize = 2;
const STORE: usize = 3;

/// The steps of a row that were played.
#[derive(Default)]
pub(super) struct Row {
    steps: u32,
    cycles: u32,
    /// The machine before them.
    machine: Vec<u8>,
    after_store: bool,
}

/// Whether a step that isn't refused stands at an index.
fn step_at(body: &[u8], index: usize) -> bool {
    matches!(body.get(index..), Some([0, 0..=0x1F, ..]))
}

/// How many of them follow one another from an index on.
fn steps_from(body: &[u8], index: usize) -> usize {
    (index..).step_by(STEP).take_while(|&index| step_at(body, index)).count()
}

impl Session {
    /// The answer of an entry that may be a step in a row.
    pub(super) fn in_row(&mut self, image: &[u8], body: &[u8], entry: Range<usize>) -> u64 {
        let index = entry.start;
        let named = fault().is_some_and(|name| name.starts_with("row-"));
        if !named || !step_at(body, index) {
            return self.entry(image, &body[entry]);
        }
        if self.row.steps == 0 && matches!(fault(), Some("row-back" | "row-11")) {
            self.row.machine = self.machine.clone();
        }
        let last = !step_at(body, index + STEP);
        let request = match fault() {
            Some("row-request") if last => 0,
            Some("row-request") => body[index + STEP + 1],
            Some("row-last") if last => 0,
            Some("row-cut") if self.row.after_store && self.row.steps == 0 => 0,
            Some("row-4096") if self.row.steps >= MOST => 0,
            _ => body[index + 1],
        };
        if faulty("row-4097") && self.row.steps == MOST {
            return 0;
        }
        self.entry(image, &[0, request])
    }

    /// Counts an entry of a size that was played, and of a row what is lost.
    pub(super) fn count_row(&mut self, size: usize, cycles: u32) {
        if size == STEP {
            self.row.steps += 1;
            self.row.cycles += cycles;
            return;
        }
        let after_store = size == STORE;
        if faulty(if after_store { "row-store" } else { "row-reset" }) {
            self.cycles -= self.row.cycles;
        }
        self.row = Row { after_store, ..Row::default() };
    }

    /// At an entry that ends the playing: where it goes on nevertheless, if it
    /// does.
    pub(super) fn passed_row(&mut self, answer: u64, body: &[u8], index: usize) -> Option<usize> {
        let Row { steps, cycles, .. } = self.row;
        let stopped = matches!(boundary::number(answer), 4..=7);
        match (fault()?, boundary::number(answer)) {
            ("row-on", _) if stopped => {
                let left = steps_from(body, index);
                self.number += left as u32;
                self.row = Row::default();
                return Some(index + STEP * left);
            }
            ("row-first", _) if stopped => self.number -= steps,
            ("row-next", _) if stopped => self.number += steps_from(body, index) as u32,
            ("row-cycles", _) if stopped => self.cycles -= cycles,
            ("row-back", _) if stopped && steps > 0 => {
                self.machine.copy_from_slice(&self.row.machine);
            }
            ("row-11", 11) if steps > 0 => {
                self.number -= steps;
                self.cycles -= cycles;
                self.machine.copy_from_slice(&self.row.machine);
            }
            ("row-10", 10) => self.cycles -= cycles,
            ("row-long", _) if stopped && body.len() > 0xFFFF => self.number += 1,
            _ => {}
        }
        None
    }
}
