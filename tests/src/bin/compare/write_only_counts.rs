//! Counts how 0C8h and 0C9h were read, which gives 0, where another byte is
//! stored; and how the stored bytes drove the enable and the window.

use crate::counted_step::{AfterStep, BeforeStep};
use crate::opcode_map::{
    different_operations, operand_address, operations, reads, reads_anywhere, Operation, KINDS,
};
use second::boundary::{self, FORMS, FORM_NAMES};
use second::chip::{Mode, IOR, WINDOW};

const REGISTERS: [(u8, &str); 2] = [(IOR, "0C8h"), (WINDOW, "0C9h")];
/// The first ROM address that page 0 of the window doesn't show.
const PAGE_1: u16 = 0x40;

type ByRegister = [u64; REGISTERS.len()];

pub struct WriteOnlyCounts {
    /// By opcode, where it may read one of the registers.
    reading: [Option<Operation>; 256],
    single: Steps,
    in_runs: Steps,
    by_reads: ByRegister,
}

impl WriteOnlyCounts {
    pub fn new() -> Self {
        let reading = operations().map(|operation| operation.filter(reads_anywhere));
        let (single, in_runs) = (Steps::default(), Steps::default());
        WriteOnlyCounts { reading, single, in_runs, by_reads: [0; REGISTERS.len()] }
    }

    /// Counts a step of the second emulator. The stored bit must have decided
    /// whether a source was taken.
    pub fn add_step(&mut self, before: &BeforeStep, after: &AfterStep) {
        let read = self.read(before);
        let steps = if after.in_run { &mut self.in_runs } else { &mut self.single };
        if let Some(enabled) = enabled(before) {
            assert_eq!(after.cycles == 1, enabled, "sources are taken if they are enabled");
            steps.sources[enabled as usize] += 1;
        }
        if after.cycles < 2 {
            return;
        }
        if let Some([form, kind, register]) = read {
            steps.read[form][kind][register] += 1;
        }
        steps.pages += (after.rom_address >= PAGE_1) as u64;
    }

    /// The form, the kind of operand and the number of the register that the
    /// instruction at PC reads.
    fn read(&self, before: &BeforeStep) -> Option<[usize; 3]> {
        let [form, kind] = self.reading[before.opcode? as usize]?;
        let data = &before.machine.data;
        let address = operand_address(kind, before.second.unwrap_or(0), data);
        Some([form as usize, kind as usize, stored_in(address, data)?])
    }

    pub fn add_read(&mut self, state: &[u8], address: u32, answer: u64) {
        if boundary::number(answer) != 0 {
            return;
        }
        if let Some(register) = stored_in(address as u8, state) {
            self.by_reads[register] += 1;
        }
    }

    pub fn print(&self) {
        println!(
            "[0C8h, 0C9h] read with a byte other than 0 stored there, by single steps and in runs"
        );
        for form in (0..FORMS).filter(|&form| reads(FORM_NAMES[form])) {
            let kinds = wanted().into_iter().filter(|operation| operation[0] as usize == form);
            let counts = kinds.map(|[_, kind]| {
                let [single, in_runs] =
                    [&self.single, &self.in_runs].map(|steps| steps.read[form][kind as usize]);
                format!("{} {single:?} {in_runs:?}", KINDS[kind as usize])
            });
            println!("  {:4}{}", FORM_NAMES[form], counts.collect::<String>());
        }
        println!("  by the host's reading {:?}", self.by_reads);
        for (way, steps) in self.ways() {
            let Steps { sources: [not_enabled, enabled], pages, .. } = steps;
            println!(
                "  {way}: sources taken {enabled}, not enabled {not_enabled}, \
                 ROM bytes of other pages than 0 read in the window {pages}"
            );
        }
    }

    fn ways(&self) -> [(&str, &Steps); 2] {
        [("single steps", &self.single), ("runs", &self.in_runs)]
    }

    pub fn print_not_met(&self) {
        let mut missing: Vec<String> = Vec::new();
        for (way, steps) in self.ways() {
            missing.extend(steps.missing().iter().map(|what| format!("{what} in {way}")));
        }
        missing.extend(not_met(&self.by_reads).map(|register| format!("read {register}")));
        if !missing.is_empty() {
            println!("NOT MET: write-only registers: {}", missing.join(", "));
        }
    }
}

/// Steps that were made alone, or steps of runs.
#[derive(Default)]
struct Steps {
    /// By form and kind of operand.
    read: [[ByRegister; KINDS.len()]; FORMS],
    /// Requests without and with the enable bit.
    sources: [u64; 2],
    /// ROM bytes of other pages than 0 that were read in the window.
    pages: u64,
}

impl Steps {
    fn missing(&self) -> Vec<String> {
        let mut missing = Vec::new();
        for [form, kind] in wanted() {
            let name = format!("{}{}", FORM_NAMES[form as usize], KINDS[kind as usize]);
            let counts = &self.read[form as usize][kind as usize];
            missing.extend(not_met(counts).map(|register| format!("{name} {register}")));
        }
        let [not_enabled, enabled] = self.sources;
        for (what, count) in
            [("source taken", enabled), ("source not enabled", not_enabled), ("page", self.pages)]
        {
            if count == 0 {
                missing.push(what.to_string());
            }
        }
        missing
    }
}

/// In normal mode with a source requested, but no NMI: the enable bit.
fn enabled(BeforeStep { machine, request, .. }: &BeforeStep) -> Option<bool> {
    let source = request & 0x1E != 0 && request & 0x01 == 0;
    (machine.mode == Mode::Normal && source).then_some(machine.data[IOR as usize] & 0x10 != 0)
}

/// The number of a register at an address with another byte than 0 in it.
fn stored_in(address: u8, data: &[u8]) -> Option<usize> {
    let register = REGISTERS.iter().position(|&(register, _)| register == address)?;
    (data[address as usize] != 0).then_some(register)
}

fn wanted() -> Vec<Operation> {
    different_operations().into_iter().filter(reads_anywhere).collect()
}

/// The names of the registers whose count is 0.
fn not_met(counts: &ByRegister) -> impl Iterator<Item = &'static str> + '_ {
    REGISTERS.iter().zip(counts).filter(|(_, &count)| count == 0).map(|((_, name), _)| *name)
}
