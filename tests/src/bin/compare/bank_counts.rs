//! Counts what was met of pages and the bank byte: in decodes, steps, runs and
//! reads.

use crate::counted_step::{AfterStep, BeforeStep};
use crate::opcode_map::{operations, Operation, KINDS as OPERANDS};
use crate::play_counts::{named, not_met};
use second::boundary::{self, FORM_NAMES};
use second::chip::{Rom, Space, BANK, FIXED, HALF, MOST_HALVES, SIZES, SPACE};
use second::generate::TURNS;
use second::library::KINDS;
use second::play::{Call, Outcome};

const MOST_PAGES: usize = MOST_HALVES - 1;
/// How a page in place is used.
const USES: [&str; 5] = ["decode", "single step", "step in a run", "window of a step", "read"];
/// Of them, those by a step.
const SINGLE: usize = 1;
const IN_RUN: usize = 2;
const WINDOW: usize = 3;
const READ: usize = 4;
const SEAMS: [&str; 2] = ["7FFh to 800h", "FFFh to 000h"];
/// Calls with an image that can be of any number of halves; a width is refused
/// then, and counted so.
const WITH_IMAGE: [&str; 8] = ["decode", "step", "run", "check", "width", "make", "read", "play"];
/// What else is to be met, by its name.
#[derive(Clone, Copy)]
enum Other {
    Reset,
    IllFormedReset,
    HostStore,
    StepOf2K,
    ReadOf2K,
    DecodeOf2K,
    Beyond,
    NextInPage,
}
const OTHERS: [&str; 8] = [
    "reset of a bank byte",
    "reset of one in an ill-formed machine",
    "host store to 0CAh",
    "step of 2K with a bank byte",
    "read of 2K with one",
    "decode of 2K with one",
    "a bank beyond its byte",
    "the next instruction in another page",
];

/// By pages and what the bank byte is modulo their number.
type ByResidue = [[u64; MOST_PAGES]; MOST_HALVES];

pub struct BankCounts {
    /// By kind of call and halves: those that were done.
    done: [[u64; MOST_HALVES + 1]; KINDS.len()],
    /// By kind of call: those of more than 4,096 bytes that were refused with
    /// 1, and how many different lengths they had.
    refused: [Vec<usize>; KINDS.len()],
    uses: [ByResidue; USES.len()],
    /// Bank bytes with two pages or more, by use.
    bytes: [Vec<bool>; USES.len()],
    /// Instructions across each seam with another page than the first, by
    /// decodes, single steps and steps in runs.
    seams: [[u64; SEAMS.len()]; 3],
    /// Steps that changed the page, alone and in runs, by what stored.
    changes: [[u64; TURNS.len()]; 2],
    others: [u64; OTHERS.len()],
    storing: [Option<usize>; 256],
}

impl BankCounts {
    pub fn new() -> Self {
        BankCounts {
            done: [[0; MOST_HALVES + 1]; KINDS.len()],
            refused: Default::default(),
            uses: [[[0; MOST_PAGES]; MOST_HALVES]; USES.len()],
            bytes: [(); USES.len()].map(|_| vec![false; 256]),
            seams: [[0; SEAMS.len()]; 3],
            changes: [[0; TURNS.len()]; 2],
            others: [0; OTHERS.len()],
            storing: operations().map(|operation| operation.and_then(stores_as)),
        }
    }

    /// Counts a call by the second emulator's outcome.
    pub fn add(&mut self, call: &Call, outcome: &Outcome) {
        let number = boundary::number(outcome.answer);
        if let Some(image) = call.image() {
            self.add_image(call.kind(), image, number);
        }
        match call {
            Call::Decode { image, address, bank, .. } if number == 0 => {
                self.add_decode(image, *address as u16, *bank as u8);
            }
            Call::Decode { .. } => self.count(Other::Beyond, number == 8),
            Call::Read { image, state, .. } if number == 0 => {
                let bank = state[BANK as usize];
                let address = boundary::rom_address(outcome.answer);
                let shown = boundary::origin(outcome.answer) == 3 && address < FIXED;
                self.add_use(READ, image, bank, shown);
                self.count(Other::ReadOf2K, image.len() == HALF && bank != 0);
            }
            Call::Reset { state } if number == 0 && state[BANK as usize] != 0 => {
                let machine = boundary::unpack(state).expect("it was reset");
                let good = machine.well_formed().is_ok();
                self.count(if good { Other::Reset } else { Other::IllFormedReset }, true);
            }
            Call::Store { address, .. } if number == 0 => {
                self.count(Other::HostStore, *address == BANK as u32);
            }
            _ => {}
        }
    }

    fn count(&mut self, what: Other, met: bool) {
        self.others[what as usize] += met as u64;
    }

    fn add_image(&mut self, kind: usize, image: &[u8], number: u8) {
        let halves = image.len() / HALF;
        let long = image.len() > 2 * HALF;
        match number {
            1 if long && !self.refused[kind].contains(&image.len()) => {
                self.refused[kind].push(image.len());
            }
            0 | 4..=7 if kind != CHECK => self.done[kind][halves] += 1,
            0 => self.done[kind][halves] += 1,
            23 if long && Rom::new(image).is_ok() => self.done[kind][halves] += 1,
            _ => {}
        }
    }

    fn add_decode(&mut self, image: &[u8], address: u16, bank: u8) {
        let rom = Rom::new(image).expect("decoded").with_bank(bank);
        let opcode = rom.byte(address).expect("decoded");
        self.add_use(0, image, bank, address < FIXED);
        self.add_seam(0, &rom, bank, address, opcode);
        self.count(Other::DecodeOf2K, image.len() == HALF && bank != 0);
    }

    /// A page in place that was used, or wasn't.
    fn add_use(&mut self, how: usize, image: &[u8], bank: u8, used: bool) {
        let pages = image.len() / HALF - 1;
        if pages > 0 && used {
            self.uses[how][pages][bank as usize % pages] += 1;
            self.bytes[how][bank as usize] |= pages > 1;
        }
    }

    fn add_seam(&mut self, how: usize, rom: &Rom, bank: u8, address: u16, opcode: u8) {
        let pages = rom.pages();
        let end = address + SIZES[opcode as usize].length as u16;
        if pages > 1 && !(bank as usize).is_multiple_of(pages) {
            self.seams[how][0] += (address < FIXED && end > FIXED) as u64;
            self.seams[how][1] += (end > SPACE) as u64;
        }
    }

    /// Counts an executed step of an image.
    pub fn add_step(&mut self, rom: &Rom, image: &[u8], before: &BeforeStep, after: &AfterStep) {
        let bank = before.machine.data[BANK as usize];
        let (pages, pc) = (rom.pages(), before.machine.pc);
        self.count(Other::StepOf2K, pages == 0 && bank != 0);
        if pages == 0 || after.cycles < 2 {
            return;
        }
        let how = if after.in_run { IN_RUN } else { SINGLE };
        let opcode = before.opcode.expect("executed");
        self.add_use(how, image, bank, pc < FIXED);
        self.add_use(WINDOW, image, bank, after.shown && after.rom_address < FIXED);
        self.add_seam(how, rom, bank, pc, opcode);
        if after.bank as usize % pages != bank as usize % pages {
            let stored = self.storing[opcode as usize].expect("it stores");
            self.changes[after.in_run as usize][stored] += 1;
            self.count(Other::NextInPage, after.in_run && after.pc < FIXED);
        }
    }

    pub fn print(&self) {
        println!("calls done by halves 1 to 10 (widths refused from 3 on)");
        for kind in with_image() {
            println!("  {:7} {:?}", KINDS[kind], &self.done[kind][1..]);
        }
        println!("pages used, by pages 1 to 9 and what the bank byte is modulo them");
        for (name, pages) in USES.iter().zip(&self.uses) {
            println!("  {name:16} {}", residues(pages));
        }
        let [by_decodes, single, in_runs] = self.seams;
        println!(
            "across {SEAMS:?} with other pages than the first: by decodes {by_decodes:?}, \
             by single steps {single:?}, in runs {in_runs:?}"
        );
        for (way, changes) in ["single steps", "runs"].iter().zip(&self.changes) {
            println!("pages changed in {way}: {}", named(&TURNS, changes));
        }
        println!("bank bytes: {}", named(&OTHERS, &self.others));
        let lengths =
            with_image().map(|kind| format!("{} {}", KINDS[kind], self.refused[kind].len()));
        println!("bad lengths above 4,096: {}", lengths.collect::<Vec<String>>().join(", "));
    }

    pub fn print_not_met(&self) {
        let mut missing = not_met("", &OTHERS, &self.others);
        for kind in with_image() {
            let halves = (1..=MOST_HALVES).filter(|&halves| self.done[kind][halves] == 0);
            missing.extend(halves.map(|halves| format!("{} of {halves} halves", KINDS[kind])));
            if self.refused[kind].len() < 3 && KINDS[kind] != "width" {
                missing.push(format!("{} of bad lengths", KINDS[kind]));
            }
        }
        for (name, (pages, bytes)) in USES.iter().zip(self.uses.iter().zip(&self.bytes)) {
            let unused = (1..MOST_HALVES).filter(|&n| pages[n][..n].contains(&0));
            missing.extend(unused.map(|n| format!("{name}: all of {n} pages")));
            if bytes.contains(&false) {
                missing.push(format!("{name}: all bank bytes"));
            }
        }
        for (way, counts) in USES.iter().zip(&self.seams) {
            missing.extend(not_met(way, &SEAMS, counts));
        }
        for (way, counts) in
            ["changed in single steps by", "changed in runs by"].iter().zip(&self.changes)
        {
            missing.extend(not_met(way, &TURNS, counts));
        }
        if !missing.is_empty() {
            println!("NOT MET: pages: {}", missing.join(", "));
        }
    }
}

const CHECK: usize = 6;

/// The places of the calls with an image.
fn with_image() -> impl Iterator<Item = usize> {
    (0..KINDS.len()).filter(|&kind| WITH_IMAGE.contains(&KINDS[kind]))
}

/// The place of a form with its operand among those that store.
pub fn stores_as([form, kind]: Operation) -> Option<usize> {
    let name = format!("{}{}", FORM_NAMES[form as usize], OPERANDS[kind as usize]);
    TURNS.iter().position(|storing| **storing == name)
}

fn residues(by_pages: &ByResidue) -> String {
    (1..MOST_HALVES).map(|pages| format!("{:?} ", &by_pages[pages][..pages])).collect()
}
