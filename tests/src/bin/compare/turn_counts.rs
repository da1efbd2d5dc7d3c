//! Counts what was met in runs that change the page, and of instructions that
//! share the places where the library keeps them decoded.

use crate::bank_counts::stores_as;
use crate::opcode_map::operations;
use crate::play_counts::not_met;
use crate::turns::LENGTHS;
use second::boundary;
use second::chip::{Machine, Mode, Rom, Space, BANK, FIXED, MOST_HALVES, SIZES, SPACE};
use second::generate::{kept_at, Visit, FEW_PLACES, PLACES, TURNS};

/// From so many steps on a run keeps more.
const LONG: u32 = 128;
const MODES: [&str; 3] = ["normal", "interrupt", "NMI"];
/// What a run met, by halves.
#[derive(Clone, Copy)]
enum Met {
    Turned,
    Back,
    TurnedInService,
    Taken,
    Returned,
    OtherByte,
    OtherPage,
    Shared,
    SharedFew,
    OverEnd,
}
const MET: [&str; 10] = [
    "page changed",
    "page that was left before",
    "page changed in a service",
    "request taken",
    "RETI",
    "other bank byte, same page and address",
    "other page, same address",
    "place shared in turn",
    "place shared in turn, short run",
    "other page, operand over the end",
];
/// From how many halves on each can be: in long runs each address of one page
/// has a place of its own.
const FROM: [usize; MET.len()] = [3, 3, 3, 1, 1, 1, 3, 3, 1, 3];

pub struct TurnCounts {
    met: [[u64; MOST_HALVES + 1]; MET.len()],
    /// Changes of the page by form and mode.
    forms: [[u64; MODES.len()]; TURNS.len()],
    /// Runs that were also cut and made as single steps, by steps.
    cut: [u64; LENGTHS + 1],
    /// Those of programs whose visits share something.
    pub widths: u64,
    /// Addresses that were the first of a short and of a long run, with bank
    /// byte 0.
    first: [Vec<bool>; 2],
    storing: [Option<usize>; 256],
}

/// What a run has executed: at each address with which bank byte last, and at
/// each place the last two, by page and address.
struct Kept {
    banks: Vec<Option<u8>>,
    places: Vec<[Option<(usize, u16)>; 2]>,
    left: [bool; MOST_HALVES],
}

impl TurnCounts {
    pub fn new() -> Self {
        TurnCounts {
            met: [[0; MOST_HALVES + 1]; MET.len()],
            forms: [[0; MODES.len()]; TURNS.len()],
            cut: [0; LENGTHS + 1],
            widths: 0,
            first: [(); 2].map(|()| vec![false; SPACE as usize]),
            storing: operations().map(|operation| operation.and_then(stores_as)),
        }
    }

    /// Counts a run that was compared, step by step.
    pub fn add(&mut self, image: &[u8], state: &[u8], requests: &[u8], n: u32) {
        let rom = Rom::new(image).expect("a good image");
        let mut machine = boundary::unpack(state).expect("a good machine");
        let places = if n < LONG { FEW_PLACES } else { PLACES };
        let mut kept = Kept {
            banks: vec![None; PLACES],
            places: vec![[None; 2]; places],
            left: [false; MOST_HALVES],
        };
        for step in 0..n as usize {
            let before = machine.clone();
            let request = requests.get(step).copied().unwrap_or(0);
            match machine.step(image, request) {
                Ok(0) => {}
                Ok(1) => self.count(Met::Taken, rom, true),
                Ok(_) => self.add_step(rom, &mut kept, &before, &machine),
                Err(_) => return,
            }
        }
    }

    fn count(&mut self, what: Met, rom: Rom, met: bool) {
        let halves = rom.pages() + 1;
        self.met[what as usize][halves] += met as u64;
    }

    fn add_step(&mut self, rom: Rom, kept: &mut Kept, before: &Machine, after: &Machine) {
        let (bank, now) = (before.data[BANK as usize], after.data[BANK as usize]);
        let page = |bank: u8| bank as usize % rom.pages().max(1);
        let opcode = rom.with_bank(bank).byte(before.pc).expect("executed") as usize;
        let over_end = before.pc + SIZES[opcode].length as u16 > SPACE;
        self.add_kept(rom, kept, (bank, before.pc), over_end);
        self.count(Met::Returned, rom, before.mode != after.mode);
        if page(now) == page(bank) {
            return;
        }
        kept.left[page(bank)] = true;
        let mode = match before.mode {
            Mode::Normal => 0,
            Mode::Interrupt => 1,
            Mode::Reset | Mode::NmiOverNormal | Mode::NmiOverInterrupt => 2,
        };
        self.forms[self.storing[opcode].expect("it stores")][mode] += 1;
        self.count(Met::Turned, rom, true);
        self.count(Met::TurnedInService, rom, mode > 0);
        self.count(Met::Back, rom, kept.left[page(now)]);
    }

    /// Counts what was executed at the same address and in the same place
    /// before.
    fn add_kept(&mut self, rom: Rom, kept: &mut Kept, visit: Visit, over_end: bool) {
        let (bank, address) = visit;
        let pages = rom.pages().max(1);
        let last = kept.banks[address as usize].replace(bank).unwrap_or(bank);
        let page = bank as usize % pages;
        let same_page = last as usize % pages == page;
        self.count(Met::OtherByte, rom, same_page && last != bank);
        self.count(Met::OtherPage, rom, !same_page && address < FIXED);
        self.count(Met::OverEnd, rom, !same_page && over_end);
        let places = kept.places.len();
        let shared = if places == FEW_PLACES { Met::SharedFew } else { Met::Shared };
        let place = &mut kept.places[kept_at(visit, pages, places)];
        let now = Some((page, address));
        if place[0] != now {
            let in_turn = place[1] == now;
            *place = [now, place[0]];
            self.count(shared, rom, in_turn);
        }
    }

    /// Counts where a run of so many steps began.
    pub fn add_first(&mut self, (bank, address): Visit, n: usize) {
        let long = n as u32 >= LONG;
        self.first[long as usize][address as usize] |= bank == 0;
    }

    /// Counts a run that was also cut in two and made as single steps.
    pub fn add_cut(&mut self, n: usize) {
        self.cut[n] += 1;
    }

    pub fn print(&self) {
        println!("in runs that change the page, by halves 1 to {MOST_HALVES}");
        for (name, counts) in MET.iter().zip(&self.met) {
            println!("  {name:40} {:?}", &counts[1..]);
        }
        println!("pages changed in modes {MODES:?}");
        let each = TURNS.iter().zip(&self.forms).map(|(form, modes)| format!("{form} {modes:?}"));
        println!("  {}", each.collect::<Vec<String>>().join(", "));
        let least = self.cut[1..].iter().min().expect("some");
        println!("runs of 1 to {LENGTHS} steps, whole, cut and step by step: {least} or more each");
        println!("widths of programs whose visits share something: {}", self.widths);
    }

    pub fn print_not_met(&self) {
        let mut missing = Vec::new();
        for ((name, from), counts) in MET.iter().zip(FROM).zip(&self.met) {
            let halves = (from..=MOST_HALVES).filter(|&halves| counts[halves] == 0);
            missing.extend(halves.map(|halves| format!("{name} of {halves} halves")));
        }
        for (form, counts) in TURNS.iter().zip(&self.forms) {
            missing.extend(not_met(&format!("changed by {form} in mode"), &MODES, counts));
        }
        let lengths: Vec<usize> = (1..=LENGTHS).filter(|&n| self.cut[n] == 0).collect();
        if !lengths.is_empty() {
            missing.push(format!("runs of {lengths:?} steps"));
        }
        let all_first = self.first.iter().all(|first| first.iter().all(|&met| met));
        let others = [self.widths, all_first as u64];
        missing.extend(not_met("", &["widths", "every address as the first of a run"], &others));
        if !missing.is_empty() {
            println!("NOT MET: turns: {}", missing.join(", "));
        }
    }
}
