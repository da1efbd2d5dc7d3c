//! Services, from the taking of a request to the RETI that ends them (W-214):
//! lists of calls as in demand 3, with every machine of the library followed.

use crate::harness::Harness;
use crate::programs::demand3;
use crate::service_counts::{Met, Place, ServiceCounts};
use second::boundary::{self, pack, unpack, REPORT, STATE};
use second::chip::{Machine, Rom, BANK, HALF, IOR, MOST_HALVES, MOST_STEPS, NO_SOURCE};
use second::generate::{
    ill_formed, machine, paged_program, program, requests, serviced, Program, Rng,
};
use second::play::{report, Call, Outcome};
use second::services::{executed, Event, Follower, Trace, STOP, WAIT};
use std::borrow::Cow::{self, Borrowed, Owned};
use std::process::exit;

/// The lists that are played with each program, and the most calls of one.
const LISTS: usize = 4;
const MOST_CALLS: usize = 50;
/// The most steps of most runs, and of some.
const MOST_SHORT: usize = 200;
const MOST_LONG: usize = 4_000;
/// The low digit of every CALL.
const CALL: u8 = 0x01;

/// Programs of every size in turn, until so many machines were looked at.
pub fn services(h: &mut Harness, moments: u64) {
    let wanted = h.counts.services.moments + moments;
    for halves in (1..=MOST_HALVES).cycle() {
        if h.counts.services.moments >= wanted {
            return;
        }
        let program = any_program(&mut h.rng, HALF * halves);
        let checked = h.compare(Call::Check {
            image: Borrowed(&program.image),
            certificate: Borrowed(&program.certificate),
            wired: program.wired as u32,
        });
        if boundary::number(checked.answer) == 0 && program.wired != 0 {
            (0..LISTS).for_each(|_| list(h, &program, boundary::value(checked.answer)));
        }
    }
}

fn any_program(rng: &mut Rng, length: usize) -> Program {
    match rng.below(4) {
        0 if length > HALF => paged_program(rng, length),
        0 => program(rng),
        _ => serviced(rng, length),
    }
}

/// A list of calls, from what reset makes of any machine.
fn list(h: &mut Harness, program: &Program, levels: u32) {
    let start = if h.rng.chance(80) { machine(&mut h.rng) } else { ill_formed(&mut h.rng) };
    let reset = h.compare(Call::Reset { state: Owned(start) });
    let Ok(machine) = unpack(reset.state.bytes()) else { return };
    let rom = Rom::new(&program.image).expect("a good image");
    let follower = Follower::default();
    let mut session = Session { program, rom, levels, machine, follower, runs: 0 };
    for _ in 0..10 + h.rng.below(MOST_CALLS - 9) {
        session.any_call(h);
    }
    h.counts.services.end_of_list();
}

/// A list of calls with an accepted program.
struct Session<'a> {
    program: &'a Program,
    rom: Rom<'a>,
    /// What the check answered.
    levels: u32,
    /// The library's.
    machine: Machine,
    follower: Follower,
    /// How many runs there were.
    runs: u64,
}

impl<'a> Session<'a> {
    fn any_call(&mut self, h: &mut Harness) {
        match h.rng.below(40) {
            0 => self.reset(h),
            1..=6 => {
                let (address, value) = stored(&mut h.rng);
                self.store(h, address, value);
            }
            7..=22 => {
                let asked = if h.rng.chance(50) { self.program.wired } else { 0 };
                let refused = if h.rng.chance(5) { NO_SOURCE } else { 0 };
                let request = h.rng.byte() & (asked | refused);
                self.step(h, request, None);
            }
            _ => {
                let (list, n) = run_of(&mut h.rng, self.program.wired);
                self.run(h, list, n);
            }
        }
    }

    fn reset(&mut self, h: &mut Harness) {
        self.call(h, Call::Reset { state: self.state() });
        h.counts.services.reset();
    }

    fn store(&mut self, h: &mut Harness, address: u32, value: u32) {
        let (outcome, _) = self.call(h, Call::Store { state: self.state(), address, value });
        let done = boundary::number(outcome.answer) == 0;
        h.counts.services.meet(if done { Met::Store } else { Met::RefusedStore });
    }

    /// One step, alone or in a run; gives its cycles.
    fn step(&mut self, h: &mut Harness, request: u8, run: Option<u64>) -> u32 {
        let opcode = executed(self.rom, &self.machine, request);
        let page = self.page();
        let (image, state) = (Borrowed(&self.program.image[..]), self.state());
        let (outcome, event) = self.call(h, Call::Step { image, state, request: request as u32 });
        let counts = &mut h.counts.services;
        if boundary::number(outcome.answer) != 0 {
            counts.meet(Met::RefusedStep);
            return 0;
        }
        self.count_event(counts, event, run);
        self.count_executed(counts, opcode, page);
        let cycles = boundary::cycles(outcome.answer);
        match (request.count_ones(), cycles) {
            (0, _) => {}
            (several, 1) => counts.meet_last(Met::Several, several > 1),
            _ => counts.meet(Met::NotTaken),
        }
        cycles
    }

    fn count_event(&self, counts: &mut ServiceCounts, event: Event, run: Option<u64>) {
        let halves = self.program.image.len() / HALF;
        let place = Place { halves, page: self.page(), run };
        match (event, self.follower.open().last()) {
            (Event::Taken, Some(taking)) => {
                counts.begin(taking, place);
                let woken = |opcode: u8| taking.sleep.is_some_and(|sleep| sleep.opcode == opcode);
                counts.meet_last(Met::Stop, woken(STOP));
                counts.meet_last(Met::Wait, woken(WAIT));
            }
            (Event::Ended(taking), _) => counts.end(&taking, place),
            _ => {}
        }
    }

    /// Counts what a step executed, if anything, with a page in place.
    fn count_executed(&self, counts: &mut ServiceCounts, opcode: Option<u8>, page: usize) {
        let Some(opcode) = opcode else { return };
        if opcode & 0x0F == CALL {
            counts.meet(Met::Call);
        }
        if self.machine.asleep {
            counts.meet(Met::Sleep);
        }
        if self.page() != page {
            counts.meet(Met::Turned);
        }
    }

    /// A run: its single steps first, so that each is followed, and then the
    /// same as one call, which must be their sum.
    fn run(&mut self, h: &mut Harness, list: Vec<u8>, n: u32) {
        let (image, state) = (Borrowed(&self.program.image[..]), self.state());
        let requests = Owned(list.clone());
        let call = Call::Run { image, state, requests, n, report: REPORT };
        if n > MOST_STEPS || list.iter().take(n as usize).any(|byte| byte & NO_SOURCE != 0) {
            return self.refused_run(h, call);
        }
        self.runs += 1;
        let mut cycles = 0;
        for index in 0..n as usize {
            let request = list.get(index).copied().unwrap_or(0);
            cycles += self.step(h, request, Some(self.runs));
        }
        let outcome = h.compare(call.clone());
        let (whole, steps) = (outcome.state.bytes(), self.state());
        let used = 268 + 2 * self.machine.levels as usize;
        if report(&outcome) != (n, cycles) || whole[..used] != steps[..used] {
            println!("DIFFERENCE between a run and its steps one by one\n{call}");
            exit(1);
        }
        demand3(h, call.kind(), &outcome, self.levels);
    }

    fn refused_run(&mut self, h: &mut Harness, call: Call) {
        let (outcome, _) = self.call(h, call);
        let many = boundary::number(outcome.answer) == 12;
        h.counts.services.meet(if many { Met::ManySteps } else { Met::RefusedRun });
    }

    /// The page in place; 0 if there is none.
    fn page(&self) -> usize {
        self.machine.data[BANK as usize] as usize % self.program.pages()
    }

    fn state(&self) -> Cow<'a, [u8]> {
        let mut state = vec![0; STATE];
        pack(&self.machine, &mut state);
        Owned(state)
    }

    /// Makes a call on both sides. What the library made of the machine is
    /// looked at before it is compared.
    fn call(&mut self, h: &mut Harness, call: Call) -> (Outcome, Event) {
        let kind = call.kind();
        let mut event = Event::Neither;
        let outcome = h.compare_seen(call, |call, library| match self.follow(call, library) {
            Ok(followed) => event = followed,
            Err(traces) => self.report(call, &traces),
        });
        demand3(h, kind, &outcome, self.levels);
        h.counts.add_demand3(&self.program.image);
        h.counts.services.moments += 1;
        (outcome, event)
    }

    /// Follows a call to the library's machine after it, if that is one.
    fn follow(&mut self, call: &Call, library: &Outcome) -> Result<Event, Vec<Trace>> {
        let done = boundary::number(library.answer) == 0;
        let Ok(after) = unpack(library.state.bytes()) else { return Ok(Event::Neither) };
        let before = std::mem::replace(&mut self.machine, after);
        match call {
            Call::Step { request, .. } if done => {
                return self.follower.step(self.rom, &before, *request as u8, &self.machine);
            }
            Call::Reset { .. } => self.follower.reset(),
            _ => {}
        }
        self.follower.look(&self.machine).map(|()| Event::Neither)
    }

    fn report(&self, call: &Call, traces: &[Trace]) -> ! {
        println!("DIFFERENCE: a service left a trace, {traces:?}\n{call}");
        println!("  still open: {:X?}", self.follower.open());
        println!("  the library's machine: {:X?}", self.machine);
        exit(1)
    }
}

/// A host's store: anywhere, often to 0C8h, which then mostly enables the
/// sources, and to 0CAh; some are refused.
fn stored(rng: &mut Rng) -> (u32, u32) {
    let value = rng.byte() as u32;
    match rng.below(10) {
        0 | 1 => (IOR as u32, if rng.chance(70) { value | 0x10 } else { value }),
        2..=4 => (BANK as u32, value),
        5 => (0x40 + rng.below(0x40) as u32, value),
        _ => (rng.byte() as u32, value),
    }
}

/// The requests and the steps of a run: most often a short one with wired
/// sources only, now and then one that is refused.
fn run_of(rng: &mut Rng, wired: u8) -> (Vec<u8>, u32) {
    let most = if rng.chance(2) { MOST_LONG } else { MOST_SHORT };
    let n = rng.any_size(most);
    let shorter = rng.below(n + 1);
    let length = rng.pick(&[0, shorter, n, n, n + 10]);
    let mut list = requests(rng, length, wired);
    if length > n {
        rng.fill(&mut list[n..]); // past n anything goes
    }
    let within = length.min(n);
    match rng.below(20) {
        0 => (list, MOST_STEPS + 1 + rng.any_size(1000) as u32),
        1 if within > 0 => {
            list[rng.below(within)] |= 0x20 << rng.below(3);
            (list, n as u32)
        }
        _ => (list, n as u32),
    }
}
