//! Steps and runs: requests, sleep, and counting.

use super::rom::Paged;
use super::{Machine, Mode, Origin, Rom, Space, BANK, IOR, NO_SOURCE, VECTORS};
use crate::Refusal;

pub const MOST_STEPS: u32 = 65_535;

/// What a run did: the completed steps, their cycles, and a stop if any.
#[derive(Clone, Copy, PartialEq, Eq, Debug)]
pub struct Report {
    pub steps: u32,
    pub cycles: u32,
    pub stop: Option<Refusal>,
}

/// What a step did: its cycles, and the origin of the data operand that it
/// read, if it read one.
#[derive(Clone, Copy, PartialEq, Eq, Debug)]
pub struct Traced {
    pub cycles: u32,
    pub origin: Option<Origin>,
}

impl Machine {
    /// One step with a request byte; gives its cycles.
    pub fn step(&mut self, image: &[u8], request: u8) -> Result<u32, Refusal> {
        self.traced_step(image, request).map(|traced| traced.cycles)
    }

    /// The same, and tells the origin of what it read.
    pub fn traced_step(&mut self, image: &[u8], request: u8) -> Result<Traced, Refusal> {
        match Rom::new(image)? {
            Rom::Flat(flat) => self.step_in(flat, request),
            Rom::Paged(paged) => self.step_paged(paged, request),
        }
    }

    /// Apart, so that it doesn't slow the others down.
    #[inline(never)]
    fn step_paged(&mut self, paged: Paged, request: u8) -> Result<Traced, Refusal> {
        self.step_in(paged, request)
    }

    #[inline(always)]
    fn step_in(&mut self, mut rom: impl Space, request: u8) -> Result<Traced, Refusal> {
        self.well_formed()?;
        if request & NO_SOURCE != 0 {
            return Err(Refusal::Request);
        }
        self.advance(&mut rom, request)
    }

    /// `n` steps, with the list's bytes as requests and none past its end.
    pub fn run(&mut self, image: &[u8], requests: &[u8], n: u32) -> Result<Report, Refusal> {
        match Rom::new(image)? {
            Rom::Flat(flat) => self.run_in(flat, requests, n),
            Rom::Paged(paged) => self.run_in(paged, requests, n),
        }
    }

    fn run_in(&mut self, mut rom: impl Space, requests: &[u8], n: u32) -> Result<Report, Refusal> {
        self.well_formed()?;
        if n > MOST_STEPS {
            return Err(Refusal::TooManySteps);
        }
        let requests = &requests[..requests.len().min(n as usize)];
        if requests.iter().any(|request| request & NO_SOURCE != 0) {
            return Err(Refusal::Request);
        }
        let mut report = Report { steps: 0, cycles: 0, stop: None };
        for &request in requests {
            match self.advance(&mut rom, request) {
                Ok(traced) => report.cycles += traced.cycles,
                Err(stop) => {
                    report.stop = Some(stop);
                    return Ok(report);
                }
            }
            report.steps += 1;
        }
        while report.steps < n {
            match self.advance(&mut rom, 0) {
                Ok(traced) => report.cycles += traced.cycles,
                Err(stop) => {
                    report.stop = Some(stop);
                    return Ok(report);
                }
            }
            report.steps += 1;
        }
        Ok(report)
    }

    /// Steps without requests until the machine sleeps, but no more than
    /// `most`; gives how many it took, or nothing if it is still awake.
    pub fn run_to_sleep(&mut self, image: &[u8], most: u32) -> Result<Option<u32>, Refusal> {
        match Rom::new(image)? {
            Rom::Flat(flat) => self.run_to_sleep_in(flat, most),
            Rom::Paged(paged) => self.run_to_sleep_in(paged, most),
        }
    }

    fn run_to_sleep_in(&mut self, mut rom: impl Space, most: u32) -> Result<Option<u32>, Refusal> {
        self.well_formed()?;
        for steps in 1..=most {
            self.advance(&mut rom, 0)?;
            if self.asleep {
                return Ok(Some(steps));
            }
        }
        Ok(None)
    }

    /// A step of a well-formed machine with a good request byte. A stop
    /// leaves the machine as it was. The page is the one that the bank byte
    /// picks now, for all that the step fetches and reads.
    #[inline(always)]
    fn advance(&mut self, rom: &mut impl Space, request: u8) -> Result<Traced, Refusal> {
        if request != 0 {
            if let Some(source) = self.taken(request) {
                return self.interrupt(source);
            }
        }
        if self.asleep {
            return Ok(Traced { cycles: 0, origin: None });
        }
        rom.turn_to(self.data[BANK as usize]);
        self.execute(rom)
    }

    /// The source that is taken now: 0 for NMI, or 1 to 4.
    pub(crate) fn taken(&self, request: u8) -> Option<usize> {
        let open = match self.mode {
            // The stored bit counts, though 0C8h reads 0.
            Mode::Normal if self.data[IOR as usize] & 0x10 != 0 => 0x1F,
            Mode::Normal | Mode::Interrupt => 0x01,
            Mode::Reset | Mode::NmiOverNormal | Mode::NmiOverInterrupt => 0,
        };
        match request & open {
            0 => None,
            sources => Some(sources.trailing_zeros() as usize),
        }
    }

    fn interrupt(&mut self, source: usize) -> Result<Traced, Refusal> {
        self.push(self.pc).ok_or(Refusal::StackFull(self.pc))?;
        self.mode = self.mode.taking(source);
        self.pc = VECTORS[source];
        self.asleep = false;
        Ok(Traced { cycles: 1, origin: None })
    }
}
