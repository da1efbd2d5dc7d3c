//! Follows services (document 02, W-214): from the moment a request is taken
//! until the RETI that ends its service the levels beneath stay what they were,
//! and afterwards the machine is where it was interrupted, as it was then. The
//! machines may be of anyone's making; what was interrupted is kept here, in a
//! stack of takings.

use crate::chip::{Flags, Machine, Mode, Rom, Space, BANK, SPACE};

const RETI: u8 = 0x4D;
pub const STOP: u8 = 0x6D;
pub const WAIT: u8 = 0xED;

/// What a taking interrupted.
#[derive(Clone, PartialEq, Eq, Debug)]
pub struct Taking {
    /// 0 for NMI, or 1 to 4.
    pub source: usize,
    /// Where the machine was, in which mode, and that mode's flags.
    pub address: u16,
    pub mode: Mode,
    pub flags: Flags,
    /// The return addresses that were in use: the levels beneath.
    pub returns: Vec<u16>,
    /// If it slept.
    pub sleep: Option<Sleep>,
    /// The mode that the taking set. The first RETI in it ends the service.
    pub set: Mode,
}

/// A sleep: STOP or WAIT, and the address after it.
#[derive(Clone, Copy, PartialEq, Eq, Debug)]
pub struct Sleep {
    pub opcode: u8,
    pub next: u16,
}

/// What a step was to the services.
#[derive(Clone, PartialEq, Eq, Debug)]
pub enum Event {
    /// A request was taken: the last of those that are open.
    Taken,
    /// A RETI ended the service of the last taking that was open.
    Ended(Taking),
    Neither,
}

/// What isn't as W-214 says.
#[derive(Clone, Copy, PartialEq, Eq, Debug)]
pub enum Trace {
    /// Within a service: no more levels than before the taking.
    Levels,
    /// A return address beneath is another one.
    Beneath,
    /// The address that the taking pushed is.
    Pushed,
    /// The mode isn't the one that the last taking set.
    Set,
    /// After a service: another address, mode, flag pair or return addresses
    /// than those interrupted, or still asleep.
    Address,
    Mode,
    Flags,
    Returns,
    Asleep,
    /// A sleeper doesn't go on after its STOP or WAIT.
    Sleeper,
    /// The levels are again those before a taking, and no RETI ends its
    /// service; or one does, and they aren't.
    End,
}

impl Taking {
    fn new(before: &Machine, source: usize, sleep: Option<Sleep>) -> Self {
        Taking {
            source,
            address: before.pc,
            mode: before.mode,
            flags: before.flags[before.mode.pair()],
            returns: before.in_use().unwrap_or(&before.stack).to_vec(),
            sleep: sleep.filter(|_| before.asleep),
            set: before.mode.taking(source),
        }
    }

    /// What isn't right in a machine within the service.
    fn within(&self, machine: &Machine) -> impl Iterator<Item = Trace> {
        let levels = self.returns.len();
        missing([
            (machine.levels as usize > levels, Trace::Levels),
            (machine.stack[..levels] == self.returns, Trace::Beneath),
            (machine.stack.get(levels) == Some(&self.address), Trace::Pushed),
        ])
    }

    /// What isn't right in the machine after the service.
    fn after(&self, machine: &Machine) -> impl Iterator<Item = Trace> {
        missing([
            (machine.pc == self.address, Trace::Address),
            (machine.mode == self.mode, Trace::Mode),
            (machine.flags[self.mode.pair()] == self.flags, Trace::Flags),
            (machine.in_use() == Some(&self.returns[..]), Trace::Returns),
            (!machine.asleep, Trace::Asleep),
            (self.sleep.is_none_or(|sleep| machine.pc == sleep.next), Trace::Sleeper),
        ])
    }
}

fn missing<const N: usize>(looked_at: [(bool, Trace); N]) -> impl Iterator<Item = Trace> {
    looked_at.into_iter().filter(|(good, _)| !good).map(|(_, trace)| trace)
}

/// The opcode that a step of a machine executes; none if it takes a request or
/// is idle.
pub fn executed(rom: Rom, machine: &Machine, request: u8) -> Option<u8> {
    if machine.asleep || machine.taken(request).is_some() {
        return None;
    }
    rom.with_bank(machine.data[BANK as usize]).byte(machine.pc)
}

#[derive(Clone, Default)]
pub struct Follower {
    /// The takings whose services haven't ended, the oldest first.
    open: Vec<Taking>,
    /// The levels before those takings that the levels haven't ended: these
    /// ends are told by the levels alone, and the others by RETI.
    levels: Vec<u8>,
    /// The last sleep.
    sleep: Option<Sleep>,
}

impl Follower {
    pub fn open(&self) -> &[Taking] {
        &self.open
    }

    /// A reset ends nothing, and leaves nothing to end.
    pub fn reset(&mut self) {
        *self = Follower::default();
    }

    /// Follows a step that was done, from a machine to the one after it.
    pub fn step(
        &mut self,
        rom: Rom,
        before: &Machine,
        request: u8,
        after: &Machine,
    ) -> Result<Event, Vec<Trace>> {
        let event = self.event(rom, before, request);
        let mut traces = self.traces(after);
        let mut ends = 0;
        if let Event::Ended(taking) = &event {
            traces.extend(taking.after(after));
            ends = 1;
        }
        if self.ends_by_levels(after) != ends {
            traces.push(Trace::End);
        }
        none_of(traces).map(|()| event)
    }

    /// Looks at a machine after any other call, or after one that was refused.
    pub fn look(&self, machine: &Machine) -> Result<(), Vec<Trace>> {
        none_of(self.traces(machine))
    }

    /// What a step is, by the machine before it.
    fn event(&mut self, rom: Rom, before: &Machine, request: u8) -> Event {
        if let Some(source) = before.taken(request) {
            self.open.push(Taking::new(before, source, self.sleep));
            self.levels.push(before.levels);
            return Event::Taken;
        }
        let opcode = executed(rom, before, request);
        if let Some(opcode @ (STOP | WAIT)) = opcode {
            self.sleep = Some(Sleep { opcode, next: (before.pc + 1) % SPACE });
        }
        let returns = opcode == Some(RETI);
        match self.open.pop_if(|last| returns && last.set == before.mode) {
            Some(taking) => Event::Ended(taking),
            None => Event::Neither,
        }
    }

    /// What isn't right in a machine within the open services.
    fn traces(&self, machine: &Machine) -> Vec<Trace> {
        let mut traces: Vec<Trace> =
            self.open.iter().flat_map(|taking| taking.within(machine)).collect();
        if self.open.last().is_some_and(|last| machine.mode != last.set) {
            traces.push(Trace::Set);
        }
        traces
    }

    /// How many services a machine's levels end: they are again what they were
    /// before the taking, for the first time.
    fn ends_by_levels(&mut self, machine: &Machine) -> usize {
        let open = self.levels.len();
        while self.levels.pop_if(|before| machine.levels <= *before).is_some() {}
        open - self.levels.len()
    }
}

fn none_of(traces: Vec<Trace>) -> Result<(), Vec<Trace>> {
    if traces.is_empty() {
        Ok(())
    } else {
        Err(traces)
    }
}
