//! Services from the taking of a request to the RETI that ends them (document
//! 02, W-214), and what is said of machines that aren't as it says.

use super::*;
use crate::check::check;
use crate::chip::{Rom, BANK, HALF, IOR, MOST_HALVES};
use crate::generate::{serviced, Rng};
use crate::maker::make;
use crate::services::{Event, Follower, Sleep, Taking, Trace};
use std::slice::from_ref;

/// A machine that is followed.
#[derive(Clone)]
struct Bench<'a> {
    image: &'a [u8],
    machine: Machine,
    follower: Follower,
}

impl<'a> Bench<'a> {
    /// A fresh machine.
    fn new(image: &'a [u8]) -> Self {
        Bench { image, machine: Machine::default(), follower: Follower::default() }
    }

    /// A fresh machine after some steps without requests.
    fn after(image: &'a [u8], steps: usize) -> Self {
        let mut bench = Bench::new(image);
        bench.steps(steps);
        bench
    }

    /// A step that leaves no trace.
    fn step(&mut self, request: u8) -> Event {
        let before = self.machine.clone();
        self.machine.step(self.image, request).unwrap();
        let rom = Rom::new(self.image).unwrap();
        self.follower.step(rom, &before, request, &self.machine).unwrap()
    }

    /// Steps without requests that end no service.
    fn steps(&mut self, steps: usize) {
        (0..steps).for_each(|_| assert_eq!(self.step(0), Event::Neither));
    }

    /// What is said of the machine after a step, changed by hand.
    fn traces(&self, request: u8, change: impl Fn(&mut Machine)) -> Vec<Trace> {
        let (mut follower, mut after) = (self.follower.clone(), self.machine.clone());
        after.step(self.image, request).unwrap();
        change(&mut after);
        let rom = Rom::new(self.image).unwrap();
        follower.step(rom, &self.machine, request, &after).unwrap_err()
    }

    /// What is said of the machine as it stands, changed by hand.
    fn looked_at(&self, change: impl Fn(&mut Machine)) -> Vec<Trace> {
        let mut machine = self.machine.clone();
        change(&mut machine);
        self.follower.look(&machine).unwrap_err()
    }
}

/// A 4K image with bytes at several addresses, which is accepted with some
/// sources wired.
fn accepted(wired: u8, code: &[(usize, &[u8])]) -> Vec<u8> {
    let mut image = vec![0; 4096];
    for (address, bytes) in code {
        image[*address..address + bytes.len()].copy_from_slice(bytes);
    }
    make(&image, wired, &mut [0; 4096]).unwrap();
    image
}

/// "A request is taken ... until the RETI that ends its service": P11's NMI
/// within its subroutine.
#[test]
fn p11_in_its_subroutine() {
    let (image, _) = p11();
    let mut bench = Bench::after(&image, 3); // JP, RETI, CALL
    let flags = [flags(1, 0), flags(0, 1), flags(0, 0)];
    bench.machine.flags = flags;
    assert_eq!((bench.machine.pc, bench.machine.levels), (0x890, 1));
    assert_eq!(bench.step(0x01), Event::Taken);
    let taking = Taking {
        source: 0,
        address: 0x890,
        mode: Mode::Normal,
        flags: flags[0],
        returns: vec![0x883],
        sleep: None,
        set: Mode::NmiOverNormal,
    };
    assert_eq!(bench.follower.open(), from_ref(&taking));
    assert_eq!((bench.machine.pc, bench.machine.levels), (0xFFC, 2));
    assert_eq!(bench.step(0), Event::Ended(taking));
    let m = &bench.machine;
    assert_eq!((m.pc, m.mode, m.levels, m.stack[0]), (0x890, Mode::Normal, 1, 0x883));
    assert_eq!((m.flags, m.asleep), (flags, false));
    bench.steps(1);
    assert_eq!((bench.machine.pc, bench.machine.levels), (0x883, 0));
}

/// A main loop at 106h with Z set, a service of source 1 at 200h, one of NMI at
/// 400h, and a subroutine at 300h that both call.
fn nesting() -> Vec<u8> {
    accepted(
        0x03,
        &[
            (0xFFE, &[0x09, 0x10]),                               // JP 100h
            (0x100, &[0x0D, 0xC8, 0x10, 0x4D]),                   // LDI 0C8h,10h; RETI
            (0x104, &[0x17, 0x00, 0x69, 0x10]),                   // LDI A,0; JP 106h
            (0xFF6, &[0x09, 0x20]),                               // JP 200h
            (0x200, &[0x17, 0x01, 0x01, 0x30, 0x4D]),             // LDI A,1; CALL 300h; RETI
            (0xFFC, &[0x09, 0x40]),                               // JP 400h
            (0x400, &[0x17, 0x00, 0x57, 0xFF, 0x01, 0x30, 0x4D]), // LDI A,0; ADDI A,FFh; CALL; RETI
            (0x300, &[0x04, 0xCD]),                               // NOP; RET
        ],
    )
}

/// In the main loop of [`nesting`], in the subroutine of its source's service,
/// and in the subroutine of the NMI's service within that.
fn nested(image: &[u8]) -> [Bench<'_>; 3] {
    let main = Bench::after(image, 4);
    let mut service = main.clone();
    assert_eq!(service.step(0x02), Event::Taken);
    service.steps(3); // JP, LDI, CALL
    let mut nmi = service.clone();
    assert_eq!(nmi.step(0x03), Event::Taken);
    nmi.steps(4); // JP, LDI, ADDI, CALL
    [main, service, nmi]
}

/// "An NMI inside a source's service ends with its own RETI, in its own mode,
/// and does not end the outer one."
#[test]
fn an_nmi_in_a_service() {
    let image = nesting();
    let [main, service, nmi] = nested(&image);
    let outer = Taking {
        source: 1,
        address: 0x106,
        mode: Mode::Normal,
        flags: flags(1, 0),
        returns: vec![],
        sleep: None,
        set: Mode::Interrupt,
    };
    let inner = Taking {
        source: 0,
        address: 0x300,
        mode: Mode::Interrupt,
        flags: flags(0, 0),
        returns: vec![0x106, 0x204],
        sleep: None,
        set: Mode::NmiOverInterrupt,
    };
    assert_eq!(service.follower.open(), from_ref(&outer));
    assert_eq!(nmi.follower.open(), [outer.clone(), inner.clone()]);
    assert_eq!((nmi.machine.levels, nmi.machine.stack[3]), (4, 0x406));
    let mut bench = nmi;
    bench.steps(2); // NOP, RET
    assert_eq!(bench.step(0), Event::Ended(inner));
    assert_eq!(bench.follower.open(), from_ref(&outer));
    let m = &bench.machine;
    assert_eq!((m.pc, m.mode, m.levels), (0x300, Mode::Interrupt, 2));
    assert_eq!(m.flags, [flags(1, 0), flags(0, 0), flags(0, 0)]);
    bench.steps(2);
    assert_eq!(bench.step(0), Event::Ended(outer));
    assert_eq!(bench.machine.flags[0], main.machine.flags[0]);
    let m = &bench.machine;
    assert_eq!((m.pc, m.mode, m.levels), (0x106, Mode::Normal, 0));
    assert!(bench.follower.open().is_empty());
}

/// "It may wake from sleep": it goes on awake after its STOP or WAIT.
#[test]
fn a_sleeper_goes_on() {
    for sleep in [0x6D, 0xED] {
        let image = accepted(
            0x11,
            &[
                (0xFFE, &[0x09, 0x10]),
                (0x100, &[0x0D, 0xC8, 0x10, 0x4D, sleep, 0x49, 0x10]), // main: sleep; JP 104h
                (0xFF0, &[0x4D]),
                (0xFFC, &[0x4D]),
            ],
        );
        for (request, vector) in [(0x10, 0xFF0), (0x01, 0xFFC), (0x11, 0xFFC)] {
            let mut bench = Bench::after(&image, 6); // the last is idle
            assert!(bench.machine.asleep);
            assert_eq!(bench.step(request), Event::Taken);
            let taking = bench.follower.open()[0].clone();
            let expected = Sleep { opcode: sleep, next: 0x105 };
            assert_eq!((taking.address, taking.sleep), (0x105, Some(expected)));
            assert_eq!((bench.machine.pc, bench.machine.asleep), (vector, false));
            assert_eq!(bench.traces(0, |m| m.asleep = true), [Trace::Asleep]);
            let again = bench.traces(0, |m| m.pc = 0x104);
            assert_eq!(again, [Trace::Address, Trace::Sleeper]);
            assert_eq!(bench.step(0), Event::Ended(taking));
            assert_eq!((bench.machine.pc, bench.machine.asleep), (0x105, false));
            bench.steps(1);
            assert_eq!(bench.machine.pc, 0x104);
        }
    }
}

/// "This holds for paged parts as well": a service that changes the page comes
/// back to the interrupted address, in the other page.
#[test]
fn a_service_that_changes_the_page() {
    let mut image = vec![0; 3 * HALF];
    for (index, bytes) in [
        (0x100, &[0x17, 0x11, 0x09, 0x10][..]), // LDI A,11h; JP 100h
        (HALF + 0x100, &[0x17, 0x22, 0x09, 0x10]),
        (2 * HALF, &[0x4D, 0x09, 0x10]), // 800h: RETI; JP 100h
        (2 * HALF + 0x100, &[0x0D, 0xCA, 0x01, 0x4D]), // 900h: LDI 0CAh,1; RETI
        (2 * HALF + 0x7FC, &[0x09, 0x90, 0x09, 0x80]), // FFCh: JP 900h; FFEh: JP 800h
    ] {
        image[index..index + bytes.len()].copy_from_slice(bytes);
    }
    make(&image, 0x01, &mut [0; 4096]).unwrap();
    for (steps, address) in [(3, 0x100), (4, 0x102)] {
        let mut bench = Bench::after(&image, steps);
        assert_eq!(bench.step(0x01), Event::Taken);
        bench.steps(2);
        assert!(matches!(bench.step(0), Event::Ended(_)));
        assert_eq!((bench.machine.pc, bench.machine.data[BANK as usize]), (address, 1));
        bench.steps(2);
        assert_eq!(bench.machine.data[0xFF], 0x22);
    }
}

/// What isn't right after a taking, within services, and at their ends.
#[test]
fn machines_changed_by_hand() {
    let image = nesting();
    let [main, service, nmi] = nested(&image);
    assert_eq!(main.traces(0x02, |m| m.stack[0] += 1), [Trace::Pushed]);
    assert_eq!(main.traces(0x02, |m| m.mode = Mode::NmiOverNormal), [Trace::Set]);
    assert_eq!(main.traces(0x01, |m| m.levels = 0), [Trace::Levels, Trace::End]);
    // The one beneath was pushed by the outer taking.
    assert_eq!(service.traces(0x01, |m| m.stack[0] += 1), [Trace::Pushed, Trace::Beneath]);
    assert_eq!(service.traces(0x01, |m| m.stack[1] += 1), [Trace::Beneath]);
    assert_eq!(service.traces(0x01, |m| m.stack[2] += 1), [Trace::Pushed]);
    // Nothing is promised of what the service itself pushed, or of data.
    let mut other = service.clone();
    (other.machine.stack[1], other.machine.data[0x20]) = (0x205, 1);
    assert_eq!(other.follower.look(&other.machine), Ok(()));
    assert_eq!(service.looked_at(|m| m.stack[0] = 0), [Trace::Pushed]);
    assert_eq!(nmi.looked_at(|m| m.stack[1] = 0), [Trace::Beneath]);
    assert_eq!(nmi.looked_at(|m| m.levels = 2), [Trace::Levels]);
    assert_eq!(nmi.looked_at(|m| m.mode = Mode::Interrupt), [Trace::Set]);
}

/// The ends of services, told by RETI and by the levels.
#[test]
fn ends_changed_by_hand() {
    let image = nesting();
    let [main, mut service, mut nmi] = nested(&image);
    for bench in [&mut service, &mut nmi] {
        bench.steps(2); // up to its RETI
    }
    for end in [&service, &nmi] {
        let pair = if end.follower.open().len() == 1 { 0 } else { 1 };
        assert_eq!(end.traces(0, |m| m.flags[pair].z ^= true), [Trace::Flags]);
        assert_eq!(end.traces(0, |m| m.flags[pair].c ^= true), [Trace::Flags]);
        assert_eq!(end.traces(0, |m| m.pc += 1), [Trace::Address]);
        assert_eq!(end.traces(0, |m| m.asleep = true), [Trace::Asleep]);
        assert_eq!(end.traces(0, |m| m.levels += 1), [Trace::Returns, Trace::End]);
        let modes = end.traces(0, |m| m.mode = Mode::NmiOverNormal);
        assert!(modes.contains(&Trace::Mode), "{modes:?}");
        // A RETI that does nothing but go on.
        let next = Machine { pc: end.machine.pc + 1, ..end.machine.clone() };
        let going_on = end.traces(0, |m| *m = next.clone());
        assert!(going_on.contains(&Trace::Returns) && going_on.contains(&Trace::End));
    }
    // The NMI's RETI taken for the one of the outer service.
    let both = nmi.traces(0, |m| *m = main.machine.clone());
    for trace in [Trace::Address, Trace::Mode, Trace::Returns, Trace::Levels, Trace::End] {
        assert!(both.contains(&trace), "{both:?}");
    }
    // And a RET that ends the service by the levels.
    let [_, service, _] = nested(&image);
    let mut returning = service;
    returning.steps(1);
    let traces = returning.traces(0, |m| (m.pc, m.levels) = (0x106, 0));
    assert_eq!(traces, [Trace::Levels, Trace::End]);
}

/// "With no reset between": after one nothing is open, and start-up's RETI ends
/// nothing.
#[test]
fn a_reset_abandons_services() {
    let image = nesting();
    let [_, _, mut bench] = nested(&image);
    bench.machine.reset();
    assert!(bench.follower.look(&bench.machine).is_err());
    bench.follower.reset();
    assert_eq!(bench.follower.look(&bench.machine), Ok(()));
    bench.steps(4);
    assert_eq!(bench.machine.mode, Mode::Normal);
}

/// Programs of every size with any requests, stores and resets leave no trace.
#[test]
fn accepted_programs_leave_no_trace() {
    let mut rng = Rng::new(8);
    let (mut ended, mut nested, mut woken, mut levels) = (0, 0, 0, [0; 7]);
    for halves in (1..=MOST_HALVES).cycle().take(200) {
        let p = serviced(&mut rng, HALF * halves);
        levels[check(&p.image, &p.certificate, p.wired).unwrap() as usize] += 1;
        let mut bench = Bench::new(&p.image);
        for _ in 0..2000 {
            match rng.below(100) {
                0 => {
                    bench.machine.reset();
                    bench.follower.reset();
                }
                1..=5 => {
                    bench.machine.host_store(rng.pick(&[IOR, BANK, 0x20]), rng.byte()).unwrap()
                }
                _ => {}
            }
            bench.follower.look(&bench.machine).unwrap();
            let request = rng.byte() & p.wired & if rng.chance(20) { 0xFF } else { 0 };
            if let Event::Ended(taking) = bench.step(request) {
                ended += 1;
                nested += (taking.mode == Mode::Interrupt) as u32;
                woken += taking.sleep.is_some() as u32;
            }
        }
    }
    assert!(ended > 5000 && nested > 500 && woken > 500, "{ended} {nested} {woken}");
    assert!(levels[1..].iter().all(|&count| count > 0), "{levels:?}");
}
