//! Requests, returns, stops, refusals, runs and the ROM window.

use super::*;
use crate::chip::{Report, A, IOR, WINDOW};
use crate::Refusal::*;

#[test]
fn requests() {
    let rom = image(0x100, &[0x6D]);
    // Lowest number wins; sources need the enable bit; NMI doesn't.
    let mut m = machine(0x100, &[(IOR, 0x10)]);
    assert_eq!(m.step(&rom, 0x1E), Ok(1));
    assert_eq!((m.pc, m.mode, m.stack[0], m.levels), (0xFF6, Mode::Interrupt, 0x100, 1));
    assert_eq!(m.step(&rom, 0x1F), Ok(1));
    assert_eq!((m.pc, m.mode, m.levels), (0xFFC, Mode::NmiOverInterrupt, 2));
    m.pc = 0x100;
    assert_eq!(m.step(&rom, 0x1F), Ok(2)); // a second NMI isn't taken: STOP
    assert_eq!((m.pc, m.asleep, m.levels), (0x101, true, 2));
    assert_eq!(m.step(&rom, 0x1F), Ok(0)); // idle
    let mut m = machine(0x100, &[(IOR, 0xEF)]);
    assert_eq!(m.step(&rom, 0x1E), Ok(2));
    assert!(m.asleep);
    m.levels = 6;
    let before = m.clone();
    assert_eq!(m.step(&rom, 0x01), Err(StackFull(0x101)));
    assert_eq!(m, before);
    assert_eq!(m.step(&rom, 0x1E), Ok(0));
    m.levels = 5;
    assert_eq!(m.step(&rom, 0x01), Ok(1));
    assert_eq!((m.pc, m.mode, m.asleep, m.levels), (0xFFC, Mode::NmiOverNormal, false, 6));
    let mut m = Machine { pc: 0x100, ..Machine::default() };
    m.data[IOR as usize] = 0x10;
    assert_eq!(m.step(&rom, 0x1F), Ok(2)); // none in reset mode
    for (request, vector) in [(2, 0xFF6), (4, 0xFF4), (8, 0xFF2), (16, 0xFF0), (0x18, 0xFF2)] {
        let mut m = machine(0x100, &[(IOR, 0x10)]);
        assert_eq!(m.step(&rom, request), Ok(1));
        assert_eq!(m.pc, vector);
    }
}

#[test]
fn returns_on_an_empty_stack() {
    for mode in
        [Mode::Reset, Mode::Normal, Mode::Interrupt, Mode::NmiOverNormal, Mode::NmiOverInterrupt]
    {
        let fresh = Machine { pc: 0xFFF, mode, ..Machine::default() };
        let mut m = fresh.clone();
        assert_eq!(m.step(&image(0xFFF, &[0xCD]), 0), Err(StackEmpty(0xFFF)));
        assert_eq!(m, fresh);
        let result = m.step(&image(0xFFF, &[0x4D]), 0);
        if mode == Mode::Reset {
            assert_eq!(result, Ok(2));
            assert_eq!((m.pc, m.mode), (0x000, Mode::Normal));
        } else {
            assert_eq!(result, Err(StackEmpty(0xFFF)));
            assert_eq!(m, fresh);
        }
    }
    // In reset mode with a return address RETI pops it.
    let mut m = Machine { pc: 0x100, levels: 1, ..Machine::default() };
    m.stack[0] = 0x333;
    assert_eq!(m.step(&image(0x100, &[0x4D]), 0), Ok(2));
    assert_eq!((m.pc, m.mode, m.levels), (0x333, Mode::Normal, 0));
}

#[test]
fn stops_change_nothing() {
    let mut m = machine(0x100, &[]);
    m.levels = 6;
    let before = m.clone();
    assert_eq!(m.step(&image(0x100, &[0x01, 0x20]), 0), Err(StackFull(0x100)));
    assert_eq!(m, before);
    // CALL whose operand is missing: 4 comes before 6.
    m.pc = 0xFFF;
    assert_eq!(m.step(&vec![0x01; 2048], 0), Err(OutsideRom(0xFFF)));
    m.levels = 5;
    m.pc = 0xFFE;
    assert_eq!(m.step(&vec![0x01; 2048], 0), Ok(4));
    assert_eq!(m.stack[5], 0x000);
}

#[test]
fn refusals_in_order() {
    let mut m = machine(0x1000, &[]);
    assert_eq!(m.step(&[], 0xFF), Err(ImageLength));
    assert_eq!(m.step(&[0; 2048], 0xFF), Err(IllFormed));
    assert_eq!(m.run(&[0; 2048], &[0xFF], 70_000), Err(IllFormed));
    assert_eq!(m.host_store(0x40, 0), Err(IllFormed));
    m.reset();
    assert_eq!(m.step(&[0; 2048], 0x20), Err(Request));
    assert_eq!(m.run(&[0; 2048], &[0xFF], 65_536), Err(TooManySteps));
    assert_eq!(m.run(&[0; 2048], &[0xFF], 1), Err(Request));
    let none = Report { steps: 0, cycles: 0, stop: None };
    assert_eq!(m.run(&[0; 2048], &[0xFF], 0), Ok(none));
    assert_eq!(m.host_store(0x7F, 0), Err(RomWindow));
    assert_eq!(m.host_store(0x80, 5), Ok(()));
    m.stack = [0xFFFF; 6];
    assert_eq!(m.well_formed(), Ok(()));
    m.levels = 1;
    assert_eq!(m.well_formed(), Err(IllFormed));
    m.levels = 255;
    assert_eq!(m.well_formed(), Err(IllFormed));
}

#[test]
fn run_is_steps() {
    // INC X; JRNZ back; STOP, with an NMI and a service that returns.
    let mut rom = image(0xFFE, &[0x09, 0x10]);
    rom[0x100..0x105].copy_from_slice(&[0x4D, 0x15, 0xF0, 0x6D, 0xE8]);
    rom[0xFFC] = 0x4D;
    let mut m = Machine::default();
    let mut s = m.clone();
    let mut requests = vec![0; 600];
    for index in [3, 50, 530, 531, 590] {
        requests[index] = 1;
    }
    let report = m.run(&rom, &requests, 1000).unwrap();
    let mut cycles = 0;
    for index in 0..1000 {
        cycles += s.step(&rom, requests.get(index).copied().unwrap_or(0)).unwrap();
    }
    assert_eq!(report, Report { steps: 1000, cycles, stop: None });
    assert_eq!(m, s);
    // A stop keeps the steps before it.
    let mut m = machine(0x100, &[]);
    let rom = image(0x100, &[0x15, 0x15, 0x05]);
    let report = m.run(&rom, &[], 9).unwrap();
    assert_eq!(report, Report { steps: 2, cycles: 8, stop: Some(Undefined(0x102)) });
    assert_eq!((m.pc, m.data[0x80]), (0x102, 2));
}

#[test]
fn window() {
    let mut rom = vec![0; 2048];
    rom[0x7FF] = 0x5A;
    let mut m = machine(0x800, &[(WINDOW, 0xFF)]);
    rom[0..2].copy_from_slice(&[0x1F, 0x7F]);
    assert_eq!(m.step(&rom, 0), Ok(4));
    assert_eq!(m.data[0xFF], 0x5A);
    let mut m = machine(0x800, &[(WINDOW, 0x1F), (A, 1)]); // ROM that the image lacks
    assert_eq!(m.step(&rom, 0), Ok(4));
    assert_eq!((m.data[0xFF], m.flags[0].z), (0, true));
}
