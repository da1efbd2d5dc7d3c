//! 0C8h and 0C9h, which can't be read (W-204).

use super::*;
use crate::boundary::{self, STATE};
use crate::chip::{DataByte, Origin, Report, A, IOR, WINDOW, X, Y};

const REGISTERS: [u8; 2] = [IOR, WINDOW];
/// Those beside them, which can be read.
const BESIDE: [u8; 2] = [0xC7, 0xCA];

/// The opcodes of a form: direct, through X, and through Y.
const LD_A: [u8; 3] = [0x1F, 0x07, 0x0F];
const CP: [u8; 3] = [0x3F, 0x27, 0x2F];
const ADD: [u8; 3] = [0x5F, 0x47, 0x4F];
const INC: [u8; 3] = [0x7F, 0x67, 0x6F];
const AND: [u8; 3] = [0xBF, 0xA7, 0xAF];
const SUB: [u8; 3] = [0xDF, 0xC7, 0xCF];
const DEC: [u8; 3] = [0xFF, 0xE7, 0xEF];

/// Every byte at each of two addresses.
fn each(addresses: [u8; 2], test: impl Fn(u8, u8)) {
    for address in addresses {
        (0..=255).for_each(|stored| test(address, stored));
    }
}

/// A step with a byte at an address: A, the byte there, and the flags, for
/// each opcode of a form.
fn effect(form: [u8; 3], address: u8, stored: u8, a: u8, flags: Flags) -> [(u8, u8, Flags); 3] {
    let data = [(X, address), (Y, address), (A, a), (address, stored)];
    form.map(|opcode| {
        let m = stepped(&[opcode, address], &data, flags);
        (m.data[A as usize], m.data[address as usize], m.flags[0])
    })
}

/// An opcode on bits: JRR, JRS, RES or SET, from its lowest five bits.
fn on_bit(low: u8, bit: u8) -> u8 {
    bit.reverse_bits() | low
}

/// The request's own example.
#[test]
fn set_4_of_0c8h() {
    for stored in 0..=255u8 {
        let m = stepped(&[0x3B, 0xC8], &[(IOR, stored)], BOTH);
        assert_eq!((m.data[0xC8], m.flags[0]), (0x10, BOTH));
    }
}

#[test]
fn res_and_set() {
    each(REGISTERS, |register, stored| {
        for (bit, flags) in (0..8).flat_map(|bit| [(bit, CLEAR), (bit, BOTH)]) {
            for (low, byte) in [(0x0B, 0), (0x1B, 1 << bit)] {
                let m = stepped(&[on_bit(low, bit), register], &[(register, stored)], flags);
                assert_eq!((m.data[register as usize], m.flags[0]), (byte, flags));
            }
        }
    });
}

#[test]
fn inc_and_dec() {
    each(REGISTERS, |register, stored| {
        for c in [0, 1] {
            let after = |byte| [(0x5A, byte, flags(0, c)); 3];
            assert_eq!(effect(INC, register, stored, 0x5A, flags(1, c)), after(0x01));
            assert_eq!(effect(DEC, register, stored, 0x5A, flags(1, c)), after(0xFF));
        }
    });
}

#[test]
fn sources() {
    each(REGISTERS, |register, stored| {
        for (a, z) in [(0x00, 1), (0x01, 0), (0x80, 0), (0xFF, 0)] {
            for before in [CLEAR, BOTH] {
                let effect = |form| effect(form, register, stored, a, before);
                // LD and AND give 0 and keep C; the others take 0 from A or add it.
                let zero = [(0x00, stored, Flags { z: true, ..before }); 3];
                assert_eq!([effect(LD_A), effect(AND)], [zero; 2]);
                let same = [(a, stored, flags(z, 0)); 3];
                assert_eq!([effect(ADD), effect(SUB), effect(CP)], [same; 3]);
            }
        }
    });
}

#[test]
fn tested_bits() {
    each(REGISTERS, |register, stored| {
        for (bit, z) in (0..8).flat_map(|bit| [(bit, 0), (bit, 1)]) {
            // JRR jumps and JRS doesn't, and both clear C.
            for (low, pc) in [(0x03, 0x112), (0x13, 0x103)] {
                let code = [on_bit(low, bit), register, 0x10];
                let m = stepped(&code, &[(register, stored)], flags(z, 1));
                assert_eq!((m.pc, m.flags[0]), (pc, flags(z, 0)));
                assert_eq!(m.data[register as usize], stored);
            }
        }
    });
}

/// With any opcode a step does the same whatever is stored where its operand,
/// X and Y point.
#[test]
fn no_instruction_tells_what_is_stored() {
    for (opcode, register) in (0..=255).flat_map(|opcode| REGISTERS.map(|r| (opcode, r))) {
        let rom = image(0x100, &[opcode, register, 0x10]);
        let start = |stored: u8| {
            let data = [(X, register), (Y, register), (A, 0x5A), (register, stored)];
            Machine { levels: 1, ..machine(0x100, &data) }
        };
        let mut cleared = start(0);
        let told = cleared.traced_step(&rom, 0);
        for stored in 1..=255u8 {
            let mut m = start(stored);
            assert_eq!(m.traced_step(&rom, 0), told, "{opcode:02X}");
            if m.data[register as usize] == stored {
                m.data[register as usize] = cleared.data[register as usize];
            }
            assert_eq!(m, cleared, "{opcode:02X}");
        }
    }
}

#[test]
fn registers_beside_them() {
    each(BESIDE, |address, stored| {
        let effect = |form| effect(form, address, stored, 0xF0, BOTH);
        let z = (stored == 0) as u8;
        assert_eq!(effect(LD_A), [(stored, stored, flags(z, 1)); 3]);
        assert_eq!(effect(INC).map(|(_, byte, _)| byte), [stored.wrapping_add(1); 3]);
        assert_eq!(effect(DEC).map(|(_, byte, _)| byte), [stored.wrapping_sub(1); 3]);
        assert_eq!(effect(AND).map(|(a, _, _)| a), [stored & 0xF0; 3]);
        assert_eq!(effect(CP).map(|(_, _, flags)| flags.c), [stored > 0xF0; 3]);
        let m = stepped(&[0x3B, address], &[(address, stored)], CLEAR); // SET 4
        assert_eq!(m.data[address as usize], stored | 0x10);
        let m = stepped(&[0x33, address, 0x10], &[(address, stored)], CLEAR); // JRS 4
        let jumps = stored & 0x10 != 0;
        assert_eq!((m.pc, m.flags[0].c), (if jumps { 0x112 } else { 0x103 }, jumps));
    });
}

/// Whether source 1 is taken after an instruction.
fn enabled_after(code: &[u8], stored: u8) -> bool {
    let rom = image(0x100, code);
    let mut m = machine(0x100, &[(IOR, stored)]);
    m.step(&rom, 0x00).unwrap();
    m.step(&rom, 0x02).unwrap();
    m.mode == Mode::Interrupt
}

#[test]
fn the_stored_bit_enables() {
    for stored in 0..=255u8 {
        let bit_4 = stored & 0x10 != 0;
        assert_eq!(enabled_after(&[0x0D, IOR, stored], !stored), bit_4); // LDI
        assert_eq!(enabled_after(&[0x1F, IOR], stored), bit_4); // LD A
        assert!(enabled_after(&[0x3B, IOR], stored)); // SET 4
        assert!(enabled_after(&[0xFF, IOR], stored)); // DEC: FFh
        for opcode in [0x1B, 0x0B, 0x7F] {
            assert!(!enabled_after(&[opcode, IOR], stored)); // SET 0, RES 0, INC
        }
    }
}

/// The ROM address that LD A,45h reads after an instruction.
fn shown_after(code: &[u8], stored: u8) -> Option<Origin> {
    let mut rom: Vec<u8> = (0..4096).map(|address| (address / 64 * 3 + address) as u8).collect();
    let code = [code, &[0x1F, 0x45]].concat();
    rom[0x100..][..code.len()].copy_from_slice(&code);
    let mut m = machine(0x100, &[(WINDOW, stored)]);
    m.step(&rom, 0).unwrap();
    let origin = m.traced_step(&rom, 0).unwrap().origin;
    let Some(Origin::Rom(address)) = origin else { panic!("{origin:?}") };
    assert_eq!(m.data[A as usize], rom[address as usize]);
    origin
}

#[test]
fn the_stored_page_is_shown() {
    for stored in 0..=255u8 {
        let page = |page: u8| Some(Origin::Rom((page % 64) as u16 * 64 + 5));
        assert_eq!(shown_after(&[0x0D, WINDOW, stored], !stored), page(stored)); // LDI
        assert_eq!(shown_after(&[0x1F, WINDOW], stored), page(stored)); // LD A
        assert_eq!(shown_after(&[0x7F, WINDOW], stored), page(0x01)); // INC
        assert_eq!(shown_after(&[0xFF, WINDOW], stored), page(0x3F)); // DEC: FFh
        assert_eq!(shown_after(&[0xBB, WINDOW], stored), page(0x20)); // SET 5
        assert_eq!(shown_after(&[0x0B, WINDOW], stored), page(0x00)); // RES 0
    }
}

/// W-203's reading.
#[test]
fn reading() {
    for rom in [vec![0xEE; 2048], vec![0xEE; 4096]] {
        let read = |address: u8, stored: u8| {
            let m = machine(0x900, &[(address, stored)]);
            let mut state = vec![0; STATE];
            boundary::pack(&m, &mut state);
            (m.host_read(&rom, address).unwrap(), boundary::read(&rom, &state, address as u32))
        };
        let register = |byte| DataByte { byte, origin: Origin::Register };
        each(REGISTERS, |address, stored| {
            assert_eq!(read(address, stored), (register(0), 2 << 32));
        });
        each(BESIDE, |address, stored| {
            let word = 2 << 32 | (stored as u64) << 24;
            assert_eq!(read(address, stored), (register(stored), word));
        });
    }
}

/// What can't be read is in the state all the same.
#[test]
fn stores_states_and_reset() {
    each(REGISTERS, |register, stored| {
        let rom = image(0xFFE, &[0x1F, register]); // LD A
        let mut state = vec![0; STATE];
        boundary::reset(&mut state);
        state[A as usize] = 0x5A;
        assert_eq!(boundary::store(&mut state, register as u32, stored as u32), 0);
        assert_eq!(state[register as usize], stored);
        assert_eq!(boundary::step(&rom, &mut state, 0), 4 << 24 | 2 << 32);
        assert_eq!((state[register as usize], state[A as usize]), (stored, 0));
        assert_eq!(boundary::reset(&mut state), 0);
        assert_eq!(state[register as usize], 0);
    });
}

#[test]
fn in_a_run() {
    let rom = image(
        0x100,
        &[
            0x0D, 0xC8, 0xEF, // LDI 0C8h,EFh
            0x3B, 0xC8, // SET 4,0C8h
            0x0D, 0x80, 0xC9, // LDI X,0C9h
            0x0D, 0xC9, 0x24, // LDI 0C9h,24h
            0x67, // INC (X)
            0x07, // LD A,(X)
            0x13, 0xC9, 0xEA, // JRS 0,0C9h
            0x6D, // STOP
        ],
    );
    let mut m = machine(0x100, &[(A, 0x5A)]);
    let report = m.run(&rom, &[], 8).unwrap();
    assert_eq!(report, Report { steps: 8, cycles: 4 + 4 + 4 + 4 + 4 + 4 + 5 + 2, stop: None });
    assert_eq!((m.data[0xC8], m.data[0xC9], m.data[0xFF]), (0x10, 0x01, 0));
    assert_eq!((m.flags[0], m.asleep), (flags(1, 0), true));
    // Source 1 is enabled: the machine wakes.
    assert_eq!((m.step(&rom, 0x02), m.pc), (Ok(1), 0xFF6));
}
