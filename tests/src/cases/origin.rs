//! Where data bytes come from (W-203).

use super::*;
use crate::boundary;
use crate::chip::{DataByte, Origin, Traced, A, IOR, WINDOW, X, Y};
use crate::generate::{self, random_image, Rng};
use crate::Refusal::*;
use Origin::*;

/// LD A, CP, ADD, INC, AND, SUB and DEC by their operands.
const DIRECT: [u8; 7] = [0x1F, 0x3F, 0x5F, 0x7F, 0xBF, 0xDF, 0xFF];
const BY_X: [u8; 7] = [0x07, 0x27, 0x47, 0x67, 0xA7, 0xC7, 0xE7];
const BY_Y: [u8; 7] = [0x0F, 0x2F, 0x4F, 0x6F, 0xAF, 0xCF, 0xEF];
/// INC, LD A and DEC of X, Y, V and W.
const SHORT: [u8; 12] = [0x15, 0x55, 0x95, 0xD5, 0x35, 0x75, 0xB5, 0xF5, 0x1D, 0x5D, 0x9D, 0xDD];

/// JRR and JRS, RES and SET.
fn on_bits(opcode: u8) -> bool {
    matches!(opcode & 0x0F, 0x3 | 0xB)
}

/// An image with code at 900h.
fn at_900h(length: usize, code: &[u8]) -> Vec<u8> {
    let mut image = vec![0; length];
    image[0x900 + length - 0x1000..][..code.len()].copy_from_slice(code);
    image
}

/// What a step of code at 900h tells.
fn told(length: usize, code: &[u8], data: &[(u8, u8)]) -> Option<Origin> {
    let mut m = machine(0x900, data);
    m.levels = 1;
    let Traced { cycles, origin } = m.traced_step(&at_900h(length, code), 0).unwrap();
    assert_eq!(cycles, SIZES[code[0] as usize].cycles as u32);
    origin
}

#[test]
fn every_opcode() {
    // A direct operand in RAM, X to the window, Y to a register.
    let data = [(X, 0x45), (Y, 0x90), (WINDOW, 0x25)];
    let mut reading = 0;
    for opcode in (0..=255u8).filter(|&opcode| SIZES[opcode as usize].length > 0) {
        let expected = if DIRECT.contains(&opcode) || on_bits(opcode) {
            Some(Ram)
        } else if BY_X.contains(&opcode) {
            Some(Rom(0x945))
        } else if BY_Y.contains(&opcode) || SHORT.contains(&opcode) {
            Some(Register)
        } else {
            None
        };
        assert_eq!(told(2048, &[opcode, 0x22, 0x00], &data), expected, "{opcode:02X}");
        reading += expected.is_some() as u32;
    }
    assert_eq!(reading, 3 * 7 + 12 + 2 * 16);
}

/// The origin of a data address, as document 01 lays the data space out.
fn place(length: usize, address: u8, page: u8) -> Origin {
    let rom_address = 64 * (page as usize % 64) + address as usize % 64;
    match address {
        0x00..=0x3F => Ram,
        0x80..=0xFF => Register,
        _ if rom_address < 0x1000 - length => Nothing,
        _ => Rom(rom_address as u16),
    }
}

#[test]
fn every_address_on_every_page() {
    for length in [2048, 4096] {
        for address in 0..=255u8 {
            let direct = at_900h(length, &[0x1F, address]);
            let [by_x, by_y] = [0x07, 0x0F].map(|opcode| at_900h(length, &[opcode]));
            for page in 0..=255u8 {
                let m = machine(0x900, &[(X, address), (Y, address), (WINDOW, page)]);
                let origin = place(length, address, page);
                for image in [&direct, &by_x, &by_y] {
                    let traced = m.clone().traced_step(image, 0).unwrap();
                    assert_eq!(traced, Traced { cycles: 4, origin: Some(origin) });
                    let read = m.host_read(image, address).unwrap();
                    assert_eq!(read.origin, origin);
                }
            }
        }
    }
}

#[test]
fn ends_of_the_window() {
    for (length, page, address, origin) in [
        (2048, 0x00, 0x40, Nothing),
        (2048, 0x1F, 0x7F, Nothing),
        (2048, 0x20, 0x40, Rom(0x800)),
        (2048, 0x3F, 0x7F, Rom(0xFFF)),
        (2048, 0x5F, 0x7F, Nothing), // the top two bits don't count
        (2048, 0xE0, 0x40, Rom(0x800)),
        (2048, 0xFF, 0x7F, Rom(0xFFF)),
        (4096, 0x00, 0x40, Rom(0x000)),
        (4096, 0x00, 0x7F, Rom(0x03F)),
        (4096, 0x1F, 0x7F, Rom(0x7FF)),
        (4096, 0x20, 0x40, Rom(0x800)),
        (4096, 0x3F, 0x7F, Rom(0xFFF)),
        (2048, 0x20, 0x3F, Ram),
        (2048, 0x20, 0x80, Register),
    ] {
        for opcode in (0..=255u8).filter(|&opcode| on_bits(opcode) || DIRECT.contains(&opcode)) {
            let found = told(length, &[opcode, address, 0x00], &[(WINDOW, page)]);
            assert_eq!(found, Some(origin), "{opcode:02X} {address:02X} on page {page:02X}");
        }
    }
}

#[test]
fn pointers() {
    // 0C9h is 20h, also where they point at it.
    for (address, origin) in [
        (0x00, Ram),
        (0x3F, Ram),
        (0x40, Rom(0x800)),
        (0x7F, Rom(0x83F)),
        (0x80, Register),
        (0x81, Register),
        (0xC8, Register),
        (0xC9, Register),
        (0xFF, Register),
    ] {
        for (opcodes, pointer) in [(BY_X, X), (BY_Y, Y)] {
            for opcode in opcodes {
                let data = [(WINDOW, 0x20), (pointer, address)];
                assert_eq!(told(2048, &[opcode], &data), Some(origin), "{opcode:02X}");
            }
        }
        for store in [0x87, 0x8F] {
            let data = [(WINDOW, 0x20), (X, address), (Y, address)];
            assert_eq!(told(2048, &[store], &data), None, "LD ({address:02X}),A");
        }
    }
}

#[test]
fn short_operands() {
    for byte in [0x00, 0x22, 0x45, 0x90, 0xFF] {
        let data = [(X, byte), (Y, byte), (0x82, byte), (0x83, byte)];
        for opcode in SHORT {
            assert_eq!(told(2048, &[opcode], &data), Some(Register), "{opcode:02X}");
        }
        for store in [0x3D, 0x7D, 0xBD, 0xFD] {
            assert_eq!(told(2048, &[store], &data), None, "{store:02X}");
        }
    }
}

#[test]
fn what_is_not_read() {
    for second in [0x00, 0x3F, 0x40, 0x7F, 0x80, 0x81, 0xC8, 0xC9, 0xFF] {
        // LD rr,A; LDI rr; LDI A; ADDI, ANDI, SUBI, CPI.
        for opcode in [0x9F, 0x0D, 0x17, 0x57, 0xB7, 0xD7, 0x37] {
            assert_eq!(told(4096, &[opcode, second, 0], &[]), None, "{opcode:02X} {second:02X}");
        }
    }
    for implied in [0x2D, 0xAD, 0x04, 0xCD, 0x4D, 0x6D, 0xED] {
        assert_eq!(told(4096, &[implied], &[(A, 0x40)]), None, "{implied:02X}");
    }
    // The accumulator as the operand is read: SLA A, CLR A, and SET of a bit.
    for code in [[0x5F, 0xFF], [0xDF, 0xFF], [0x1B, 0xFF]] {
        assert_eq!(told(4096, &code, &[(A, 0x40)]), Some(Register));
    }
}

/// Jumping or not, a tested bit is read.
#[test]
fn bench_cases() {
    assert_eq!(told(2048, &[0x5F, 0x22], &[]), Some(Ram)); // P1
    assert_eq!(told(2048, &[0x2B, 0x23], &[]), Some(Ram)); // P6
    for bit in [0x00, 0x10] {
        let mut rom = image(110, &[0x23, 0x70, 0xEA]); // P8
        rom[0x30] = bit;
        let traced = machine(110, &[]).traced_step(&rom, 0);
        assert_eq!(traced, Ok(Traced { cycles: 5, origin: Some(Rom(0x030)) }));
    }
    for byte in [0x7F, 0x80] {
        let rom = image(123, &[0xF3, 0xAF, 0x17]); // P9
        let traced = machine(123, &[(0xAF, byte)]).traced_step(&rom, 0);
        assert_eq!(traced, Ok(Traced { cycles: 5, origin: Some(Register) }));
    }
}

/// An origin is told of the machine before the step.
#[test]
fn steps_that_move_their_operand() {
    // DEC (X) with X on itself: X then points into the window.
    let mut m = machine(0x900, &[(X, 0x80), (WINDOW, 0x20)]);
    let traced = m.traced_step(&at_900h(2048, &[0xE7]), 0).unwrap();
    assert_eq!((traced.origin, m.data[0x80]), (Some(Register), 0x7F));
    // INC 0C9h stores 1, and a 2K image has nothing on page 1.
    let rom = at_900h(2048, &[0x7F, 0xC9, 0x7F, 0x41]);
    let mut m = machine(0x900, &[(WINDOW, 0x24)]);
    let origins = [0, 0].map(|request| m.traced_step(&rom, request).unwrap().origin);
    assert_eq!(origins, [Some(Register), Some(Nothing)]);
}

#[test]
fn requests_sleep_and_stops() {
    let rom = at_900h(2048, &[0x1F, 0x22]); // LD A,22h
    let none = |cycles| Ok(Traced { cycles, origin: None });
    let read = Ok(Traced { cycles: 4, origin: Some(Ram) });
    let enabled = machine(0x900, &[(IOR, 0x10)]);
    for request in [0x01, 0x02, 0x1E, 0x1F] {
        assert_eq!(enabled.clone().traced_step(&rom, request), none(1));
    }
    let disabled = machine(0x900, &[]);
    assert_eq!(disabled.clone().traced_step(&rom, 0x1E), read);
    assert_eq!(disabled.clone().traced_step(&rom, 0x01), none(1));
    let nmi = Machine { mode: Mode::NmiOverNormal, ..enabled.clone() };
    assert_eq!(nmi.clone().traced_step(&rom, 0x1F), read);
    let asleep = Machine { asleep: true, ..enabled.clone() };
    assert_eq!(asleep.clone().traced_step(&rom, 0x00), none(0));
    assert_eq!(asleep.clone().traced_step(&rom, 0x10), none(1));
    let full = Machine { levels: 6, ..enabled.clone() };
    assert_eq!(full.clone().traced_step(&rom, 0x01), Err(StackFull(0x900)));
    assert_eq!(enabled.clone().traced_step(&rom, 0x20), Err(Request));
    // JRR whose address stands in ROM, and whose displacement doesn't.
    let mut rom = vec![0; 2048];
    rom[0x7FE..].copy_from_slice(&[0x03, 0x22]);
    let mut m = machine(0xFFE, &[]);
    assert_eq!(m.traced_step(&rom, 0), Err(OutsideRom(0xFFE)));
    let mut state = vec![0; boundary::STATE];
    boundary::pack(&m, &mut state);
    assert_eq!(boundary::step(&rom, &mut state, 0), 4 | 0xFFE << 8);
}

/// A run, which tells none, does what a step does.
#[test]
fn telling_changes_nothing() {
    let mut rng = Rng::new(7);
    for _ in 0..2000 {
        let rom = random_image(&mut rng);
        for _ in 0..20 {
            let mut m = boundary::unpack(&generate::machine(&mut rng)).unwrap();
            let mut told = m.clone();
            let request = generate::request(&mut rng);
            let cycles = told.traced_step(&rom, request).map(|traced| traced.cycles);
            let ran = m.run(&rom, &[request], 1);
            let ran = ran.and_then(|report| report.stop.map_or(Ok(report.cycles), Err));
            assert_eq!((ran, &m), (cycles, &told));
        }
    }
}

#[test]
fn reading() {
    let mut two = vec![0; 2048];
    (two[0x000], two[0x17F], two[0x7FF]) = (0x5A, 0xA5, 0xC3);
    let data = [(0x00, 1), (0x3F, 2), (0x40, 3), (0x7F, 4), (0x80, 5), (IOR, 6), (A, 7)];
    let mut m = machine(0x900, &data);
    for (page, address, byte, origin) in [
        (0x20, 0x00, 1, Ram),
        (0x20, 0x3F, 2, Ram),
        (0x20, 0x40, 0x5A, Rom(0x800)),
        (0x25, 0x7F, 0xA5, Rom(0x97F)),
        (0xFF, 0x7F, 0xC3, Rom(0xFFF)),
        (0x1F, 0x7F, 0, Nothing),
        (0x00, 0x40, 0, Nothing),
        (0x00, 0x80, 5, Register),
        (0x00, 0xC8, 0, Register), // it can't be read, nor the next one
        (0xFF, 0xC9, 0, Register),
        (0x00, 0xFF, 7, Register),
    ] {
        m.data[WINDOW as usize] = page;
        assert_eq!(m.host_read(&two, address), Ok(DataByte { byte, origin }));
    }
    let four = [vec![0x11; 2048], two].concat();
    m.data[WINDOW as usize] = 0x1F;
    assert_eq!(m.host_read(&four, 0x7F), Ok(DataByte { byte: 0x11, origin: Rom(0x7FF) }));
}

/// The words at the boundary, and which refusal comes first.
#[test]
fn words() {
    let mut state = vec![0; boundary::STATE];
    let m = machine(0x900, &[(0x22, 0x77), (X, 0x45), (WINDOW, 0x25)]);
    boundary::pack(&m, &mut state);
    let mut rom = at_900h(2048, &[0x07]); // LD A,(X)
    rom[0x145] = 0xEE;
    let read = |address| boundary::read(&rom, &state, address);
    assert_eq!(read(0x22), 0x77 << 24 | 1 << 32);
    assert_eq!(read(0x80), 0x45 << 24 | 2 << 32);
    assert_eq!(read(0x45), 0xEE << 24 | 3 << 32 | 0x945 << 40);
    assert_eq!(boundary::step(&rom, &mut state.clone(), 0), 4 << 24 | 3 << 32 | 0x945 << 40);
    let mut low = state.clone();
    low[WINDOW as usize] = 0x05;
    assert_eq!(boundary::read(&rom, &low, 0x45), 4 << 32);
    assert_eq!(boundary::step(&rom, &mut low, 0), 4 << 24 | 4 << 32);
    let mut ill_formed = state.clone();
    ill_formed[257] = 0x10;
    let mut bad_packing = state.clone();
    bad_packing[267] = 1;
    for bad in [&ill_formed[..], &bad_packing, &state[..279], &[]] {
        assert_eq!(boundary::read(&rom, bad, 0x22), 2);
        assert_eq!(boundary::read(&rom[..2047], bad, 0x22), 1);
        assert_eq!(boundary::read(&rom, bad, 0x100), 8);
        assert_eq!(boundary::read(&[], bad, u32::MAX), 8);
    }
    assert_eq!(read(0x122), 8);
}
