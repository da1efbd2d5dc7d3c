//! Widths of a sizing program that sleeps after some 60,000 steps.

use super::{Side, Work};
use crate::chip::{Instruction, Operand, RESET_VECTOR, WINDOW};
use crate::gauge::{gauge, Gauged, COUNT, WIDTH};
use crate::generate::{placed, written, Program};
use crate::{boundary, proved};
use std::hint::black_box;
use Instruction::*;
use Operand::*;

/// The steps of the program with [`SLIDE_COUNT`].
pub const STEPS: u32 = 61_047;

/// The count that it is given.
const SLIDE_COUNT: u8 = 37;

pub struct Widths {
    program: Program,
    /// A fresh machine with the count stored.
    start: Vec<u8>,
    expected: u64,
}

impl Default for Widths {
    fn default() -> Self {
        let program = program();
        let Gauged { width, steps } = gauge(&program.image, &program.certificate, SLIDE_COUNT)
            .expect("the program is accepted and sleeps");
        assert_eq!(steps as u32, STEPS);
        let mut start = vec![0; boundary::STATE];
        assert_eq!(boundary::reset(&mut start), 0);
        assert_eq!(boundary::store(&mut start, COUNT as u32, SLIDE_COUNT as u32), 0);
        let expected = (steps as u64) << 40 | (width as u64) << 24;
        Widths { program, start, expected }
    }
}

impl Widths {
    /// The proved library's runs of as many steps, from the same start.
    pub fn proved_runs(&self, times: usize) {
        for _ in 0..times {
            let mut state = self.start.clone();
            let mut report = [0; boundary::REPORT];
            let image = black_box(&self.program.image);
            assert_eq!(proved::run(image, &mut state, &[], STEPS, &mut report), 0);
            assert_eq!(state[260], 1, "asleep");
            black_box(report);
        }
    }

    fn widths(&self, times: usize, width: impl Fn(&[u8], &[u8], u32) -> u64) {
        for _ in 0..times {
            let Program { image, certificate, .. } = black_box(&self.program);
            assert_eq!(width(image, certificate, SLIDE_COUNT as u32), self.expected);
        }
    }
}

impl Work for Widths {
    fn work(&mut self, side: Side, times: usize) {
        match side {
            Side::Proved => self.widths(times, proved::width),
            Side::Second => {
                for _ in 0..times {
                    let Program { image, certificate, .. } = black_box(&self.program);
                    let answer = gauge(image, certificate, SLIDE_COUNT).expect("it sleeps");
                    assert_eq!(answer, boundary::gauged(self.expected));
                }
            }
            Side::Packed => self.widths(times, boundary::width),
        }
    }
}

const START: u16 = 0x880;
/// The top of the loops, after ten bytes of start-up.
const TOP: u16 = 0x88A;
const SUBROUTINE: u16 = 0x8C0;
/// Where the loops count.
const OUTER: u8 = 0x20;
const INNER: u8 = 0x21;

/// Adds the count and the entries of a table at A00h to the width, in loops.
fn program() -> Program {
    let [high, low] = WIDTH;
    let start_up = [
        Ldi { address: WINDOW, value: 0x28 },
        Ldi { address: OUTER, value: 15 },
        Ldi { address: INNER, value: 0 },
        Reti,
    ];
    let add = [Add(Direct(low)), LdTo(Direct(low)), Jrnc(2), Inc(Direct(high)), Ret];
    let code = [
        placed(RESET_VECTOR, 0x11, &[Jp(START)]),
        placed(START, 0x11, &start_up),
        placed(TOP, 0x21, &LOOPS),
        placed(SUBROUTINE, 0x40, &add),
    ];
    let mut program = written(2048, &code.concat());
    for (index, byte) in program.image[0x200..0x240].iter_mut().enumerate() {
        *byte = (7 * index) as u8;
    }
    program
}

const LOOPS: [Instruction; 17] = [
    LdA(Direct(INNER)),
    Andi(0x3F),
    Addi(0x40),
    LdTo(Short(0)),
    LdA(ByX),
    Add(Direct(COUNT)),
    Jrr { bit: 3, address: INNER, displacement: 2 }, // over COM, half the time
    Com,
    Call(SUBROUTINE),
    Dec(Direct(INNER)),
    Jrz(2), // over the next
    Jp(TOP),
    Dec(Direct(OUTER)),
    Jrz(2), // over the next
    Jp(TOP),
    Stop,
    Jp(TOP),
];
