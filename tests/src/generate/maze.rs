//! Mazes: jumps, branches and calls all over the ROM.

use super::{written, Program, Rng};
use crate::chip::{Instruction, RESET_VECTOR};
use Instruction::*;

/// Code stays below the vectors.
const CODE_END: u16 = 0xFF0;
/// The bytes of a cell: a few instructions, from which the next cell may be
/// reached.
const CELL: usize = 4;
const NOP: Instruction = Jrz(0);

/// How many cells back and on a branch reaches, and from where its
/// displacement counts.
struct Reach {
    back: usize,
    on: usize,
    from: isize,
}

const SHORT: Reach = Reach { back: 3, on: 4, from: 1 };
const LONG: Reach = Reach { back: 31, on: 32, from: 2 };

/// The cells of one kind and need, which jump only among themselves.
struct Region<'a> {
    cells: &'a [u16],
    /// The cells that it may call.
    targets: &'a [u16],
    mark: u8,
}

type Line = (u16, Instruction, u8);

/// A start-up and subroutines of needs up to 6, with nothing wired. Some
/// needs are greater than the least. If recursive, parts may call themselves
/// and parts above them; the certificate is then no longer accepted.
pub fn maze(rng: &mut Rng, length: usize, recursive: bool) -> Program {
    let base = (0x1000 - length) as u16;
    let cells: Vec<u16> = (base..CODE_END).step_by(CELL).collect();
    let depth = rng.below(7);
    let size = cells.len() / (depth + 1);
    let mut code = Vec::new();
    for level in 0..=depth {
        let from = size * level;
        let callable = if recursive { size * depth } else { from };
        let mark = if level == depth { 0x10 } else { 0x40 } | level as u8;
        let (cells, targets) = (&cells[from..from + size], &cells[..callable]);
        code.extend(Region { cells, targets, mark }.lines(rng));
    }
    code.push((RESET_VECTOR, Jp(cells[size * depth]), 0x10 | depth as u8));
    written(length, &code)
}

impl Region<'_> {
    fn lines(&self, rng: &mut Rng) -> Vec<Line> {
        let mut lines = Vec::new();
        for (index, &cell) in self.cells.iter().enumerate() {
            let code = self.cell(rng, index);
            lines.extend(self.placed(cell, &code));
        }
        lines
    }

    /// Instructions one after another.
    fn placed(&self, from: u16, code: &[Instruction]) -> Vec<Line> {
        let mut address = from;
        let mut lines = Vec::new();
        for &instruction in code {
            lines.push((address, instruction, self.mark));
            address += size(instruction);
        }
        lines
    }

    /// The instructions of a cell. The last one jumps, so that nothing runs
    /// into the next region.
    fn cell(&self, rng: &mut Rng, index: usize) -> Vec<Instruction> {
        let (bit, address, value) = (rng.below(8) as u8, rng.byte(), rng.byte());
        let jump = Jp(rng.pick(self.cells));
        if index + 1 == self.cells.len() {
            return vec![jump];
        }
        let short = self.displacement(rng, index, SHORT);
        let long = self.displacement(rng, index, LONG);
        match rng.below(16) {
            0 => vec![jump],
            1 | 2 if !self.targets.is_empty() => {
                vec![Call(rng.pick(self.targets)), rng.pick(&[jump, LdiA(value)])]
            }
            3..=5 => {
                let branch = rng.pick(&[Jrnz(short), Jrnc(short), Jrz(short), Jrc(short)]);
                vec![branch, NOP, LdiA(value)]
            }
            6..=8 => vec![Jrr { bit, address, displacement: long }, NOP],
            9..=11 => vec![Jrs { bit, address, displacement: long }, NOP],
            12 if self.mark >> 4 == 4 => vec![Ret],
            13 => vec![rng.pick(&[Stop, Wait]), jump],
            _ => vec![Ldi { address, value }, NOP],
        }
    }

    /// The displacement of a branch to any cell that it reaches.
    fn displacement(&self, rng: &mut Rng, index: usize, Reach { back, on, from }: Reach) -> i8 {
        let first = index.saturating_sub(back);
        let last = (index + on).min(self.cells.len() - 1);
        let target = self.cells[first + rng.below(last - first + 1)];
        (target as isize - self.cells[index] as isize - from) as i8
    }
}

/// The bytes of the instructions that stand in cells.
fn size(instruction: Instruction) -> u16 {
    match instruction {
        Jrr { .. } | Jrs { .. } | Ldi { .. } => 3,
        Jp(_) | Call(_) | LdiA(_) => 2,
        _ => 1,
    }
}
