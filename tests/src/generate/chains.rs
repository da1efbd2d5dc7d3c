//! Programs that reach through the whole ROM: a certificate maker has most
//! to do with them. Nothing is wired, and the certificates are the least.

use super::{written, Program, Rng};
use crate::chip::{Instruction, RESET_VECTOR};
use Instruction::*;

/// How the links of a chain lie in ROM, from the first to the last.
#[derive(Clone, Copy, PartialEq, Eq, Debug)]
pub enum Order {
    Upward,
    Downward,
    /// From below and from above in turn.
    Zigzag,
    Random,
}

pub const ORDERS: [Order; 4] = [Order::Upward, Order::Downward, Order::Zigzag, Order::Random];

#[derive(Clone, Copy, PartialEq, Eq, Debug)]
pub struct Chains {
    /// The image's.
    pub length: usize,
    pub order: Order,
    /// How many subroutines there are, each called at the end of the one
    /// above it.
    pub depth: usize,
    /// Whether the lowest subroutine calls itself; there is then at least one.
    pub recursive: bool,
}

/// Code stays below the vectors.
const CODE_END: u16 = 0xFF0;
const NOP: Instruction = Jrz(0);
/// The bytes of JP, and of CALL.
const LINK: u16 = 2;
/// The bytes of a chain's end: CALL, then RET or JP.
const END: u16 = 4;

type Line = (u16, Instruction, u8);

/// A start-up and subroutines that are chains of JPs. With more than six
/// subroutines or a recursive one the certificate isn't accepted, and none is.
pub fn chains(rng: &mut Rng, wanted: Chains) -> Program {
    let Chains { length, order, depth, recursive } = wanted;
    let base = (0x1000 - length) as u16;
    let mut ends: Vec<u16> = (0..=depth as u16).map(|level| base + END * level).collect();
    let links = places(rng, base + END * ends.len() as u16, order);
    rng.shuffle(&mut ends);
    // A long recursion takes longest, so that it gets all the links.
    let parts = if recursive { depth } else { depth + 1 };
    let mut parts = links.rchunks(links.len() / parts).take(parts);
    let mut code = Vec::new();
    let mut below = None;
    for (level, &end) in ends.iter().enumerate() {
        let links = parts.next().unwrap_or(&[]);
        let start = *links.first().unwrap_or(&end);
        let call = if recursive && level == 0 { Some(start) } else { below };
        let mark = if level == depth { 0x10 } else { 0x40 } | level as u8;
        code.extend(chain(links, end, mark));
        code.extend(chain_end(end, call, mark));
        below = Some(start);
    }
    code.extend(below.map(|start| (RESET_VECTOR, Jp(start), 0x10 | depth as u8)));
    written(length, &code)
}

/// The places of links, from an address on.
fn places(rng: &mut Rng, from: u16, order: Order) -> Vec<u16> {
    let mut places: Vec<u16> = (from..CODE_END).step_by(LINK as usize).collect();
    match order {
        Order::Upward => {}
        Order::Downward => places.reverse(),
        Order::Random => rng.shuffle(&mut places),
        Order::Zigzag => {
            let (low, high) = places.split_at(places.len() / 2);
            let pairs = low.iter().zip(high.iter().rev());
            places = pairs.flat_map(|(&low, &high)| [low, high]).collect();
        }
    }
    places
}

/// Each link jumps to the next, and the last to the end.
fn chain(links: &[u16], end: u16, mark: u8) -> Vec<Line> {
    let targets = links.iter().skip(1).chain([&end]);
    links.iter().zip(targets).map(|(&link, &target)| (link, Jp(target), mark)).collect()
}

/// A CALL, if there is one, then RET, or in start-up a loop.
fn chain_end(end: u16, call: Option<u16>, mark: u8) -> Vec<Line> {
    let mut code: Vec<Line> = call.map(|target| (end, Call(target), mark)).into_iter().collect();
    let last = end + LINK * code.len() as u16;
    let kind = mark & 0xF0;
    code.push((last, if kind == 0x10 { Jp(last) } else { Ret }, kind));
    code
}

/// A start-up of NOPs.
pub fn straight(length: usize) -> Program {
    let base = (0x1000 - length) as u16;
    let mut code: Vec<Line> = (base..RESET_VECTOR).map(|address| (address, NOP, 0x10)).collect();
    code.push((RESET_VECTOR, Jp(base), 0x10));
    written(length, &code)
}

/// A subroutine of one-byte instructions that calls itself at its end. It has
/// no certificate, and none is accepted.
pub fn long_recursion(length: usize, step: Instruction) -> Program {
    let base = (0x1000 - length) as u16;
    let (subroutine, end) = (base + END, CODE_END - END);
    let mut code = chain_end(base, Some(subroutine), 0x10);
    code.push((subroutine, NOP, 0));
    code.extend((subroutine + 1..end).map(|address| (address, step, 0)));
    code.extend(chain_end(end, Some(subroutine), 0x40));
    code.push((RESET_VECTOR, Jp(base), 0));
    written(length, &code)
}

/// A start-up that calls the same subroutine all the time, which calls
/// another, six in all.
pub fn repeated_calls(length: usize) -> Program {
    let base = (0x1000 - length) as u16;
    let ends: Vec<u16> = (0..6).map(|level| base + END * level).collect();
    let mut code = Vec::new();
    let mut below = None;
    for (&end, mark) in ends.iter().zip(0x40..) {
        code.extend(chain_end(end, below, mark));
        below = Some(end);
    }
    let start = base + END * ends.len() as u16;
    let last = CODE_END - LINK;
    let calls = (start..last).step_by(LINK as usize);
    code.extend(calls.zip(below.into_iter().cycle()).map(|(at, to)| (at, Call(to), 0x16)));
    code.push((last, Jp(start), 0x16));
    code.push((RESET_VECTOR, Jp(start), 0x16));
    written(length, &code)
}

/// A subroutine of nothing but CALLs of itself. It has no certificate.
pub fn repeated_recursion(length: usize) -> Program {
    let base = (0x1000 - length) as u16;
    let (subroutine, last) = (base + END, CODE_END - LINK);
    let mut code = chain_end(base, Some(subroutine), 0x10);
    let calls = (subroutine..last).step_by(LINK as usize);
    code.extend(calls.map(|at| (at, Call(subroutine), 0x40)));
    code.push((last, Ret, 0x40));
    code.push((RESET_VECTOR, Jp(base), 0x10));
    written(length, &code)
}
