//! Random inputs: machines, requests, images, and structured programs with
//! their certificates.

mod chains;
mod graph;
mod machine;
mod marked;
mod maze;
mod paged;
mod program;
mod record;
mod rng;
mod routine;
mod serviced;
mod sizing;
mod tangle;
mod timed;
mod turning;

pub use chains::{
    chains, long_recursion, repeated_calls, repeated_recursion, straight, Chains, Order, ORDERS,
};
pub use graph::call_graph;
pub use machine::{ill_formed, machine, request, requests, spoil};
pub use marked::{dense, laid_out, p11, placed, round_the_end, sparse, written};
pub use maze::maze;
pub use paged::{misplaced, paged_graph, paged_program, place};
pub use program::{program, write_only_program};
pub use record::{damage_record, entries, long_length, mix, Mix};
pub use rng::{Rng, EDGES};
pub use serviced::serviced;
pub use sizing::sizing;
pub use tangle::{tangle, Tangle};
pub use timed::{soonest, timed};
pub use turning::{
    kept_at, over_seams, sizing_visits, staying, turning, visiting, visits, Sharing, Visit,
    FEW_PLACES, PLACES, TURNS,
};

use crate::chip::{HALF, MOST_HALVES, SPACE};

/// An image with a certificate and the sources that are wired.
#[derive(Clone)]
pub struct Program {
    pub image: Vec<u8>,
    pub certificate: Vec<u8>,
    pub wired: u8,
}

/// Of an image without a page, or with one.
pub fn image_length(rng: &mut Rng) -> usize {
    if rng.chance(50) {
        2048
    } else {
        4096
    }
}

/// Of an image with two pages or more.
pub fn paged_length(rng: &mut Rng) -> usize {
    HALF * (3 + rng.below(MOST_HALVES - 2))
}

/// Of any image.
pub fn any_length(rng: &mut Rng) -> usize {
    if rng.chance(60) {
        image_length(rng)
    } else {
        paged_length(rng)
    }
}

/// How many marks go with an image of a length.
pub fn marks(length: usize) -> usize {
    length.min(SPACE as usize)
}

pub fn random_image(rng: &mut Rng) -> Vec<u8> {
    let length = any_length(rng);
    filled(rng, length)
}

/// Random bytes.
pub fn filled(rng: &mut Rng, length: usize) -> Vec<u8> {
    let mut bytes = vec![0; length];
    rng.fill(&mut bytes);
    bytes
}

/// A 2K image of 00h with bytes at some addresses.
pub fn coded(code: &[(usize, &[u8])]) -> Vec<u8> {
    let mut image = vec![0; 2048];
    for (address, bytes) in code {
        image[address - 0x800..][..bytes.len()].copy_from_slice(bytes);
    }
    image
}

impl Program {
    /// The index of its image's byte for a mark's, with a page in place: any
    /// number, if it has none.
    pub fn index(&self, page: usize, mark: usize) -> usize {
        let length = self.image.len();
        place(length, page, mark + SPACE as usize - marks(length))
    }

    /// How many pages it has; one, if it has none.
    pub fn pages(&self) -> usize {
        (self.image.len() / HALF - 1).max(1)
    }

    /// The indices of its marks.
    pub fn marked(&self) -> Vec<usize> {
        let marks = self.certificate.iter().enumerate();
        marks.filter(|(_, &mark)| mark != 0).map(|(index, _)| index).collect()
    }
}

/// Changes one thing of a program: a mark, an image byte or the wired byte.
pub fn damage(rng: &mut Rng, program: &mut Program) {
    let length = program.certificate.len();
    let marked = program.marked();
    let index =
        if marked.is_empty() || rng.chance(15) { rng.below(length) } else { rng.pick(&marked) };
    let place = program.index(rng.below(program.pages()), index);
    match rng.below(12) {
        0 | 1 => program.certificate[index] = 0,
        2 | 3 => program.certificate[index] ^= 1 << rng.below(8),
        4 => program.certificate[index] = program.certificate[index].wrapping_sub(1),
        5 => {
            let mark = &mut program.certificate[index];
            *mark = *mark & 0xF0 | rng.below(16) as u8;
        }
        6 => {
            let mark = &mut program.certificate[index];
            *mark = *mark & 0x0F | (rng.below(6) as u8) << 4;
        }
        7 => program.certificate[index] = rng.byte(),
        8 => program.image[place] = rng.byte(),
        9 => program.image[place] = rng.pick(&[0xCD, 0x4D, 0x05, 0x09, 0x01, 0x77]),
        10 => program.wired = rng.byte() & 0x1F,
        _ => program.wired ^= 1 << rng.below(8),
    }
}
