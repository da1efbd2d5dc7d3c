//! The opcode map as the second emulator decodes it: forms, kinds of operand,
//! and which of them are read.

use second::boundary::{self, FIELDS, FORM_NAMES};
use second::chip::{X, Y};
use std::array::from_fn;

/// The forms that read a data operand.
const READING: [&str; 11] =
    ["JRR", "JRS", "RES", "SET", "LD-A", "INC", "DEC", "ADD", "SUB", "AND", "CP"];
/// The kinds of operand as fields have them; 0 is a data address that belongs
/// to the form, or none at all.
pub const KINDS: [&str; 5] = ["", " direct", " short", " (X)", " (Y)"];
pub const DIRECT: u8 = 1;
pub const SHORT: u8 = 2;
pub const BY_X: u8 = 3;
pub const BY_Y: u8 = 4;

/// A form and a kind of operand.
pub type Operation = [u8; 2];

/// By opcode; nothing where it is undefined.
pub fn operations() -> [Option<Operation>; 256] {
    let mut image = vec![0; 4096];
    from_fn(|opcode| {
        image[0] = opcode as u8;
        let mut fields = [0; FIELDS];
        let answer = boundary::decode(&image, 0, 0, &mut fields);
        (boundary::number(answer) == 0).then_some([fields[0], fields[1]])
    })
}

/// Each form of the map with each kind of operand that it has.
pub fn different_operations() -> Vec<Operation> {
    let mut all: Vec<Operation> = operations().into_iter().flatten().collect();
    all.sort_unstable();
    all.dedup();
    all
}

pub fn reads(form: &str) -> bool {
    READING.contains(&form)
}

/// Whether an operation reads an operand that may stand anywhere; a short one
/// is X, Y, V or W.
pub fn reads_anywhere(&[form, kind]: &Operation) -> bool {
    reads(FORM_NAMES[form as usize]) && kind != SHORT
}

/// The data address of an operand: by its kind, the field that has its address
/// or its register, and the data space.
pub fn operand_address(kind: u8, field: u8, data: &[u8]) -> u8 {
    match kind {
        SHORT => X + field,
        BY_X => data[X as usize],
        BY_Y => data[Y as usize],
        _ => field,
    }
}
