//! The manual's forms, and length and cycles by opcode.

/// A data operand.
#[derive(Clone, Copy, PartialEq, Eq, Debug)]
pub enum Operand {
    /// A data address in the instruction.
    Direct(u8),
    /// One of X, Y, V, W by number, 0 to 3.
    Short(u8),
    /// Through X.
    ByX,
    /// Through Y.
    ByY,
}

/// The manual's forms. Displacements of the four short jumps count from the
/// next address, those of JRR and JRS from the opcode plus 2.
#[derive(Clone, Copy, PartialEq, Eq, Debug)]
pub enum Instruction {
    Jrnz(i8),
    Jrnc(i8),
    Jrz(i8),
    Jrc(i8),
    Call(u16),
    Jp(u16),
    Jrr {
        bit: u8,
        address: u8,
        displacement: i8,
    },
    Jrs {
        bit: u8,
        address: u8,
        displacement: i8,
    },
    Res {
        bit: u8,
        address: u8,
    },
    Set {
        bit: u8,
        address: u8,
    },
    /// LD A,operand
    LdA(Operand),
    /// LD operand,A
    LdTo(Operand),
    LdiA(u8),
    Ldi {
        address: u8,
        value: u8,
    },
    Inc(Operand),
    Dec(Operand),
    Add(Operand),
    Addi(u8),
    Sub(Operand),
    Subi(u8),
    And(Operand),
    Andi(u8),
    Cp(Operand),
    Cpi(u8),
    Com,
    Rlc,
    Ret,
    Reti,
    Stop,
    Wait,
}

/// Length in bytes and cycles of one opcode; both 0 where it is undefined.
#[derive(Clone, Copy, PartialEq, Eq, Debug)]
pub struct Size {
    pub length: u8,
    pub cycles: u8,
}

/// Length and cycles by opcode.
pub const SIZES: [Size; 256] = {
    let mut table = [Size { length: 0, cycles: 0 }; 256];
    let mut opcode = 0;
    while opcode < 256 {
        table[opcode] = size_of(opcode as u8);
        opcode += 1;
    }
    table
};

const fn size_of(opcode: u8) -> Size {
    let (length, cycles) = match opcode & 0x0F {
        0x0 | 0x2 | 0x4 | 0x6 | 0x8 | 0xA | 0xC | 0xE => (1, 2),
        0x1 | 0x9 | 0xB => (2, 4),
        0x3 => (3, 5),
        _ => match opcode {
            0x05 | 0x25 | 0x45 | 0x65 | 0x85 | 0xA5 | 0xC5 | 0xE5 => (0, 0),
            0x77 | 0x97 | 0xF7 | 0x8D => (0, 0),
            0x17 | 0x37 | 0x57 | 0xB7 | 0xD7 => (2, 4),
            0x1F | 0x3F | 0x5F | 0x7F | 0x9F | 0xBF | 0xDF | 0xFF => (2, 4),
            0x0D => (3, 4),
            0x4D | 0x6D | 0xCD | 0xED => (1, 2),
            _ => (1, 4),
        },
    };
    Size { length, cycles }
}
