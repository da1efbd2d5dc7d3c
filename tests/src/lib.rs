//! A second implementation of the ST62 bench and its stack check, written
//! from the papers alone, and the means to compare it with the proved library.

pub mod boundary;
pub mod check;
pub mod chip;
pub mod gauge;
pub mod generate;
pub mod job;
#[macro_use]
pub mod library;
pub mod maker;
pub mod player;
pub mod record;
pub mod services;

#[cfg(feature = "mock")]
pub mod mock;
#[cfg(feature = "proved")]
pub mod play;
#[cfg(all(feature = "proved", not(feature = "mock")))]
pub mod proved;
#[cfg(feature = "proved")]
pub mod workload;

// The mock has the proved library's place.
#[cfg(feature = "mock")]
pub use mock as proved;

#[cfg(test)]
mod cases;

/// Why an operation was turned down, or where a step stopped. The numbers
/// are those of document 01, "What each operation turns down", and of the
/// requests of document 02.
#[derive(Clone, Copy, PartialEq, Eq, Debug)]
pub enum Refusal {
    ImageLength,
    IllFormed,
    AddressRange,
    OutsideRom(u16),
    Undefined(u16),
    StackFull(u16),
    StackEmpty(u16),
    Operand,
    Buffer,
    RomWindow,
    Request,
    TooManySteps,
    CertificateLength,
    Mark(u16),
    Placement(u16),
    Successor(u16),
    Need(u16),
    Vector(u16),
    TooManyLevels,
    JobShort,
    JobVersion,
    JobLength,
    NotAccepted,
    NoSleep,
    CertificateBuffer,
    NoCertificate,
    RecordVersion,
    RecordLength,
    RecordEntry,
    RecordTooLong,
}

impl Refusal {
    pub fn number(self) -> u8 {
        use Refusal::*;
        match self {
            ImageLength => 1,
            IllFormed => 2,
            AddressRange => 3,
            OutsideRom(_) => 4,
            Undefined(_) => 5,
            StackFull(_) => 6,
            StackEmpty(_) => 7,
            Operand => 8,
            Buffer => 9,
            RomWindow => 10,
            Request => 11,
            TooManySteps => 12,
            CertificateLength => 13,
            Mark(_) => 14,
            Placement(_) => 15,
            Successor(_) => 16,
            Need(_) => 17,
            Vector(_) => 18,
            TooManyLevels => 19,
            JobShort => 20,
            JobVersion => 21,
            JobLength => 22,
            NotAccepted => 23,
            NoSleep => 24,
            CertificateBuffer => 25,
            NoCertificate => 26,
            RecordVersion => 27,
            RecordLength => 28,
            RecordEntry => 29,
            RecordTooLong => 30,
        }
    }

    pub fn address(self) -> Option<u16> {
        use Refusal::*;
        match self {
            OutsideRom(a) | Undefined(a) | StackFull(a) | StackEmpty(a) | Mark(a)
            | Placement(a) | Successor(a) | Need(a) | Vector(a) => Some(a),
            _ => None,
        }
    }
}
