//! The player (document 02, W-206): a record, played from a fresh machine.

use crate::chip::{Machine, Rom};
use crate::record::{read, Entry, Fault};
use crate::Refusal;

/// What a playing gave.
#[derive(Clone, PartialEq, Eq, Debug)]
pub struct Played {
    /// After the entries that were played.
    pub machine: Machine,
    /// How many they were; so also the number, from 0, of one that ended the
    /// playing.
    pub entries: u32,
    pub cycles: u32,
    /// The refusal or stop of the entry that ended it, if any did.
    pub end: Option<Refusal>,
}

/// Plays a record with a lent image.
pub fn play(image: &[u8], record: &[u8]) -> Result<Played, Refusal> {
    Rom::new(image)?;
    let entries = read(record).map_err(Fault::refusal)?;
    let mut played = Played { machine: Machine::default(), entries: 0, cycles: 0, end: None };
    for entry in entries {
        match play_entry(&mut played.machine, image, entry) {
            Ok(cycles) => played.cycles += cycles,
            Err(refusal) => {
                played.end = Some(refusal);
                break;
            }
        }
        played.entries += 1;
    }
    Ok(played)
}

/// Gives the cycles, which only steps have. A refusal or stop leaves the
/// machine as it was.
fn play_entry(machine: &mut Machine, image: &[u8], entry: Entry) -> Result<u32, Refusal> {
    match entry {
        Entry::Step { request } => machine.step(image, request),
        Entry::Store { address, value } => machine.host_store(address, value).map(|()| 0),
        Entry::Reset => {
            machine.reset();
            Ok(0)
        }
    }
}
