//! The gauge (document 02, W-201): the width that a sizing program gives for
//! a slide count.

use crate::check::check;
use crate::chip::{Machine, HALF, MOST_STEPS};
use crate::Refusal;

/// Where a program finds the slide count.
pub const COUNT: u8 = 0xC0;
/// Where it leaves the width, the high byte first.
pub const WIDTH: [u8; 2] = [0x84, 0x85];

const NOTHING_WIRED: u8 = 0;
/// The gauge takes no images with more than one page.
const LONGEST: usize = 2 * HALF;

/// A width in tenths of a millimetre, and the steps it took. The step that
/// falls asleep is one of them.
#[derive(Clone, Copy, PartialEq, Eq, Debug)]
pub struct Gauged {
    pub width: u16,
    pub steps: u16,
}

/// Runs an accepted program from a fresh machine until it sleeps.
pub fn gauge(image: &[u8], certificate: &[u8], count: u8) -> Result<Gauged, Refusal> {
    if image.len() > LONGEST || check(image, certificate, NOTHING_WIRED).is_err() {
        return Err(Refusal::NotAccepted);
    }
    let mut machine = Machine::default();
    machine.host_store(COUNT, count).expect("a fresh machine, outside the window");
    let slept = machine.run_to_sleep(image, MOST_STEPS).expect("accepted programs never stop");
    let steps = slept.ok_or(Refusal::NoSleep)?;
    let width = u16::from_be_bytes(WIDTH.map(|address| machine.data[address as usize]));
    Ok(Gauged { width, steps: steps as u16 })
}
