//! Images with pages in another way than the second emulator's: the page in
//! place and the fixed half are put together, and that is an image without
//! any choice.

use super::{fault, faulty};
use crate::boundary;
use std::borrow::Cow;

pub(super) const HALF: usize = 2048;
pub(super) const SPACE: usize = 4096;
const BANK: usize = 0xCA;

/// The bank byte of a state, if it has one.
pub(super) fn bank(state: &[u8]) -> u8 {
    state.get(BANK).copied().unwrap_or(0)
}

/// How many halves an image has, if it may have so many bytes.
pub(super) fn halves(image: &[u8]) -> Option<usize> {
    let halves = image.len() / HALF;
    let whole = image.len().is_multiple_of(HALF);
    let good = match fault() {
        Some("bank-ragged") => (1..=10).contains(&halves) && (whole || halves > 2),
        Some("bank-11") => whole && (1..=11).contains(&halves),
        Some("bank-10") => whole && (1..=9).contains(&halves),
        Some("bank-odd") => whole && matches!(halves, 1 | 2 | 4 | 6 | 8 | 10),
        _ => whole && (1..=10).contains(&halves),
    };
    good.then_some(halves)
}

/// The number of the page that a bank byte picks.
fn page(halves: usize, bank: u8) -> usize {
    let (pages, bank) = (halves - 1, bank as usize);
    match fault() {
        Some("bank-halves") => bank % halves,
        Some("bank-nibble") => (bank & 0x0F) % pages,
        Some("bank-signed") => (bank & 0x7F) % pages,
        Some("bank-clamp") => bank.min(pages - 1),
        Some("bank-from-1") => (bank + 1) % pages,
        Some("bank-power") => (bank % pages.next_power_of_two()) % pages,
        Some("bank-first") => 0,
        _ => bank % pages,
    }
}

/// What is seen with a bank byte: 2K or 4K. An image of another length is
/// seen as it is, and refused as it is.
pub(super) fn seen(image: &[u8], bank: u8) -> Cow<'_, [u8]> {
    let Some(halves) = halves(image) else { return unpaged(image) };
    let half = |number: usize| &image[HALF * number..][..HALF];
    match halves {
        1 if faulty("bank-2k") && bank != 0 => [image, image].concat().into(),
        2 if faulty("bank-4k") && bank != 0 => image[HALF..].into(),
        1 | 2 => image.into(),
        _ if faulty("bank-fixed-0") => [half(1 + page(halves, bank)), half(0)].concat().into(),
        _ => [half(page(halves, bank)), half(halves - 1)].concat().into(),
    }
}

/// An image that is refused: never of 2K or 4K, or a fault that refuses it
/// wouldn't show.
fn unpaged(image: &[u8]) -> Cow<'_, [u8]> {
    if matches!(image.len(), 2048..=20480) {
        Cow::Borrowed(&image[..HALF - 1])
    } else {
        image.into()
    }
}

/// Each thing that is seen, the first page first.
pub(super) fn each_seen(image: &[u8]) -> Vec<Cow<'_, [u8]>> {
    let pages = halves(image).map_or(1, |halves| halves.max(2) - 1);
    (0..pages).map(|page| seen(image, page as u8)).collect()
}

/// What a step sees: with a fault other bytes after the seams, or in the
/// window.
pub(super) fn seen_by_step<'a>(image: &'a [u8], state: &[u8], bank: u8) -> Cow<'a, [u8]> {
    let mut seen = seen(image, bank);
    let paged = halves(image).is_some_and(|halves| halves > 2);
    let Some(name) = fault().filter(|_| paged && state.len() == boundary::STATE) else {
        return seen;
    };
    let pc = u16::from_le_bytes([state[256], state[257]]) as usize;
    let next = HALF * (page(image.len() / HALF, bank) + 1);
    match (name, pc) {
        ("bank-7ff", 0x7FE | 0x7FF) => {
            seen.to_mut()[HALF..HALF + 2].copy_from_slice(&image[next..next + 2]);
        }
        ("bank-7ff-wrap", 0x7FE | 0x7FF) => seen.to_mut().copy_within(0..2, HALF),
        ("bank-fff", 0xFFE | 0xFFF) => seen.to_mut()[..2].copy_from_slice(&image[..2]),
        ("bank-window-0", 0..SPACE) => return but_for_code(&seen, pc, &self::seen(image, 0)),
        ("bank-window-raw", 0..SPACE) => return but_for_code(&seen, pc, &image[..SPACE]),
        _ => {}
    }
    seen
}

/// What is shown in the window, but with the bytes at PC that are fetched.
pub(super) fn but_for_code(seen: &[u8], pc: usize, shown: &[u8]) -> Cow<'static, [u8]> {
    let mut all = shown.to_vec();
    for address in (pc..pc + 3).map(|address| address % SPACE) {
        all[address] = seen[address];
    }
    all.into()
}

/// The answer of a step or a read of an image, with the index of the byte in
/// place of its ROM address, if that is the fault.
pub(super) fn told_by_index(image: &[u8], bank: u8, answer: u64) -> u64 {
    let Some(halves) = halves(image).filter(|&halves| halves > 2) else { return answer };
    let address = boundary::rom_address(answer) as usize;
    if !faulty("bank-origin") || boundary::origin(answer) != 3 {
        return answer;
    }
    let half = if address < HALF { page(halves, bank) } else { halves - 2 };
    answer + (((half * HALF) as u64) << 40)
}
