//! Runs that keep what they have decoded, each at a place found by page and
//! address, with the fault; and runs that see the wrong page or flags after a
//! change.

use super::bank::{bank, but_for_code, seen, HALF, SPACE};
use super::fault;
use super::traces::{MODE, NORMAL, NORMAL_PAIR, PC};
use crate::boundary::{self, STATE};

/// The places of long runs, and of those shorter than 128 steps.
const PLACES: usize = 4096;
const FEW_PLACES: usize = 64;

/// What a run has seen so far.
pub(super) struct Turns {
    /// The page and the address of what is kept at each place.
    places: Vec<Option<(u8, usize)>>,
    /// The bank byte at the start of the run, and that of the page in place.
    first: u8,
    in_place: u8,
    /// Bank bytes that the run had before.
    left: Vec<u8>,
    /// The state before the step.
    before: Vec<u8>,
    /// The mode that the last step left by the way that the fault is about.
    mode_left: Option<u8>,
}

impl Turns {
    /// Of a run of so many steps, if the fault is one of these.
    pub fn new(state: &[u8], n: u32) -> Option<Self> {
        let named = fault().is_some_and(|name| name.starts_with("turn-"));
        named.then(|| Turns::with(state, if n < 128 { FEW_PLACES } else { PLACES }))
    }

    fn with(state: &[u8], places: usize) -> Self {
        let (places, first, before) = (vec![None; places], bank(state), state.to_vec());
        Turns { places, first, in_place: first, left: vec![], before, mode_left: None }
    }

    /// What a step sees: an image without pages.
    pub fn shown(&mut self, image: &[u8], state: &[u8]) -> Vec<u8> {
        let (last, now) = (bank(&self.before), bank(state));
        if last != now {
            self.left.push(last);
        }
        let pages = (image.len() / HALF - 1).max(1) as u8;
        self.in_place = match fault() {
            Some("turn-back") if self.left.contains(&now) => self.in_place,
            Some("turn-service") if self.same_service(state) => self.in_place,
            Some("turn-alias") if last != now && last % pages == now % pages => now ^ 1,
            _ => now,
        };
        let pc = u16::from_le_bytes([state[PC], state[PC + 1]]) as usize;
        self.before.copy_from_slice(state);
        let seen_now = seen(image, self.in_place);
        if fault() == Some("turn-window") && seen_now.len() == SPACE {
            return but_for_code(&seen_now, pc, &seen(image, self.first)).into_owned();
        }
        let page = self.in_place % pages;
        let mut shown = self.kept(image, seen_now.into_owned(), (page, pc));
        if fault() == Some("turn-empty") && (page, pc) == (0, 0) && shown.len() == SPACE {
            shown[..3].fill(0);
        }
        shown
    }

    /// Whether the mode is that before the last step, and not the normal one.
    fn same_service(&self, state: &[u8]) -> bool {
        state[MODE] == self.before[MODE] && state[MODE] != NORMAL
    }

    /// What is seen, with the code that is kept at the place of the one at PC.
    fn kept(&mut self, image: &[u8], mut shown: Vec<u8>, (page, pc): (u8, usize)) -> Vec<u8> {
        let (count, fixed) = (self.places.len(), pc >= HALF);
        // By the rule no two pages share a place at the same address.
        let turned = match fault() {
            Some("turn-bank") => 0,
            Some("turn-fixed") if fixed => 0,
            _ => 397 * page as usize,
        };
        let place = &mut self.places[(pc + turned) % count];
        let taken = place.filter(|&(kept_page, kept_pc)| match fault() {
            Some("turn-bank") => kept_pc == pc,
            Some("turn-fixed") => fixed && kept_pc == pc,
            Some("turn-address") => kept_page == page,
            Some("turn-place") => count == PLACES,
            Some("turn-place-few") => count == FEW_PLACES,
            Some("width-place-few") => true,
            _ => false,
        });
        let (kept_page, kept_pc) = *place.insert(taken.unwrap_or((page, pc)));
        let (code, base) = (seen(image, kept_page), SPACE - shown.len());
        for offset in 0..3 {
            let [from, to] = [kept_pc, pc].map(|pc| ((pc + offset) % SPACE).wrapping_sub(base));
            if let (Some(&byte), Some(place)) = (code.get(from), shown.get_mut(to)) {
                *place = byte;
            }
        }
        shown
    }

    /// Puts the flags of the first step in another mode where those of the mode
    /// before are.
    pub fn after_step(&mut self, state: &mut [u8], cycles: u32) {
        let pair = |mode: u8| NORMAL_PAIR.start + 2 * [2, 0, 1, 2, 2][mode as usize];
        let (before, now) = (self.before[MODE], state[MODE]);
        if let Some(left) = self.mode_left.take().filter(|_| before == now) {
            let (from, to) = (pair(now), pair(left));
            state.copy_within(from..from + 2, to);
            state[from..from + 2].copy_from_slice(&self.before[from..from + 2]);
        }
        let taken = cycles == 1;
        let about = match fault() {
            Some("turn-pair") => !taken,
            Some("turn-pair-taken") => taken,
            _ => false,
        };
        self.mode_left = (about && before != now).then_some(before);
    }
}

/// The width after so many steps of a gauge that takes whatever is kept at one
/// of the few places. Of the many, one page shares none.
pub(super) fn width(image: &[u8], count: u8, steps: u16) -> u16 {
    let mut state = [0; STATE];
    boundary::reset(&mut state);
    state[0xC0] = count;
    let mut turns = Turns::with(&state, FEW_PLACES);
    for _ in 0..steps {
        let shown = turns.shown(image, &state);
        boundary::step(&shown, &mut state, 0);
    }
    u16::from_be_bytes([state[0x84], state[0x85]])
}

/// The request of a step of a run of so many.
pub(super) fn requested(requests: &[u8], step: u32, n: u32) -> u8 {
    let index = match fault() {
        Some("turn-list") if n < 80 && step >= 64 => step - 64,
        Some("turn-list-80") if n >= 80 && step >= 4096 => step - 1,
        _ => step,
    };
    requests.get(index as usize).copied().unwrap_or(0)
}

/// The cycles of a run of so many steps.
pub(super) fn cycles(cycles: u32, n: u32) -> u32 {
    match fault() {
        Some("turn-80") if n == 80 => cycles + 1,
        Some("turn-64") if n == 64 => cycles.saturating_sub(2),
        _ => cycles,
    }
}
