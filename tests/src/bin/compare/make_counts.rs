//! Counts what the certificate maker answered.

use second::boundary;
use second::maker::{reason, REASONS};

/// What `make` answers: done, or one of its refusals.
const ANSWERS: [usize; 5] = [0, 1, 11, 25, 26];

pub struct MakeCounts {
    /// By number.
    answers: [u64; 256],
    /// Answers of 0, by the levels.
    levels: [u64; 7],
    /// Answers of 26, by the reason that the second emulator has.
    reasons: [u64; REASONS.len()],
    /// Made certificates that were tried with one need or mark less, and how
    /// often.
    pub tried: u64,
    pub less: u64,
    /// Made certificates that were held against a program's own.
    pub own: u64,
}

impl MakeCounts {
    pub fn new() -> Self {
        let reasons = [0; REASONS.len()];
        MakeCounts { answers: [0; 256], levels: [0; 7], reasons, tried: 0, less: 0, own: 0 }
    }

    pub fn add(&mut self, image: &[u8], wired: u32, answer: u64) {
        let number = boundary::number(answer);
        self.answers[number as usize] += 1;
        match number {
            0 => self.levels[boundary::value(answer) as usize] += 1,
            26 => {
                let reason = reason(image, wired as u8).expect("it has a reason");
                self.reasons[reason as usize] += 1;
            }
            _ => {}
        }
    }

    pub fn print(&self) {
        println!("made by levels 0 to 6 {:?}", self.levels);
        let counted = REASONS.iter().zip(&self.reasons);
        let listed: Vec<String> =
            counted.map(|((_, name), count)| format!("{name} {count}")).collect();
        println!("makes refused with 26: {}", listed.join(", "));
        let MakeCounts { tried, less, own, .. } = self;
        println!("made ones tried with one need or mark less {tried}, {less} times, all refused");
        println!("made ones held against a program's own certificate {own}");
    }

    pub fn print_not_met(&self) {
        let missing = |wanted: &mut dyn Iterator<Item = usize>, counts: &[u64]| -> Vec<usize> {
            wanted.filter(|&number| counts[number] == 0).collect()
        };
        for (what, missing) in [
            ("answers of make", missing(&mut ANSWERS.into_iter(), &self.answers)),
            ("levels of a made certificate", missing(&mut (0..7), &self.levels)),
            ("reasons behind 26", missing(&mut (0..REASONS.len()), &self.reasons)),
        ] {
            if !missing.is_empty() {
                println!("NOT MET: {what} {missing:?}");
            }
        }
    }
}
