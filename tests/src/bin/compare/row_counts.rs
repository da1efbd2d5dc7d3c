//! Counts where the steps in rows of records ended.

use crate::play_counts::{named, not_met};
use crate::rows::{ENDS, SHORT_ROW};
use second::boundary;
use second::play::{report, Outcome};
use second::record::{read, Entry, VERSION_2};

/// How many steps came before the end of a long row.
const LONG: [usize; 7] = [4094, 4095, 4096, 4097, 8190, 8191, 8192];
const LONG_NAMES: [&str; LONG.len()] = ["4094", "4095", "4096", "4097", "8190", "8191", "8192"];
/// What a row that was played whole ends at.
const CUTS: [&str; 3] = ["a store", "a reset", "the record's end"];
const VERSIONS: usize = 2;

#[derive(Clone)]
struct EndCounts {
    /// By steps before and after the end.
    short: Vec<[u64; SHORT_ROW]>,
    long: [u64; LONG.len()],
}

pub struct RowCounts {
    /// By version and number.
    ends: [Vec<EndCounts>; VERSIONS],
    cuts: [u64; CUTS.len()],
}

impl RowCounts {
    pub fn new() -> Self {
        let none = EndCounts { short: vec![[0; SHORT_ROW]; SHORT_ROW], long: [0; LONG.len()] };
        RowCounts { ends: [(); VERSIONS].map(|()| vec![none.clone(); ENDS.len()]), cuts: [0; 3] }
    }

    /// Counts a record that was played, by the second emulator's outcome.
    pub fn add(&mut self, record: &[u8], outcome: &Outcome) {
        let entries = read(record).expect("it was played");
        let (played, rest) = entries.split_at(report(outcome).0 as usize);
        let number = boundary::number(outcome.answer);
        if let Some(end) = ENDS.iter().position(|&end| end == number) {
            let before = steps(played.iter().rev());
            let after = steps(rest[1..].iter());
            let version = (record[0] == VERSION_2) as usize;
            self.ends[version][end].add(before, after);
        }
        for (index, entry) in played.iter().enumerate().skip(1) {
            let cut = matches!(played[index - 1], Entry::Step { .. });
            match entry {
                Entry::Step { .. } => {}
                Entry::Store { .. } => self.cuts[0] += cut as u64,
                Entry::Reset => self.cuts[1] += cut as u64,
            }
        }
        let last = matches!(played.last(), Some(Entry::Step { .. }));
        self.cuts[2] += (rest.is_empty() && last) as u64;
    }

    pub fn print(&self) {
        println!("rows of steps played whole, by what they end at: {}", named(&CUTS, &self.cuts));
        for (version, ends) in (1..).zip(&self.ends) {
            println!("rows of version {version} that an entry ended, by its number:");
            for (number, counts) in ENDS.iter().zip(ends) {
                let met = counts.short.iter().flatten().filter(|&&count| count > 0).count();
                let long = named(&LONG_NAMES, &counts.long);
                println!("  {number:2} {met} places of short rows; steps before: {long}");
            }
        }
    }

    pub fn print_not_met(&self) {
        let mut missing = not_met("rows before", &CUTS, &self.cuts);
        for (version, ends) in (1..).zip(&self.ends) {
            for (&number, counts) in ENDS.iter().zip(ends) {
                let title = format!("version {version} ended by {number} after");
                missing.extend(counts.not_met(version, number, &title));
            }
        }
        if !missing.is_empty() {
            println!("NOT MET: rows: {}", missing.join(", "));
        }
    }
}

impl EndCounts {
    fn add(&mut self, before: usize, after: usize) {
        if before + after < SHORT_ROW {
            self.short[before][after] += 1;
        }
        if let Some(long) = LONG.iter().position(|&long| long == before) {
            self.long[long] += 1;
        }
    }

    /// In version 1 every place of every short row is to be met; in version 2,
    /// where records are long, every number of steps before.
    fn not_met(&self, version: usize, number: u8, title: &str) -> Vec<String> {
        // Six levels take six steps.
        let from = if number == 6 { 6 } else { 0 };
        let met = |before: usize| {
            let after = &self.short[before][..SHORT_ROW - before];
            if version == 1 {
                !after.contains(&0)
            } else {
                after.iter().any(|&count| count > 0)
            }
        };
        let short = (from..SHORT_ROW).filter(|&before| !met(before));
        let mut missing: Vec<String> = short.map(|before| format!("{title} {before}")).collect();
        // A service can return, so that no long row ends with 7.
        if number != 7 {
            missing.extend(not_met(title, &LONG_NAMES, &self.long));
        }
        missing
    }
}

/// How many steps come first among entries, that aren't refused.
fn steps<'a>(entries: impl Iterator<Item = &'a Entry>) -> usize {
    entries.take_while(|entry| matches!(entry, Entry::Step { request } if *request < 32)).count()
}
