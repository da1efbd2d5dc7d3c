//! Counts what the gauge answered.

use crate::counts::listed;
use second::boundary;
use second::chip::MOST_STEPS;

/// What `width` answers: done, count beyond its byte, refused, no sleep.
const ANSWERS: [usize; 4] = [0, 8, 23, 24];
/// The check's numbers with nothing wired. 11 is the wired byte's, and the
/// need at FFEh alone is never above six, so 19 isn't among them either.
const REFUSED_BY: [usize; 9] = [1, 4, 5, 13, 14, 15, 16, 17, 18];

pub struct WidthCounts {
    /// By number.
    answers: [u64; 256],
    /// Answers of 23, by the number of the check.
    refused_by: [u64; 256],
    /// Answers of 0, by the steps.
    steps: Vec<u64>,
    /// How many were also played with the other functions.
    pub played: u64,
}

impl WidthCounts {
    pub fn new() -> Self {
        let steps = vec![0; MOST_STEPS as usize + 1];
        WidthCounts { answers: [0; 256], refused_by: [0; 256], steps, played: 0 }
    }

    pub fn add(&mut self, image: &[u8], certificate: &[u8], answer: u64) {
        let number = boundary::number(answer);
        self.answers[number as usize] += 1;
        match number {
            0 => self.steps[boundary::gauged(answer).steps as usize] += 1,
            23 => {
                let check = boundary::check(image, certificate, 0);
                self.refused_by[boundary::number(check) as usize] += 1;
            }
            _ => {}
        }
    }

    pub fn print(&self) {
        let total: u64 = self.steps.iter().zip(0..).map(|(&count, steps)| count * steps).sum();
        let different = self.steps.iter().filter(|&&count| count > 0).count();
        let (first, last) = (self.steps[1], self.steps[MOST_STEPS as usize]);
        println!("steps in widths {total}, different numbers of them {different}");
        println!("asleep after the first step {first}, after the last one allowed {last}");
        println!("widths refused, by the check's number{}", listed(&self.refused_by));
        println!("widths also played with the other functions {}", self.played);
    }

    pub fn print_not_met(&self) {
        let missing = |wanted: &[usize], counts: &[u64]| -> Vec<usize> {
            wanted.iter().copied().filter(|&number| counts[number] == 0).collect()
        };
        let edges = [1, 2, MOST_STEPS as usize - 1, MOST_STEPS as usize];
        for (what, missing) in [
            ("answers of width", missing(&ANSWERS, &self.answers)),
            ("check's numbers behind 23", missing(&REFUSED_BY, &self.refused_by)),
            ("steps of a width", missing(&edges, &self.steps)),
        ] {
            if !missing.is_empty() {
                println!("NOT MET: {what} {missing:?}");
            }
        }
    }
}
