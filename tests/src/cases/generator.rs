//! What the generator makes.

use super::*;
use crate::check::check;
use crate::chip::Instruction::Jrz;
use crate::chip::{BANK, IOR, MOST_HALVES, RESET_VECTOR, X, Y};
use crate::gauge::gauge;
use crate::generate::*;
use crate::maker::{reason, Reason};
use crate::Refusal::*;

#[test]
fn generated_programs_are_accepted() {
    for generator in [program, write_only_program] {
        let mut rng = Rng::new(7);
        let mut seen = [0; 8];
        for _ in 0..2000 {
            let p = generator(&mut rng);
            match check(&p.image, &p.certificate, p.wired) {
                Ok(levels) => seen[levels as usize] += 1,
                Err(TooManyLevels) => seen[7] += 1,
                Err(other) => panic!("{other:?}"),
            }
        }
        assert!(seen.iter().all(|&count| count > 0), "{seen:?}");
    }
}

#[test]
fn marked_throughout_and_sparsely() {
    let mut rng = Rng::new(7);
    for length in [2048, 4096] {
        for _ in 0..200 {
            let p = dense(&mut rng, length);
            assert!(p.certificate.iter().all(|&mark| mark != 0));
            check(&p.image, &p.certificate, p.wired).unwrap();
            let p = sparse(&mut rng, length);
            assert_eq!(p.certificate.iter().filter(|&&mark| mark != 0).count(), 6);
            assert_eq!(check(&p.image, &p.certificate, p.wired), Ok(2));
        }
    }
    let p = crate::generate::p11(2048);
    assert_eq!((p.image, p.certificate), super::p11());
}

/// Those that sleep use the count, and some never do.
#[test]
fn sizing_programs_are_accepted() {
    let mut rng = Rng::new(7);
    let (mut asleep, mut awake, mut by_count) = (0, 0, 0);
    for _ in 0..2000 {
        let p = sizing(&mut rng);
        assert_eq!((check(&p.image, &p.certificate, 0).err(), p.wired), (None, 0));
        let answers = [1, 100, 254].map(|count| gauge(&p.image, &p.certificate, count));
        by_count += (answers[0] != answers[1] || answers[1] != answers[2]) as u32;
        for answer in answers {
            match answer {
                Ok(_) => asleep += 1,
                Err(refusal) => {
                    assert_eq!(refusal, NoSleep);
                    awake += 1;
                }
            }
        }
    }
    assert!(asleep > 3000 && awake > 100 && by_count > 1000, "{asleep} {awake} {by_count}");
}

/// Chains have their certificate unless they are too deep or recursive.
#[test]
fn chains_by_order_and_depth() {
    let mut rng = Rng::new(7);
    for length in [2048, 4096] {
        for order in ORDERS {
            for (depth, recursive) in (0..9).map(|n| (n, false)).chain([(1, true), (5, true)]) {
                let p = chains(&mut rng, Chains { length, order, depth, recursive });
                let levels = check(&p.image, &p.certificate, p.wired).ok();
                assert_eq!(levels, (depth <= 6 && !recursive).then_some(depth as u8));
                let unmarked = p.certificate.iter().filter(|&&mark| mark == 0).count();
                assert!(unmarked < length / 2 + 100, "{order:?} {depth}: {unmarked} unmarked");
            }
        }
        let p = straight(length);
        assert_eq!(check(&p.image, &p.certificate, p.wired), Ok(0));
        let p = repeated_calls(length);
        assert_eq!(check(&p.image, &p.certificate, p.wired), Ok(6));
        for step in [Jrz(0), Jrz(-2)] {
            let p = long_recursion(length, step);
            assert_eq!(reason(&p.image, p.wired), Some(Reason::Need));
        }
    }
}

/// Mazes are accepted unless they call themselves; call graphs have a
/// certificate, or none, for all reasons of calls.
#[test]
fn mazes_and_call_graphs() {
    let mut rng = Rng::new(7);
    let mut refused = 0;
    for length in [2048, 4096] {
        for _ in 0..200 {
            let p = maze(&mut rng, length, false);
            check(&p.image, &p.certificate, p.wired).unwrap();
            let p = maze(&mut rng, length, true);
            refused += (reason(&p.image, p.wired) == Some(Reason::Need)) as u32;
        }
    }
    assert!(refused > 200, "{refused}");
    let mut reasons = [0; 7];
    for _ in 0..2000 {
        let p = call_graph(&mut rng);
        reasons[reason(&p.image, p.wired).map_or(6, |reason| reason as usize)] += 1;
    }
    let [undefined, outside, kinds, misplaced, need, levels, none] = reasons;
    assert_eq!([undefined, outside, kinds, misplaced], [0; 4]);
    assert!(need > 100 && levels > 50 && none > 1000, "{reasons:?}");
}

/// Demand 3, tried out: no stop, and no more levels than the check says.
#[test]
fn accepted_programs_never_stop() {
    let mut rng = Rng::new(8);
    for round in 0..600 {
        let generator = if round % 2 == 0 { program } else { write_only_program };
        let p = generator(&mut rng);
        let Ok(levels) = check(&p.image, &p.certificate, p.wired) else { continue };
        let mut m = Machine::default();
        for _ in 0..3000 {
            let request = rng.byte() & p.wired & if rng.chance(20) { 0xFF } else { 0 };
            m.step(&p.image, request).unwrap();
            assert!(m.levels <= levels);
        }
    }
}

/// They run on with any requests, and change the page by their form.
#[test]
fn loops_that_turn_pages_never_end() {
    let mut rng = Rng::new(7);
    for halves in 1..=MOST_HALVES {
        for form in 0..TURNS.len() {
            let mut machine = Machine::default();
            let image = turning(&mut rng, halves, form);
            let list = requests(&mut rng, 2000, 0x1F);
            let report = machine.run(&image, &list, 3000).unwrap();
            assert_eq!((report.steps, report.stop, machine.asleep), (3000, None, false));
            if halves > 1 {
                seams_never_end(&mut rng, halves, form);
            }
        }
    }
}

/// The same loops with a byte of RAM in the bank byte's place.
#[test]
fn loops_that_stay_never_change_the_page() {
    let mut rng = Rng::new(7);
    for halves in 1..=MOST_HALVES {
        for form in 0..TURNS.len() {
            let mut machine = Machine::default();
            let image = staying(&mut rng, halves, form);
            assert_eq!(machine.run(&image, &[], 3000).unwrap().stop, None);
            assert_eq!((machine.data[BANK as usize], machine.asleep), (0, false));
        }
    }
}

fn seams_never_end(rng: &mut Rng, halves: usize, form: usize) {
    let mut machine = super::machine(RESET_VECTOR, &[(X, BANK), (Y, BANK), (IOR, 0x10)]);
    let image = over_seams(rng, halves, form);
    let list = requests(rng, 200, 0x1F);
    assert_eq!(machine.run(&image, &list, 300).unwrap().stop, None);
}

#[test]
fn visits_share_what_they_are_to() {
    let mut rng = Rng::new(7);
    for halves in 1..=MOST_HALVES {
        let pages = (halves - 1).max(1);
        let page = |visit: &Visit| visit.0 as usize % pages;
        for places in [PLACES, FEW_PLACES] {
            let visits = visits(&mut rng, halves, Sharing::Place(places));
            let place = |visit: &Visit| kept_at(*visit, pages, places);
            assert!(visits.iter().all(|visit| place(visit) == place(&visits[0])));
            let differ = pages > 1 || places < PLACES;
            assert!(visits[1..].iter().all(|visit| (visit.1 != visits[0].1) == differ));
        }
        let same = visits(&mut rng, halves, Sharing::Page);
        assert!(same[1..]
            .iter()
            .all(|visit| page(visit) == page(&same[0]) && visit.1 == same[0].1));
        let other = visits(&mut rng, halves, Sharing::Address);
        let differ = |visit: &Visit| page(visit) != page(&other[0]) || pages == 1;
        assert!(other[1..].iter().all(|visit| differ(visit) && visit.1 == other[0].1));
        let mut machine = Machine::default();
        let image = visiting(&mut rng, halves, &other);
        assert_eq!(machine.run(&image, &[], 1000).unwrap().stop, None);
    }
}

/// What they visit makes the width.
#[test]
fn visits_are_sized() {
    let mut rng = Rng::new(7);
    let mut widths = Vec::new();
    for _ in 0..20 {
        for halves in [1, 2] {
            let visits = visits(&mut rng, halves, Sharing::Place(FEW_PLACES));
            let p = sizing_visits(&mut rng, halves, &visits);
            widths.push(gauge(&p.image, &p.certificate, 5).unwrap().width);
        }
    }
    widths.sort_unstable();
    widths.dedup();
    assert!(widths.len() > 20, "{widths:?}");
}
