//! With the mock in the library's place, the comparison finds no difference,
//! and finds each fault that is put into it. (`cargo test --features mock`)
#![cfg(feature = "mock")]

use second::mock::FAULTS;
use std::process::{Command, Output};
use std::thread;

/// The part that finds a fault, where the others would only take time.
fn part_of(fault: &str) -> Option<&'static str> {
    match fault.split('-').next() {
        _ if fault == "width-place-few" => Some("turns"),
        Some("make") => Some("makes"),
        Some("origin" | "read") => Some("origins"),
        Some("stored" | "zero") => Some("write-only"),
        Some("bank") => Some("banks"),
        Some("paged") => Some("pages"),
        Some("play" | "long") => Some("playing"),
        Some("trace") => Some("services"),
        Some("turn") => Some("turns"),
        Some("row") => Some("rows"),
        _ => None,
    }
}

fn compare(fault: Option<&str>, part: Option<&str>, more: &[&str]) -> Output {
    let mut command = Command::new(env!("CARGO_BIN_EXE_compare"));
    command.args(["--steps", "1000000", "--checks", "20000"]).args(more);
    if let Some(part) = part {
        command.args(["--part", part]);
    }
    match fault {
        Some(fault) => command.env("ST62_MOCK_FAULT", fault),
        None => command.env_remove("ST62_MOCK_FAULT"),
    };
    command.output().expect("compare starts")
}

#[test]
fn no_fault_no_difference() {
    let output = compare(None, None, &[]);
    let text = String::from_utf8_lossy(&output.stdout);
    assert!(output.status.success(), "{text}");
    assert!(!text.contains("NOT "), "{text}");
}

/// Little time goes into making it smaller: long records would take all that there is.
fn is_found(fault: &str, part: Option<&str>) {
    let output = compare(Some(fault), part, &["--smaller", "1"]);
    let text = String::from_utf8_lossy(&output.stdout);
    assert_eq!(output.status.code(), Some(1), "{fault} is not found\n{text}");
    assert!(text.contains("DIFFERENCE"), "{fault}\n{text}");
}

/// The later faults take longer to find, so that they are dealt out in turn.
#[test]
fn every_fault_is_found() {
    let threads = thread::available_parallelism().map_or(1, usize::from);
    thread::scope(|scope| {
        for first in 0..threads {
            scope.spawn(move || {
                FAULTS.iter().skip(first).step_by(threads).for_each(|f| is_found(f, part_of(f)))
            });
        }
    });
}

/// Every part with single steps compares the origins that they tell.
#[test]
fn other_parts_see_origins() {
    for part in ["opcodes", "exhaustive", "steps", "refusals", "programs"] {
        is_found("origin-jump", Some(part));
    }
}

/// So do they with what can't be read, in steps and in runs.
#[test]
fn other_parts_read_write_only_registers() {
    for (fault, part) in [
        ("stored-by-x", "opcodes"),
        ("stored-direct", "exhaustive"),
        ("stored-bits", "steps"),
        ("stored-by-y", "origins"),
        ("stored-direct", "programs"),
        ("stored-run", "programs"),
    ] {
        is_found(fault, Some(part));
    }
}

/// So do they with pages, and the programs change them.
#[test]
fn other_parts_have_pages() {
    for (fault, part) in [
        ("bank-7ff", "opcodes"),
        ("bank-decode-0", "decodes"),
        ("bank-first", "steps"),
        ("bank-decode-mod", "refusals"),
        ("bank-reset-ill", "resets"),
        ("bank-store", "stores"),
        ("bank-window-0", "origins"),
        ("bank-late", "programs"),
        ("paged-check-0", "checks"),
        ("paged-job", "pages"),
    ] {
        is_found(fault, Some(part));
    }
}

/// A playing is also its entries one by one: with a fault in a step, a store
/// or a reset alone it is another than the mock's. What is found in long
/// records is made short.
#[test]
fn playing_is_its_entries() {
    for fault in ["com-carry", "store-mask", "reset-window", "zero-enable"] {
        let output = compare(Some(fault), Some("playing"), &[]);
        let text = String::from_utf8_lossy(&output.stdout);
        assert!(text.contains("DIFFERENCE between a playing of proved and its"), "{text}");
        let record = text.lines().find_map(|line| line.strip_prefix("  record: "));
        let bytes = record.and_then(|record| record.split(' ').next()?.parse().ok());
        assert!(bytes.is_some_and(|bytes: usize| bytes < 100), "{text}");
    }
}

/// The report on a fault in services, with nothing compared.
fn told_alone(fault: &str) -> String {
    let output = compare(Some(fault), None, &["--alone"]);
    let text = String::from_utf8_lossy(&output.stdout);
    assert_eq!(output.status.code(), Some(1), "{fault} is not found\n{text}");
    let line = text.lines().find(|line| line.starts_with("DIFFERENCE"));
    line.unwrap_or_else(|| panic!("{fault}\n{text}")).to_string()
}

/// Each fault in services is seen on the library's machines, with nothing
/// compared, but for the one that only runs have; and each kind of trace is told.
#[test]
fn services_are_followed() {
    for fault in FAULTS.iter().filter(|fault| part_of(fault) == Some("services")) {
        let title = match *fault {
            "trace-run" => "DIFFERENCE between a run and its steps",
            _ => "DIFFERENCE: a service left a trace",
        };
        let told = told_alone(fault);
        assert!(told.starts_with(title), "{fault}: {told}");
    }
    for (fault, trace) in [
        ("trace-12", "Levels"),
        ("trace-bottom", "Beneath"),
        ("trace-next", "Pushed"),
        ("trace-over", "Set"),
        ("trace-late", "Address"),
        ("trace-mode", "Mode"),
        ("trace-flags", "Flags"),
        ("trace-empty", "Returns"),
        ("trace-asleep", "Asleep"),
        ("sleep-stop", "Sleeper"),
        ("trace-ret", "End"),
    ] {
        let told = told_alone(fault);
        assert!(told.contains(trace), "{fault}: {told}");
    }
}

/// What the bench cases alone don't meet, by the titles that it is printed
/// under.
const NOT_MET: [(&str, &[&str]); 7] = [
    (
        "write-only registers",
        &[
            " SET 0C8h in single steps,",
            " LD-A direct 0C9h in runs,",
            " CP (Y) 0C8h in runs,",
            " source taken in single steps,",
            " source not enabled in runs,",
            " page in runs,",
            " read 0C8h, read 0C9h",
        ],
    ),
    (
        "playings",
        &[
            " record 28 short,",
            " record 28 too few for version 2,",
            " record 30 too many,",
            " record 29 cut store,",
            " record 29 cut store in version 2,",
            " entries most of version 1,",
            " bytes least of version 2,",
            " bytes most of version 2,",
            " beyond version 1 ended later,",
            " version 1 played taken request,",
            " version 1 ended by 6 middle,",
            " version 2 played idle step,",
            " version 2 ended by 11 last,",
            " version 2 entry by entry, version 2 demand 3",
        ],
    ),
    (
        "pages",
        &[
            " reset of one in an ill-formed machine,",
            " a bank beyond its byte,",
            " decode of 2 halves,",
            " make of 10 halves,",
            " play of bad lengths,",
            " single step: all of 9 pages,",
            " window of a step: all bank bytes,",
            " step in a run FFFh to 000h,",
            " changed in runs by LD-to (Y),",
            " changed in runs by DEC (Y)",
        ],
    ),
    (
        "programs with pages",
        &[
            " 14, 18, 19, 13 for a certificate as long as the image,",
            " a greater number with an earlier page,",
            " 17 with page 8,",
            " made with pages,",
            " none made with pages: two kinds,",
        ],
    ),
    (
        "services",
        &[
            " ended, with a sleeper woken from WAIT,",
            " ended, with a run refused with 12,",
            " ended, with the return into another page,",
            " open at the end of a list,",
            " begun by source NMI,",
            " ended by interrupted mode interrupt,",
            " ended by size 9 pages,",
            " ended by levels beneath 5,",
            " moments",
        ],
    ),
    (
        "turns",
        &[
            " page that was left before of 3 halves,",
            " other bank byte, same page and address of 1 halves,",
            " place shared in turn of 10 halves,",
            " place shared in turn, short run of 1 halves,",
            " changed by LD-to (Y) in mode interrupt,",
            " runs of [1, 2, 3,",
        ],
    ),
    (
        "rows",
        &[
            " rows before a reset,",
            " version 1 ended by 4 after 0,",
            " version 1 ended by 6 after 6,",
            " version 2 ended by 7 after 39,",
            " version 2 ended by 10 after 4096,",
            " version 2 ended by 11 after 8192",
        ],
    ),
];

#[test]
fn what_was_not_met_is_printed() {
    let output = compare(None, Some("bench cases"), &[]);
    let text = String::from_utf8_lossy(&output.stdout);
    for (title, missing) in NOT_MET {
        let title = format!("NOT MET: {title}:");
        let line = text.lines().find(|line| line.starts_with(&title));
        let line = line.unwrap_or_else(|| panic!("{text}"));
        for what in missing {
            assert!(line.contains(what), "{what} isn't in {line}");
        }
    }
}
