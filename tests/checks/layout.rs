//! The offsets and sizes of image and report: those of `include/tac.h`, of this package, and of the library's code and
//! definitions, read as text, are the same.

use crate::files::{at_root, text};
use std::collections::BTreeMap;
use std::fs;
use tac_tests::card::LONGEST;
use tac_tests::emulator::MEMORY;
use tac_tests::{image, load, report, winder};

type Numbers = BTreeMap<String, usize>;

/// The image's fields as this package has them.
const IMAGE: [(&str, usize); 16] = [
    ("REGS", image::REGS),
    ("SSP", image::SSP),
    ("USP", image::USP),
    ("PC", image::PC),
    ("FLAG", image::FLAG),
    ("PENDING", image::PENDING),
    ("INPUT", image::INPUT),
    ("OUTPUT", image::OUTPUT),
    ("MMU", image::MMU),
    ("CONDITION", image::CONDITION),
    ("VIOLATION", image::VIOLATION),
    ("CAUSE", image::CAUSE),
    ("MISSED", image::MISSED),
    ("TLB", image::TLB),
    ("TIMER0", image::TIMERS),
    ("TIMER1", image::TIMERS + image::TIMER),
];

/// A timer's.
const TIMER: [(&str, usize); 4] =
    [("COUNT", image::COUNT), ("PERIOD", image::PERIOD), ("CONTROL", image::CONTROL), ("FIRED", image::FIRED)];

/// The report's.
const REPORT: [(&str, usize); 6] = [
    ("ENDING", report::ENDING),
    ("NUMBER", report::NUMBER),
    ("STEPS", report::STEPS),
    ("STATES", report::STATES),
    ("PC", report::PC),
    ("FLAG", report::FLAG),
];

fn numbers(list: &[(&str, usize)]) -> Numbers {
    list.iter().map(|(name, number)| (name.to_string(), *number)).collect()
}

/// `NAME = N` on a line, whatever follows the number.
fn assigned(line: &str) -> Option<(&str, usize)> {
    let (name, rest) = line.split_once('=')?;
    let digits = rest.trim().split(|c: char| !c.is_ascii_digit()).next()?;
    Some((name.trim(), digits.parse().ok()?))
}

/// The enum of the header that has this name.
fn enum_with(header: &str, name: &str) -> Numbers {
    let mut blocks = header.split("enum {").skip(1).map(|rest| rest.split("};").next().unwrap_or_default());
    let block = blocks.find(|block| block.contains(&format!(" {name} = "))).expect(name);
    block.lines().filter_map(assigned).map(|(name, n)| (name.to_string(), n)).collect()
}

/// As the header names them; REGS is named by its first and its last word.
fn in_header(front: &str, list: &[(&str, usize)]) -> Numbers {
    let named = |(name, number): &(&str, usize)| match *name {
        "REGS" => vec![(format!("{front}G0"), *number), (format!("{front}FP"), number + 24)],
        _ => vec![(format!("{front}{name}"), *number)],
    };
    list.iter().flat_map(named).collect()
}

#[test]
fn header() {
    let header = text("include/tac.h");
    assert_eq!(enum_with(&header, "TAC_IMAGE_G0"), in_header("TAC_IMAGE_", &IMAGE));
    assert_eq!(enum_with(&header, "TAC_REPORT_ENDING"), in_header("TAC_REPORT_", &REPORT));
    let refusals = [
        ("TAC_GOOD", 0),
        ("TAC_MEMORY_LENGTH", 1),
        ("TAC_IMAGE_LENGTH", 2),
        ("TAC_IMAGE_FIELD", 3),
        ("TAC_CARD_LENGTH", 4),
        ("TAC_CARD_UNKNOWN", 5),
        ("TAC_CARD_SHORT", 6),
        ("TAC_CARD_BEYOND", 7),
        ("TAC_REPORT_LENGTH", 8),
        ("TAC_WIND_SETTING", 9),
        ("TAC_WINDOW_WIDTH", 10),
    ];
    assert_eq!(enum_with(&header, "TAC_GOOD"), numbers(&refusals));
    let own = [
        ("TAC_MEMORY_BYTES", MEMORY),
        ("TAC_IMAGE_BYTES", image::IMAGE),
        ("TAC_REPORT_BYTES", report::REPORT),
        ("TAC_CARD_BYTES", LONGEST),
        ("TAC_TLB_ENTRY_BYTES", 3),
        ("TAC_TIMER_BYTES", image::TIMER),
        ("TAC_WIND_PLACE_BYTES", winder::PLACE),
    ];
    assert_eq!(defined(&header, |name| name.ends_with("_BYTES")), numbers(&own));
    let timer = defined(&header, |name| name.starts_with("TAC_TIMER_") && !name.ends_with("_BYTES"));
    assert_eq!(timer, in_header("TAC_TIMER_", &TIMER));
    let most = winder::NAMES.iter().zip(winder::MOST);
    let most = most.map(|(name, n)| (format!("TAC_WIND_{}", name.to_uppercase()), n as usize)).collect();
    assert_eq!(defined(&header, |name| name.starts_with("TAC_WIND_") && !name.ends_with("_BYTES")), most);
    let records = [("TAC_WINDOW_RECORDS", load::WIDEST as usize), ("TAC_RECORD_ON", load::ON as usize)];
    let named = |name: &str| name.starts_with("TAC_WINDOW_") || name.starts_with("TAC_RECORD_");
    assert_eq!(defined(&header, named), numbers(&records));
    let version = [("TAC_VERSION_MAJOR", 2), ("TAC_VERSION_MINOR", 1)];
    assert_eq!(defined(&header, |name| name.starts_with("TAC_VERSION_")), numbers(&version));
}

/// `#define NAME N` for these names.
fn defined(header: &str, wanted: fn(&str) -> bool) -> Numbers {
    let definition = |line: &str| match line.split_whitespace().collect::<Vec<&str>>()[..] {
        ["#define", name, number, ..] if wanted(name) => Some((name.to_string(), number.parse().ok()?)),
        _ => None,
    };
    header.lines().filter_map(definition).collect()
}

/// The constants in the code of a crate: `pub const NAME: usize = N;`.
fn in_code(folder: &str) -> Numbers {
    let constant = |line: &str| {
        let (name, number) = assigned(line.strip_prefix("pub const ")?)?;
        Some((name.strip_suffix(": usize")?.to_string(), number))
    };
    lines(folder, "rt").iter().filter_map(|line| constant(line)).collect()
}

/// The numbers in the definitions of a crate: `sspAt = 26`, `imageSize = 84` and `periodIn = 2`, as SSP, IMAGE and PERIOD.
fn in_definitions(folder: &str) -> Numbers {
    let definition = |line: &str| {
        let (name, number) = assigned(line)?;
        let name = ["At", "Size", "In"].iter().find_map(|end| name.strip_suffix(end))?;
        Some((name.to_uppercase(), number))
    };
    lines(folder, "antt").iter().filter_map(|line| definition(line)).collect()
}

/// The lines of all files in a folder of the repository with this ending.
fn lines(folder: &str, ending: &str) -> Vec<String> {
    let Ok(files) = fs::read_dir(at_root(folder)) else { return Vec::new() };
    let paths =
        files.filter_map(|file| Some(file.ok()?.path())).filter(|path| path.extension().is_some_and(|e| e == ending));
    paths
        .flat_map(|path| fs::read_to_string(path).expect("text").lines().map(String::from).collect::<Vec<_>>())
        .collect()
}

/// Where one of these numbers is named, all are, and they are equal. Says whether they are named.
fn held(place: &str, found: &Numbers, list: &[(&str, usize)]) -> bool {
    let own = numbers(list);
    let named: Numbers = found.clone().into_iter().filter(|(name, _)| own.contains_key(name)).collect();
    assert!(named.is_empty() || named == own, "{place} has {named:?}, this package {own:?}");
    !named.is_empty()
}

#[test]
fn library() {
    let image = [&IMAGE[..], &[("IMAGE", image::IMAGE)]].concat();
    let (code, definitions) = (in_code("crates/layout/src"), in_definitions("crates/layout/specs"));
    for list in [&image[..], &TIMER] {
        let code = held("crates/layout/src", &code, list);
        let definitions = held("crates/layout/specs", &definitions, list);
        assert!(code || definitions, "crates/layout names no offset of {list:?}");
    }
    // The report's size is used by others, so the code may name it where it does not name the offsets.
    let size = [("REPORT", report::REPORT)];
    let code = in_code("crates/report/src");
    let code = [held("crates/report/src", &code, &REPORT), held("crates/report/src", &code, &size)];
    let report = [&REPORT[..], &size].concat();
    let definitions = held("crates/report/specs", &in_definitions("crates/report/specs"), &report);
    assert!(code == [true, true] || definitions, "crates/report names no offset");
}
