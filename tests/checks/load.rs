//! The load of the motor (document 02, request 6). With the feature `library` the library is tried as well.

use crate::common::*;
use tac_tests::assemble::Operand::*;
use tac_tests::assemble::*;
use tac_tests::case::{self, BusiestCall, Call, Case, Emulator, OWN};
use tac_tests::load::{self, allowed, counted, loads};
use tac_tests::replay::{parse, Replay};
use tac_tests::rng::Rng;
use tac_tests::stretches::{self, Stretches};
use tac_tests::winder::{Settings, Winder};

fn case_with(records: &[u8], width: u32) -> Case {
    Case { report: records.to_vec(), call: Call::Busiest(width), ..Case::empty() }
}

/// The answer that each emulator gives; the records stay.
fn answer(records: &[u8], width: u32) -> (u64, u64) {
    let case = case_with(records, width);
    let out = outcome(&case);
    assert!(out.report == records, "the records changed");
    assert!(EMULATORS.iter().all(|emulator| !stretches::looks_around(emulator, &case)));
    refusal(out.answer)
}

/// The busiest window's figure.
fn busiest(records: &[u8], width: u32) -> u64 {
    let (refused, figure) = answer(records, width);
    assert_eq!(refused, 0);
    figure
}

/// So many records, on where `on` says so of their place.
fn run(length: usize, on: impl Fn(usize) -> bool) -> Vec<u8> {
    (0..length).map(|place| on(place) as u8).collect()
}

/// "Each a byte, 1 if the motor was on (any other value counts as off)."
#[test]
fn one_is_on() {
    for value in 0..=255 {
        let on = (value == 1) as u64;
        assert_eq!(busiest(&[value], 1), on, "{value}");
        assert_eq!(busiest(&[value; 40], 7), 7 * on, "{value}");
        assert_eq!(busiest(&[1, value, 1, 0, value, 1, 1], 4), 2 + on, "{value}");
        assert_eq!(busiest(&[value, 1, 1, value, 0, value], 4), 2 + 2 * on, "{value}");
    }
}

/// Worked out by hand: "no window of that many consecutive records".
#[test]
fn windows_of_a_run() {
    let records = [1, 0, 1, 1, 0, 0, 1, 1, 1, 0, 1, 0];
    for (width, figure) in (1..).zip([1, 2, 3, 3, 4, 4, 5, 5, 6, 6, 7, 7, 7]) {
        assert_eq!(busiest(&records, width), figure, "{width}");
    }
    // Neither windows side by side nor records that are not consecutive.
    assert_eq!(busiest(&[0, 0, 1, 1, 0, 0], 3), 2);
    assert_eq!(busiest(&[0, 1, 1, 1, 1, 0, 0, 0], 4), 4);
    assert_eq!(busiest(&[1, 0, 1, 0, 1, 0], 3), 2);
    // The run is no ring.
    assert_eq!(busiest(&[1, 1, 0, 0, 0, 0, 1, 1], 4), 2);
}

/// Each window counts: all of it is on, and nothing else, so that it alone has so many.
#[test]
fn each_window_alone() {
    for (length, width) in [(1, 1), (2, 1), (9, 1), (9, 2), (9, 4), (9, 5), (9, 8), (9, 9), (100, 37), (600, 300)] {
        for start in 0..=length - width {
            let inside = |place| (start..start + width).contains(&place);
            assert_eq!(busiest(&run(length, inside), width as u32), width as u64, "{start} of {length}");
            // Its first and its last record.
            let ends = |place| place == start || place == start + width - 1;
            assert_eq!(busiest(&run(length, ends), width as u32), 2.min(width as u64), "{start} of {length}");
        }
    }
}

/// One more in the first, in the last and in a middle window than in every other, where each has some.
#[test]
fn busiest_by_one() {
    for place in [0, 499, 250] {
        let mut records = run(500, |place| place % 5 == 2);
        assert_eq!(busiest(&records, 10), 2);
        records[place] = 1;
        assert_eq!(busiest(&records, 10), 3, "{place}");
    }
}

/// Windows of one record, of all but one, of all, and of one more.
#[test]
fn widths_by_the_length() {
    for length in [1, 2, 3, 10, 255, 256, 257, 4_095, 4_096] {
        for (on, value) in [(1, 1), (0, 0), (0, 3), (0, 255)] {
            for width in [1, length - 1, length, length + 1].into_iter().filter(|width| (1..=4_096).contains(width)) {
                assert_eq!(busiest(&vec![value; length as usize], width as u32), on * width.min(length), "{length}");
            }
        }
    }
    // All but the last, all but the first.
    assert_eq!(busiest(&[1, 1, 1, 0], 3), 3);
    assert_eq!(busiest(&[0, 1, 1, 1], 3), 3);
    assert_eq!(busiest(&[1, 1, 0, 1], 3), 2);
}

/// "A run shorter than the width counts as a single window."
#[test]
fn shorter_runs() {
    for width in [6, 7, 100, 4_095, 4_096] {
        assert_eq!(busiest(&[1, 0, 1, 2, 1], width), 3, "{width}");
        assert_eq!(busiest(&[0; 5], width), 0, "{width}");
        assert_eq!(busiest(&[1], width), 1, "{width}");
    }
    assert_eq!(busiest(&[1; 4_095], 4_096), 4_095);
}

/// "An empty run gives 0."
#[test]
fn empty_runs() {
    for width in [1, 2, 4_095, 4_096] {
        assert_eq!(answer(&[], width), (0, 0), "{width}");
    }
}

/// "A width of 0 or above 4,096 is refused with 10", whatever the records are.
#[test]
fn widths_outside_their_values() {
    let near = [0, 4_097, 4_098, 8_191, 8_192, 8_193];
    let far = [65_535, 65_536, 65_537, 69_632, 0x0100_0001, 0x7FFF_FFFF, 0x8000_0000, 0x8000_0001, 0xFFFF_F000];
    for width in near.into_iter().chain(far).chain([0xFFFF_FFFE, 0xFFFF_FFFF]) {
        for length in [0, 1, 2, 4_096, 4_097, 10_000] {
            for value in [0, 1, 255] {
                assert_eq!(answer(&vec![value; length], width), (10, 0), "{width}, {length}");
            }
        }
    }
}

/// No other width is.
#[test]
fn widths_within_their_values() {
    for width in 1..=4_096 {
        assert_eq!(busiest(&[1, 0, 1, 1], width), [1, 2, 2, 3][width.min(4) as usize - 1], "{width}");
    }
}

/// The widest window, in runs around and beyond it.
#[test]
fn widest_windows() {
    for length in [0, 1, 4_095, 4_096, 4_097, 8_191, 8_192, 8_193, 10_000] {
        let most = 4_096.min(length as u64);
        assert_eq!(busiest(&vec![1; length], 4_096), most, "{length}");
        assert_eq!(busiest(&vec![1; length], 4_095), most.min(4_095), "{length}");
        assert_eq!(busiest(&vec![2; length], 4_096), 0, "{length}");
        // Off in the first record, in the last, in both.
        for (first, last) in [(0, 1), (1, 0), (0, 0)].into_iter().filter(|_| length > 1) {
            let mut records = vec![1; length];
            (records[0], records[length - 1]) = (first, last);
            let others = length as u64 - 2 + (first + last) as u64;
            assert_eq!(busiest(&records, 4_096), others.min(4_096), "{length}, {first}, {last}");
        }
    }
}

/// All runs of these values that are no longer than so many records.
fn all_runs(values: &[u8], longest: usize) -> Vec<Vec<u8>> {
    let mut runs = vec![vec![]];
    let mut from = 0;
    for _ in 0..longest {
        let with = |run: &Vec<u8>| values.iter().map(|value| [&run[..], &[*value]].concat()).collect::<Vec<_>>();
        let longer: Vec<Vec<u8>> = runs[from..].iter().flat_map(with).collect();
        from = runs.len();
        runs.extend(longer);
    }
    runs
}

/// Every short run, by each width, beside windows counted one by one.
#[test]
fn all_short_runs() {
    let runs = [all_runs(&[0, 1, 2], 7), all_runs(&[1, 255], 10)].concat();
    assert_eq!(runs.len(), 3_280 + 2_047);
    for records in runs {
        for width in 1..=12 {
            let loads = counted(&records, width);
            assert_eq!(busiest(&records, width), *loads.iter().max().expect("a window") as u64, "{records:?}, {width}");
        }
    }
}

/// Both ways to count give the same for each window.
#[test]
fn two_ways_to_count() {
    assert_eq!((loads(&[], 3), counted(&[], 3)), (vec![0], vec![0]));
    assert_eq!((loads(&[1, 2], 3), counted(&[1, 2], 3)), (vec![1], vec![1]));
    assert_eq!(counted(&[1, 0, 1, 1, 7], 2), [1, 1, 2, 1]);
    for (records, width) in random_runs(4, 500) {
        assert!(loads(&records, width) == counted(&records, width));
    }
}

/// So many random runs with good widths, each of its own generator.
fn random_runs(part: u64, count: u64) -> impl Iterator<Item = (Vec<u8>, u32)> {
    let drawn = (0..count).map(move |index| {
        let mut case = Case::empty();
        stretches::draw(&mut Rng::of_case(22, part, index), &mut case);
        case
    });
    drawn.filter_map(|case| match case.call {
        Call::Busiest(width) if load::test(width).is_ok() => Some((case.report, width)),
        _ => None,
    })
}

/// What the request allows: a window has 6 on, none more.
#[test]
fn figures_that_are_allowed() {
    let found = (0..=20).filter(|figure| allowed(&[3, 6, 0, 6, 1], *figure));
    assert_eq!(found.collect::<Vec<_>>(), [6, 7, 8, 9, 10, 11, 12]);
    assert_eq!((0..=3).filter(|figure| allowed(&[0, 0], *figure)).collect::<Vec<_>>(), [0]);
}

/// "A figure that no window of that many consecutive records exceeds … never over twice the busiest window's."
#[test]
fn no_window_exceeds_it() {
    for (records, width) in random_runs(5, 1_000) {
        let windows = counted(&records, width);
        for emulator in EMULATORS {
            let figure = (emulator.busiest)(&records, width);
            assert!(windows.iter().all(|load| *load as u64 <= figure), "{}, {width}", emulator.name);
            assert!(windows.iter().any(|load| figure <= 2 * *load as u64), "{}, {width}", emulator.name);
        }
    }
}

/// "Records come through a lent buffer of any length": 5,000,000, and a busier stretch of 3,000 at three places.
#[test]
fn long_runs() {
    let mut rng = Rng::new(23);
    let background: Vec<u8> = (0..5_000_000).map(|_| rng.pick(&[0, 0, 1, 2])).collect();
    for start in [0, 2_345_678, 4_997_000] {
        let mut records = background.clone();
        records[start..start + 3_000].fill(1);
        assert_eq!(busiest(&records, 3_000), 3_000);
        assert_eq!(busiest(&records, 1), 1);
        let most = busiest(&records, 4_096);
        assert!((3_200..3_400).contains(&most), "{most}");
        assert_eq!(most, loads(&records, 4_096).into_iter().fold(0, u32::max) as u64);
    }
    assert_eq!(busiest(&vec![1; 5_000_000], 4_096), 4_096);
}

/// The motor in each tick of a simulation: a program that winds where input bit 0 is clear, four steps a tick.
fn motor(numbers: [u32; 5]) -> Vec<u8> {
    let code = [input(0, At(0x18)), xor(0, Short(1)), output(0, At(0x18)), jump(ALWAYS, At(0x0100))];
    let mut winder = Winder::new(kernel(&code.concat()), Settings::of(numbers));
    (0..numbers[3]).map(|_| winder.tick().motor as u8).collect()
}

/// Records of a simulation: up to one turn of 3 notches it winds in ticks 1 to 3; the train takes one in every fourth,
/// and the next tick winds it again.
#[test]
fn records_of_a_simulation() {
    let records = motor([1, 3, 4, 100, 4]);
    assert_eq!(records[..14], [1, 1, 1, 0, 1, 0, 0, 0, 1, 0, 0, 0, 1, 0]);
    // 27 in all: 25 were taken, 2 stand.
    let figures = [(1, 1), (2, 2), (3, 3), (4, 3), (5, 4), (8, 4), (9, 5), (60, 17), (99, 27), (100, 27), (4_096, 27)];
    for (width, figure) in figures {
        assert_eq!(busiest(&records, width), figure, "{width}");
    }
    // Behind the first turn the load is one tick in four.
    for (width, figure) in [(1, 1), (4, 1), (5, 2), (8, 2), (60, 15)] {
        assert_eq!(busiest(&records[3..], width), figure, "{width}");
    }
    // On in every tick, below a label that is not reached.
    let records = motor([999, 64, 3, 3_000, 4]);
    assert_eq!([1, 2_999, 3_000, 4_096].map(|width| busiest(&records, width)), [1, 2_999, 3_000, 3_000]);
}

/// The cases of `compare`: allowed by the words of the request, and they come to all that is counted.
#[test]
fn random_stretches() {
    let (mut case, mut met) = (Case::empty(), Stretches::default());
    for index in 0..4_000 {
        stretches::draw(&mut Rng::of_case(24, 1, index), &mut case);
        met.case(&case);
        outcome(&case);
        for emulator in EMULATORS.iter().filter(|_| index % 10 == 0) {
            assert!(stretches::allowed(emulator, &case), "{}, case {index}", emulator.name);
            assert!(!stretches::looks_around(emulator, &case), "{}, case {index}", emulator.name);
        }
    }
    assert_eq!(met.lacking(), Vec::<String>::new());
}

/// The most of some windows, where the width is good.
fn most(records: &[u8], width: u32, windows: impl Fn(Vec<u32>) -> Vec<u32>) -> u64 {
    match load::test(width) {
        Ok(()) => windows(loads(records, width)).into_iter().fold(0, u32::max) as u64,
        Err(refusal) => refusal.answer(),
    }
}

/// The busiest window where a record is on by another rule.
fn busiest_by(records: &[u8], width: u32, on: fn(u8) -> bool) -> u64 {
    load::busiest(&run(records.len(), |place| on(records[place])), width)
}

/// Emulators that count wrongly: the cases notice, get smaller, and their text is read back.
#[test]
fn wrong_loads_are_seen() {
    let wrong: [(&str, BusiestCall); 12] = [
        ("any value", |records, width| busiest_by(records, width, |record| record != 0)),
        ("bit 0", |records, width| busiest_by(records, width, |record| record & 1 != 0)),
        ("off", |records, width| busiest_by(records, width, |record| record == 0)),
        ("not the first", |records, width| most(records, width, |loads| loads[1.min(loads.len() - 1)..].to_vec())),
        ("not the last", |records, width| most(records, width, |loads| loads[..1.max(loads.len() - 1)].to_vec())),
        ("side by side", |records, width| {
            most(records, width, |loads| loads.into_iter().step_by(width as usize).collect())
        }),
        ("no short run", |records, width| {
            let short = records.len() < width as usize;
            load::busiest(if short { &[] } else { records }, width)
        }),
        ("a byte", |records, width| most(records, width, |loads| loads.iter().map(|load| load & 255).collect())),
        ("wider", |records, width| most(records, width, |_| loads(records, width + 1))),
        ("4,096 refused", |records, width| load::busiest(records, if width == 4_096 { 0 } else { width })),
        ("4,097 taken", |records, width| load::busiest(records, if width == 4_097 { 4_096 } else { width })),
        ("empty first", |records, width| if records.is_empty() { 0 } else { load::busiest(records, width) }),
    ];
    for (name, busiest) in wrong {
        let wrong = Emulator { name, busiest, ..OWN };
        let small = smallest_difference(&wrong, 2_000, |index, case| {
            stretches::draw(&mut Rng::of_case(25, 1, index), case);
        });
        let needed = if name == "a byte" { 256 } else { 3 };
        assert!(small.report.iter().filter(|record| **record != 0).count() <= needed, "{name}: {small:?}");
        let text = case::describe(&small, &OWN, &wrong);
        assert!(text.starts_with("case busiest ") && text.contains(&format!("\n{name}:\n")), "{text}");
        assert!(matches!(parse(&text), Ok(Replay::Case(back)) if back == small), "{text}");
    }
}

/// What the request does not allow is seen without another emulator: too few, more than twice as many.
#[test]
fn figures_that_are_not_allowed_are_seen() {
    let wrong: [(&str, BusiestCall, bool); 4] = [
        ("one less", |records, width| load::busiest(records, width).saturating_sub(1), false),
        ("twice", |records, width| 2 * load::busiest(records, width), true),
        ("one more than twice", |records, width| 2 * load::busiest(records, width) + 1, false),
        ("all that are on", |records, _| load::busiest(records, 4_096), false),
    ];
    for (name, busiest, fits) in wrong {
        let wrong = Emulator { name, busiest, ..OWN };
        let all = random_runs(6, 300).all(|(records, width)| stretches::allowed(&wrong, &case_with(&records, width)));
        assert_eq!(all, fits, "{name}");
    }
}
