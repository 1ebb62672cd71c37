//! The first eight refusals, their order and positions, with everything untouched; the ninth is tried in `winder`, the
//! tenth in `load`. With the feature `library` the library is tried as well.

use crate::common::*;
use tac_tests::assemble::put_words;
use tac_tests::card;
use tac_tests::case::{Call, Case};
use tac_tests::image;
use tac_tests::winder::Settings;

/// A good case: a program of two steps, a report of 40 bytes.
fn good(call: Call) -> Case {
    Case { report: vec![0xEE; 40], ..case_of(&kernel(&[0x0000, 0xF000]), call) }
}

/// The calls that take memory and a report.
fn three_calls() -> [Call; 3] {
    [Call::Run(7), Call::View, Call::Card(vec![0x04, 0x00, 0x07])]
}

/// The calls that take memory: a simulation has places in the report's stead.
fn memory_calls() -> Vec<Call> {
    [&three_calls()[..], &[Call::Wind(Settings::of([1, 1, 1, 20, 7]))]].concat()
}

/// All calls: each takes an image.
fn all_calls() -> Vec<Call> {
    [&memory_calls()[..], &[Call::Fault]].concat()
}

/// The answer; on a refusal nothing is touched.
fn answer(case: &Case) -> (u64, u64) {
    let out = outcome(case);
    if out.answer >> 32 != 0 {
        assert_eq!((&out.memory, &out.image, &out.report), (&case.memory, &case.image, &case.report));
    }
    refusal(out.answer)
}

fn card_answer(card: &[u8]) -> (u64, u64) {
    answer(&good(Call::Card(card.to_vec())))
}

#[test]
fn nothing_refused() {
    for call in three_calls() {
        assert_eq!(answer(&good(call)), (0, 12));
    }
}

#[test]
fn memory_length() {
    for call in memory_calls() {
        for length in [0, 1, 65_535, 65_537, 70_000] {
            let mut case = good(call.clone());
            case.memory.resize(length, 0);
            assert_eq!(answer(&case), (1, 0));
            case.image.truncate(3);
            case.report.clear();
            assert_eq!(answer(&case), (1, 0));
        }
    }
}

#[test]
fn image_length() {
    for call in all_calls() {
        for length in [0, 1, 68, 83, 85, 200] {
            let mut case = good(call.clone());
            case.image.resize(length, 0xFF);
            case.report.clear();
            assert_eq!(answer(&case), (2, 0));
            case.image.fill(0xFF);
            assert_eq!(answer(&case), (2, 0));
        }
    }
}

/// Every bit of the image: those beyond their values are refused, no other.
#[test]
fn image_fields() {
    for call in all_calls() {
        for bit in 0..image::IMAGE * 8 {
            let mut case = good(call.clone());
            let (byte, mask) = (bit / 8, 0x80u8 >> (bit % 8));
            case.image[byte] ^= mask;
            let bad = match byte {
                32 => true,
                33 => mask == 0x10,
                34 => mask > 2,
                38 => mask > 1,
                39 => mask > 2,
                42 => mask > 3,
                44..=67 if byte % 3 == 0 => mask == 0x40 || mask == 0x20,
                // The timers are 0: any count, and what is no control bit or over 1.
                68.. => match (byte - 68) % 8 {
                    0 | 1 | 6 => true,
                    4 => mask != 0x80,
                    5 | 7 => mask != 0x01,
                    _ => false,
                },
                _ => false,
            };
            assert_eq!(answer(&case) == (3, 0), bad, "byte {byte} mask {mask:02X}");
            if bad {
                case.report.clear();
                assert_eq!(answer(&case), (3, 0));
            }
        }
    }
    for call in all_calls() {
        let mut case = good(call);
        case.image[image::CONDITION] = 3;
        assert_eq!(answer(&case), (3, 0));
    }
}

/// A good image but for the four words of timer `n`.
fn with_timer(call: Call, n: usize, words: [u16; 4]) -> Case {
    let mut case = good(call);
    put_words(&mut case.image, image::TIMERS + image::TIMER * n, &words);
    case
}

/// "Control, fired, a count not below a non-zero period, and a non-zero count with period 0", of both timers, started or not.
#[test]
fn timer_fields() {
    let counts = [
        (0, 0, true),
        (1, 0, false),
        (0x0100, 0, false),
        (0xFFFF, 0, false),
        (0, 1, true),
        (1, 1, false),
        (2, 1, false),
        (9, 10, true),
        (10, 10, false),
        (11, 10, false),
        (0x00FF, 0x0100, true),
        (0x0100, 0x0100, false),
        (0x0100, 0x00FF, false),
        (0x7FFF, 0x8000, true),
        (0x8000, 0x7FFF, false),
        (0x8000, 0x8000, false),
        (0xFFFE, 0xFFFF, true),
        (0xFFFF, 0xFFFF, false),
    ];
    let controls = [(0x0000, true), (0x0001, true), (0x8000, true), (0x8001, true)];
    let beyond = [0x0002, 0x0003, 0x0080, 0x0100, 0x4000, 0x8002, 0xC001, 0x7FFE, 0xFFFF].map(|bits| (bits, false));
    let fired = [(0, true), (1, true), (2, false), (3, false), (0x0100, false), (0x0101, false), (0x8000, false)];
    for (call, n) in all_calls().into_iter().flat_map(|call| [(call.clone(), 0), (call, 1)]) {
        let held = |words: [u16; 4], fits: bool| {
            let found = answer(&with_timer(call.clone(), n, words));
            assert_eq!(found != (3, 0), fits, "{call:?}, timer {n}, {words:04X?}: {found:?}");
        };
        for (control, exists) in controls.into_iter().chain(beyond) {
            held([3, 10, control, 1], exists);
            for (count, period, fits) in counts {
                held([count, period, control, 0], exists && fits);
            }
            for (word, fits) in fired {
                held([0, 0, control, word], exists && fits);
            }
        }
    }
}

/// Refusal 3 comes before those of card and report, and behind that of the image's length.
#[test]
fn bad_timers_in_order() {
    for n in 0..2 {
        let mut case = with_timer(Call::Card(vec![0xFF; 4_097]), n, [10, 10, 0, 0]);
        case.report.clear();
        assert_eq!(answer(&case), (3, 0));
        case.image.truncate(83);
        assert_eq!(answer(&case), (2, 0));
        case.memory.truncate(9);
        assert_eq!(answer(&case), (1, 0));
    }
}

#[test]
fn card_length() {
    let mut case = good(Call::Card(vec![0xFF; 4_097]));
    case.report.clear();
    assert_eq!(answer(&case), (4, 0));
    assert_eq!(card_answer(&[0xFF; 4_096]), (5, 0));
    assert_eq!(card_answer(&[0x06, 0x01].repeat(2_048)), (0, 0));
    assert_eq!(card_answer(&[0x06, 0x01].repeat(3_000)), (4, 0));
}

const GOOD: [&[u8]; 8] = [
    &[0x01, 0xFF, 0xFF, 0xFF],
    &[0x02, 0x0F, 0xFF, 0xFF],
    &[0x03, 0x03, 0xFF, 0xFF],
    &[0x04, 0xFF, 0xFF],
    &[0x05, 0x07, 0xFF, 0x9F, 0xFF],
    &[0x06, 0x01],
    &[0x07, 0x00, 0xEF],
    &[0x08, 0xFF, 0xFF],
];

/// Fronts of good commands, so that the bad one stands at several places.
fn fronts() -> Vec<Vec<u8>> {
    let long = [0x05, 0x00, 0x00, 0x00, 0x00].repeat(800);
    vec![vec![], GOOD[5].to_vec(), [GOOD[0], GOOD[6], GOOD[4]].concat(), long]
}

#[test]
fn unknown_commands() {
    for front in fronts() {
        for byte in (0..=255).filter(|b| !(1..=8).contains(b)) {
            for tail in [&[][..], &[0x06, 0x01], &[0xFF, 0xFF, 0xFF, 0xFF, 0xFF]] {
                let card = [&front[..], &[byte], tail].concat();
                assert_eq!(card_answer(&card), (5, front.len() as u64));
            }
        }
    }
}

#[test]
fn cut_commands() {
    for front in fronts() {
        for command in GOOD {
            for length in 1..command.len() {
                let card = [&front, &command[..length]].concat();
                assert_eq!(card_answer(&card), (6, front.len() as u64));
            }
        }
    }
}

#[test]
fn bad_operands() {
    let bad: [&[u8]; 13] = [
        &[0x02, 0x10, 0x00, 0x00],
        &[0x02, 0xFF, 0x00, 0x00],
        &[0x03, 0x04, 0x00, 0x00],
        &[0x03, 0x80, 0x00, 0x00],
        &[0x05, 0x08, 0x00, 0x00, 0x00],
        &[0x05, 0xFF, 0x00, 0x00, 0x00],
        &[0x05, 0x00, 0x00, 0x40, 0x00],
        &[0x05, 0x07, 0x00, 0x20, 0x00],
        &[0x06, 0x02],
        &[0x06, 0xFF],
        &[0x07, 0x00, 0x10],
        &[0x07, 0x01, 0x00],
        &[0x07, 0x80, 0x00],
    ];
    for front in fronts() {
        for command in bad {
            for tail in [&[][..], &[0xFF], &[0x04, 0x00]] {
                let card = [&front, command, tail].concat();
                assert_eq!(card_answer(&card), (7, front.len() as u64));
            }
        }
    }
}

#[test]
fn short_reports() {
    for call in [Call::Run(7), Call::View] {
        for length in 0..12 {
            let mut case = good(call.clone());
            case.report.truncate(length);
            assert_eq!(answer(&case), (8, 0));
        }
    }
    let card = [0x04, 0x00, 0x01, 0x06, 0x00, 0x04, 0x00, 0x01, 0x04, 0x00, 0x01];
    for length in 0..40 {
        let mut case = good(Call::Card(card.to_vec()));
        case.report.truncate(length);
        assert_eq!(answer(&case), if length < 36 { (8, 0) } else { (0, 36) });
    }
    // A card without runs is content with a report of 0 bytes.
    let mut case = good(Call::Card(vec![0x06, 0x01]));
    case.report.clear();
    assert_eq!(answer(&case), (0, 0));
    // A bad command comes before a short report.
    let mut case = good(Call::Card(vec![0x04, 0x00, 0x01, 0x99]));
    case.report.clear();
    assert_eq!(answer(&case), (5, 3));
}

#[test]
fn refusals_in_the_listing() {
    assert_eq!(card::bench(&[0x06, 0x02, 0xFF]), "refused 7 0\n");
    assert_eq!(card::bench(&[0x06, 0x01, 0x02, 0x10]), "refused 6 2\n");
    assert_eq!(card::bench(&[0x04, 0xFF, 0xFF, 0x00]), "refused 5 3\n");
    assert_eq!(card::bench(&[0x04; 5_000]), "refused 4 0\n");
}
