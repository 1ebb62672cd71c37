//! The generators and checks of `compare`, tried on this package's emulator.

use tac_tests::card;
use tac_tests::case::{self, perform, Call, Case, Outcome, OWN};
use tac_tests::emulator::{Machine, MEMORY, P};
use tac_tests::generate::Maker;
use tac_tests::image;
use tac_tests::isolation::{self, After, Pair};
use tac_tests::reach::Reached;
use tac_tests::rng::Rng;

/// Demand 3 holds, and the pairs say something: long runs, entries, stores, reads, stores and jumps by register 15.
#[test]
fn pairs() {
    let (mut maker, mut pair) = (Maker::new(), Pair::empty());
    let (mut a, mut b) = (After::empty(), After::empty());
    let [mut long, mut handlers, mut overwrote, mut stored] = [0; 4];
    let mut reached = Reached::default();
    for index in 0..400 {
        maker.pair(&mut Rng::of_case(11, 1, index), &mut pair);
        reached.pair(&pair);
        let seen = isolation::check(card::run, &pair, &mut a, &mut b).expect("demand 3");
        long += (u16::from_be_bytes([seen.report[2], seen.report[3]]) >= 100) as u32;
        handlers += seen.other_handler as u32;
        overwrote += seen.overwrote as u32;
        stored += seen.stored as u32;
    }
    assert!(long > 100 && handlers > 50 && overwrote > 100 && stored > 100, "{long} {handlers} {overwrote} {stored}");
    assert_eq!(reached.lacking_for_users(), Vec::<String>::new());
}

/// An emulator that lets memory through: the check notices.
#[test]
fn leaks_are_seen() {
    fn leaky(memory: &mut [u8], image: &mut [u8], allowance: u16, report: &mut [u8]) -> u64 {
        let leak = memory[0xFFE0..].iter().fold(0u8, |sum, byte| sum ^ byte);
        let answer = card::run(memory, image, allowance, report);
        image[1] = leak;
        answer
    }
    let (mut maker, mut pair) = (Maker::new(), Pair::empty());
    let (mut a, mut b) = (After::empty(), After::empty());
    let mut failed = 0;
    for index in 0..20 {
        maker.pair(&mut Rng::of_case(12, 1, index), &mut pair);
        if isolation::check(leaky, &pair, &mut a, &mut b).is_err() {
            failed += 1;
            let small = isolation::shrink(leaky, &pair);
            assert!(isolation::asked(&small));
            assert!(isolation::describe(leaky, &small).contains("images differ at offset 1"));
        }
    }
    assert!(failed > 5, "{failed}");
}

/// An emulator whose runs let time pass: the check notices, though both runs are alike.
#[test]
fn ticking_runs_are_seen() {
    fn ticking(memory: &mut [u8], image: &mut [u8], allowance: u16, report: &mut [u8]) -> u64 {
        let answer = card::run(memory, image, allowance, report);
        let mut machine = image::read(Vec::new(), image);
        machine.pass(1);
        image.copy_from_slice(&image::write(&machine));
        answer
    }
    let (mut maker, mut pair) = (Maker::new(), Pair::empty());
    let (mut a, mut b) = (After::empty(), After::empty());
    let failed = (0..20).filter(|index| {
        maker.pair(&mut Rng::of_case(12, 2, *index), &mut pair);
        isolation::check(ticking, &pair, &mut a, &mut b).is_err_and(|what| what == "a timer changed")
    });
    assert!(failed.count() > 5);
}

/// Runs and cards of all endings and refusals are made, and looks that give each cause.
#[test]
fn cases_are_varied() {
    let (mut maker, mut case, mut out) = (Maker::new(), Case::empty(), Outcome::default());
    let (mut refused, mut endings, mut entered, mut looks) = ([0; 9], [0; 4], [0; 16], [0; 4]);
    for index in 0..3_000 {
        let mut rng = Rng::of_case(13, 1, index);
        if index % 2 == 0 {
            maker.run_case(&mut rng, &mut case);
        } else {
            maker.card_case(&mut rng, &mut case);
        }
        perform(&OWN, &case, &mut out);
        let refusal = (out.answer >> 32) as usize;
        refused[refusal] += 1;
        if refusal != 0 {
            continue;
        }
        if case.call == Call::Fault {
            looks[(out.answer >> 24) as usize] += 1;
            continue;
        }
        for report in out.report[..out.answer as usize].chunks(12) {
            endings[report[0] as usize] += 1;
            if report[0] == 1 {
                entered[report[1] as usize] += 1;
            }
        }
    }
    assert!(refused.iter().all(|n| *n > 0), "{refused:?}");
    assert!(endings.iter().all(|n| *n > 10), "{endings:?}");
    assert!(entered.iter().all(|n| *n > 0), "{entered:?}");
    assert!(looks.iter().all(|n| *n > 0), "{looks:?}");
}

/// Shrinking keeps the failure and takes the rest away.
#[test]
fn shrinking() {
    let mut machine = Machine::new();
    machine.flag = P;
    machine.regs = [0x7777; 13];
    Rng::new(5).fill(&mut machine.memory[0x4000..0x8000]);
    let case = Case {
        memory: machine.memory.clone(),
        image: image::write(&machine).to_vec(),
        report: vec![0; 12],
        call: Call::Run(5_000),
    };
    // It "fails" if G3's upper byte is 77h and the run makes 30 steps or more.
    let fails = |c: &Case| matches!(c.call, Call::Run(n) if n >= 30) && c.image[6] == 0x77 && c.memory[0x5001] != 0;
    let small = case::shrink(&case, &fails);
    assert!(fails(&small));
    assert!(matches!(small.call, Call::Run(30)));
    assert_eq!(small.image.iter().filter(|b| **b != 0).count(), 2);
    assert!(small.memory.len() == MEMORY && small.memory.iter().filter(|b| **b != 0).count() <= 2);
    // A card loses what is not needed.
    let card = [[0x06, 0x01].repeat(50), vec![0x07, 0x00, 0x4F], [0x06, 0x00].repeat(9)].concat();
    let case = Case { call: Call::Card(card), ..case };
    let fails = |c: &Case| matches!(&c.call, Call::Card(card) if card.contains(&0x4F));
    assert!(matches!(case::shrink(&case, &fails).call, Call::Card(card) if card == [0x4F]));
}
