//! Cases as text and as cards.

use crate::common::*;
use tac_tests::card::{self, bench};
use tac_tests::case::{perform, Call, Case, Outcome, OWN};
use tac_tests::generate::Maker;
use tac_tests::image;
use tac_tests::isolation::Pair;
use tac_tests::looks::Looks;
use tac_tests::replay::{as_card, card_lines, case_text, looks_text, pair_as_cards, pair_text, parse, Replay};
use tac_tests::rng::Rng;
use tac_tests::stretches;
use tac_tests::winder::Settings;

/// Random cases, runs with looks and pairs come back from their text, whatever stands around it.
#[test]
fn texts_are_read_back() {
    let (mut maker, mut case, mut looks, mut pair) = (Maker::new(), Case::empty(), Looks::empty(), Pair::empty());
    for index in 0..200 {
        let mut rng = Rng::of_case(21, 1, index);
        match index % 5 {
            0 => maker.run_case(&mut rng, &mut case),
            1 => maker.card_case(&mut rng, &mut case),
            2 => maker.wind_case(&mut rng, &mut case),
            3 => {
                maker.looks(&mut rng, &mut looks);
                let text = format!("found it:\n{}\nimage 00\n", looks_text(&looks));
                assert!(matches!(parse(&text), Ok(Replay::Looks(back)) if back == looks));
                case.call = Call::Fault;
            }
            _ => {
                maker.pair(&mut rng, &mut pair);
                let text = format!("found it:\n{}\nimage 00\n", pair_text(&pair));
                assert!(matches!(parse(&text), Ok(Replay::Pair(back)) if back == pair));
            }
        }
        let text = format!("runs 5\n{}image 00\nend\n", case_text(&case));
        assert!(matches!(parse(&text), Ok(Replay::Case(back)) if back == case));
    }
    for index in 0..40 {
        stretches::draw(&mut Rng::of_case(21, 2, index), &mut case);
        let text = format!("runs 5\n{}image 00\nend\n", case_text(&case));
        assert!(matches!(parse(&text), Ok(Replay::Case(back)) if back == case));
    }
}

#[test]
fn bad_texts() {
    let bad = [
        "",
        "case\nend",
        "case run\nmemory 0\nend",
        "case run x\nmemory 0\nend",
        "case view\nend",
        "case fault\nend",
        "case fault 4\nmemory 4\nend",
        "case run 4 looks\nmemory 4\nend",
        "case run 4 looks x\nmemory 4\nend",
        "case view looks 4\nmemory 4\nend",
        "case wind 1 2 3 4\nmemory 4\nend",
        "case wind 1 2 3 4 5 6\nmemory 4\nend",
        "case wind 1 2 3 4 x\nmemory 4\nend",
        "case wind 1 2 3 4 4294967296\nmemory 4\nend",
        "case busiest\nmemory 4\nend",
        "case busiest x\nmemory 4\nend",
        "case busiest 1 2\nmemory 4\nend",
        "case busiest 4294967296\nmemory 4\nend",
        "case run 65536\nmemory 4\nend",
        "case view\nmemory 4\nat 0003 0102\nend",
        "case view\nat 0000 01\nend",
        "case view\nmemory 4\nimage 0\nend",
        "case view\nmemory 4\nimages 00\nend",
        "case pair 4\nmemory 4\nother 4\nimage 00\nend",
        "case card 0G\nmemory 4\nend",
    ];
    for text in bad {
        assert!(parse(text).is_err(), "{text}");
    }
}

/// A case that a card can make gives the same listing by `bench`.
#[test]
fn cases_as_cards() {
    let mut m = user(&[0x0D05, 0x1D02, 0xF000]);
    m.flag = 0x88;
    m.pending = 0x0200;
    m.input = 7;
    let calls = [
        Call::Run(9),
        Call::View,
        Call::Card(vec![
            0x04, 0x00, 0x01, 0x07, 0x00, 0x00, 0x02, 0x0F, 0x12, 0x00, 0x08, 0x00, 0x09, 0x04, 0x00, 0x09,
        ]),
    ];
    for call in calls {
        let case = Case { memory: m.memory.clone(), image: image::write(&m).to_vec(), report: vec![0; 24], call };
        let mut out = Outcome::default();
        perform(&OWN, &case, &mut out);
        let card = as_card(&case).expect("a card");
        assert_eq!(bench(&card), card::listing(out.answer, &out.report));
        let lines = card_lines(&card);
        assert!(lines.starts_with("01 34 00 0D\n01 34 01 05\n") && lines.contains("\n03 02 00 07\n06 01\n07 00 88\n"));
        let pair = Pair { first: m.memory.clone(), second: m.memory.clone(), image: image::write(&m), allowance: 9 };
        let [first, second] = pair_as_cards(&pair).expect("cards");
        assert_eq!(first, second);
    }
}

/// What a card can't make, or would answer in another way, is not given as one.
#[test]
fn cases_that_are_no_cards() {
    let m = kernel(&[0xF000]);
    let good =
        Case { memory: m.memory.clone(), image: image::write(&m).to_vec(), report: vec![0; 12], call: Call::View };
    assert!(as_card(&good).is_some());
    let ones = [37, 39, 40, 42, 43, 71, 73, 75, 79, 81, 83].map(|offset| (offset, 1));
    for (offset, value) in ones.into_iter().chain([(33, 0x50)]) {
        let mut case = good.clone();
        case.image[offset] = value;
        assert_eq!(as_card(&case), None, "{offset}");
    }
    assert_eq!(as_card(&Case { report: vec![0; 11], ..good.clone() }), None);
    for call in [Call::Fault, Call::Wind(Settings::of([1; 5])), Call::Busiest(1)] {
        assert_eq!(as_card(&Case { call, ..good.clone() }), None);
    }
    assert_eq!(as_card(&Case { memory: vec![1; m.memory.len()], ..good.clone() }), None);
    // A refused card is given as it is, and only where nothing is to be set.
    let bad = Call::Card(vec![0x06, 0x01, 0x09]);
    assert_eq!(as_card(&Case { call: bad.clone(), ..good.clone() }), None);
    let mut image = vec![0; image::IMAGE];
    image[image::FLAG + 1] = 0x40;
    let case = Case { memory: vec![0; m.memory.len()], image, call: bad, ..good };
    assert_eq!(as_card(&case), Some(vec![0x06, 0x01, 0x09]));
    assert_eq!(card_lines(&[0x06, 0x01, 0x09]), "06 01\n09\n");
    assert_eq!(card_lines(&[0x08, 0x00, 0x0A, 0x04, 0x00, 0x01, 0x08, 0x00]), "08 00 0A\n04 00 01\n08 00\n");
}
