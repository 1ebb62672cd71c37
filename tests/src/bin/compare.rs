//! Sets libtac.a beside the emulator of this package, byte for byte.
//!
//! compare [--factor N] [--seed N] [--part PART] [--scenario NAME] [--verbose 1]
//! compare --replay FILE
//!
//! PART is words, runs, cards, timers, following, looks, winder, load, pairs or scenarios; without it all parts run, side
//! by side. With `--verbose 1` each case is named before it is tried, for a crash. `--replay` does the case again that a text
//! holds; where something differs, the smallest case found is printed as such a text.

use std::process::exit;
use std::sync::Mutex;
use std::thread;
use std::time::Instant;
use tac_tests::case::{self, difference, perform, Call, Case, Emulator, Outcome, OWN};
use tac_tests::emulator::{Machine, FLAG_BITS, I, P};
use tac_tests::ffi::{self, LIBRARY};
use tac_tests::generate::Maker;
use tac_tests::isolation::{self, After, Pair};
use tac_tests::looks::{self, Looks, Seen};
use tac_tests::met::Met;
use tac_tests::program::Ground;
use tac_tests::reach::Reached;
use tac_tests::replay::{parse, Replay};
use tac_tests::report::{ENDING, NUMBER, REPORT};
use tac_tests::rng::Rng;
use tac_tests::scenarios::{REGISTER_15, SCENARIOS};
use tac_tests::stretches::{self, Stretches};
use tac_tests::wound::{self, Wound};
use tac_tests::{image, met, sample};

/// Held by the part that prints a difference and then ends the program.
static FOUND: Mutex<()> = Mutex::new(());

const BOTH: [Emulator; 2] = [OWN, LIBRARY];

const ROUNDS: u64 = 2;
const RUNS: u64 = 300_000;
const CARDS: u64 = 150_000;
const TIMES: u64 = 40_000;
const FOLLOWING: u64 = 40_000;
const LOOKS: u64 = 15_000;
const WINDINGS: u64 = 20_000;
/// One of so many simulations is done again, and made of runs; of so many runs of records counted window by window.
const AGAIN: u64 = 40;
const STRETCHES: u64 = 40_000;
const PAIRS: u64 = 60_000;
/// One of so many pairs is watched.
const WATCHED: u64 = 20;
/// Cases of each scenario.
const EACH: u64 = 8_000;

/// A part's name, and what does it and gives its text.
type Part = (&'static str, fn(&Arguments) -> String);
const PARTS: [Part; 10] = [
    ("words", words),
    ("runs", runs),
    ("cards", cards),
    ("timers", timers),
    ("following", following),
    ("looks", looks),
    ("winder", winder),
    ("load", load),
    ("pairs", pairs),
    ("scenarios", scenarios),
];

struct Arguments {
    factor: u64,
    seed: u64,
    part: Option<String>,
    scenario: Option<String>,
    verbose: bool,
    replay: Option<String>,
}

const USAGE: &str =
    "usage: compare [--factor N] [--seed N] [--part words|runs|cards|timers|following|looks|winder|load|pairs|scenarios]
               [--verbose 1]
       compare [--factor N] [--seed N] --scenario NAME
       compare --replay FILE";

fn arguments() -> Arguments {
    let mut result = Arguments { factor: 1, seed: 1, part: None, scenario: None, verbose: false, replay: None };
    let mut list = std::env::args().skip(1);
    while let Some(name) = list.next() {
        let value = list.next().unwrap_or_default();
        match (name.as_str(), value.parse::<u64>()) {
            ("--factor", Ok(number)) => result.factor = number,
            ("--seed", Ok(number)) => result.seed = number,
            ("--verbose", Ok(number)) => result.verbose = number != 0,
            ("--part", Err(_)) if PARTS.iter().any(|(part, _)| *part == value) => result.part = Some(value),
            ("--scenario", Err(_)) if SCENARIOS.iter().any(|scenario| scenario.name == value) => {
                result.part = Some("scenarios".to_string());
                result.scenario = Some(value);
            }
            ("--replay", _) if !value.is_empty() => result.replay = Some(value),
            _ => {
                eprintln!("{USAGE}");
                exit(2);
            }
        }
    }
    result
}

/// Prints what was found, with the smallest case, and ends the program.
fn stop(what: &str, smallest: impl FnOnce() -> String) -> ! {
    let _only = FOUND.lock();
    println!("{what}");
    print!("smallest case found, for --replay:\n{}", smallest());
    exit(1);
}

/// The counts that are not 0, each with its number.
fn list(counts: &[u64]) -> String {
    let named = counts.iter().enumerate().filter(|(_, n)| **n != 0);
    named.map(|(k, n)| format!("{k}:{n}")).collect::<Vec<_>>().join(" ")
}

/// How the runs of a part ended.
#[derive(Default)]
struct Count {
    cases: u64,
    refused: [u64; 11],
    endings: [u64; 4],
    entered: [u64; 16],
    steps: u64,
    long: u64,
    /// Runs whose first step was a fault.
    at_once: u64,
    /// Looks by the cause that they gave.
    looks: [u64; 4],
    /// Cases that come to the timers' ports, in which a timer fires, and raises its line.
    timers: [u64; 3],
    met: Met,
}

impl Count {
    /// One run's 12 bytes.
    fn run(&mut self, report: &[u8]) {
        let steps = u16::from_be_bytes([report[2], report[3]]) as u64;
        self.endings[report[0] as usize] += 1;
        if report[0] == 1 {
            self.entered[report[1] as usize] += 1;
            self.at_once += (steps == 1 && report[1] >= 10) as u64;
        }
        self.steps += steps;
        self.long += (steps >= 100) as u64;
    }

    /// What timers met since the last case, on this thread.
    fn timers(&mut self) {
        let met = met::take();
        for (count, holds) in self.timers.iter_mut().zip([met.ports(), met.fired(), met.raised()]) {
            *count += holds as u64;
        }
        self.met += met;
    }

    /// The number that a look gave.
    fn look(&mut self, number: u64) {
        self.looks[(number >> 24) as usize] += 1;
    }

    fn outcome(&mut self, call: &Call, outcome: &Outcome) {
        self.cases += 1;
        let refusal = (outcome.answer >> 32) as usize;
        if refusal != 0 {
            self.refused[refusal] += 1;
            return;
        }
        if *call == Call::Fault {
            self.look(outcome.answer);
            return;
        }
        if matches!(call, Call::Wind(_) | Call::Busiest(_)) {
            return;
        }
        for report in outcome.report[..outcome.answer as usize].chunks(REPORT) {
            self.run(report);
        }
    }

    fn text(&self, name: &str, start: Instant) -> String {
        let runs: u64 = self.endings.iter().sum();
        let mut text = format!("{name}: {} cases, {:.1} s, all equal\n", self.cases, start.elapsed().as_secs_f64());
        if runs != 0 {
            let [spent, entered, halted, lost] = self.endings;
            text += &format!("  runs {runs}: spent {spent}, entered {entered}, halted {halted}, lost {lost}\n");
            let average = self.steps as f64 / runs as f64;
            let (steps, long, at_once) = (self.steps, self.long, self.at_once);
            text += &format!(
                "  steps {steps}: {average:.1} a run, {long} runs of 100 or more, {at_once} with a fault at the first\n"
            );
        }
        let lists = [
            ("entered by number", &self.entered[..]),
            ("refused by number", &self.refused),
            ("looks by cause", &self.looks),
        ];
        for (what, counts) in lists.iter().filter(|(_, counts)| counts.iter().any(|n| *n != 0)) {
            text += &format!("  {what}: {}\n", list(counts));
        }
        let [ports, fired, raised] = self.timers;
        if self.timers != [0; 3] {
            text += &format!("  cases with ports 00h to 07h {ports}, with a firing {fired}, with its line {raised}\n");
        }
        text
    }
}

/// The buffers of both emulators, used again for every case.
#[derive(Default)]
struct Bench {
    verbose: bool,
    own: Outcome,
    library: Outcome,
}

impl Bench {
    fn new(args: &Arguments) -> Bench {
        Bench { verbose: args.verbose, ..Bench::default() }
    }

    /// Does the case twice; on a difference prints the smallest case and ends.
    fn compare(&mut self, case: &Case, count: &mut Count, place: &dyn Fn() -> String) {
        if self.verbose {
            eprintln!("{}", place());
        }
        perform(&OWN, case, &mut self.own);
        count.timers();
        perform(&LIBRARY, case, &mut self.library);
        if self.own != self.library {
            let found = difference(&self.own, &self.library).unwrap_or_default();
            stop(&format!("MISMATCH in {}\nas found: {found}", place()), || {
                let small = case::shrink(case, &|c| case::differ(&OWN, &LIBRARY, c));
                case::describe(&small, &OWN, &LIBRARY)
            });
        }
        count.outcome(&case.call, &self.own);
    }
}

/// A start for single steps: random memory, useful TLB.
fn word_start(rng: &mut Rng, mmu_on: bool, bits: u16) -> (Machine, Ground) {
    let mut machine = Machine::new();
    rng.fill(&mut machine.memory);
    machine.tlb = sample::tlb(rng);
    sample::make_useful(rng, &mut machine.tlb);
    machine.mmu_on = mmu_on;
    machine.flag = bits;
    let ground = if mmu_on && bits & P == 0 { Ground::of_tlb(&machine.tlb) } else { Ground::untranslated(rng) };
    (machine, ground)
}

/// Every first word, one step, in each mode.
fn words(args: &Arguments) -> String {
    let settings = [
        ("user", true, 0),
        ("user with I/O", true, I),
        ("user, MMU off", false, 0),
        ("kernel", true, P),
        ("kernel, MMU off", false, P | I),
    ];
    let mut bench = Bench::new(args);
    let mut text = String::new();
    for (k, (name, mmu_on, bits)) in settings.into_iter().enumerate() {
        let start = Instant::now();
        let mut count = Count::default();
        for round in 0..ROUNDS * args.factor {
            let mut rng = Rng::of_case(args.seed, 1 + k as u64, round);
            let (mut machine, ground) = word_start(&mut rng, mmu_on, bits);
            let mut case = Case::empty();
            case.memory = std::mem::take(&mut machine.memory);
            case.report = vec![0xEE; REPORT];
            case.call = Call::Run(1);
            let pages = [&ground.code[..], &ground.read, &ground.write].concat();
            for first in 0..=0xFFFFu16 {
                word_state(&mut rng, &mut machine, &ground, &pages, bits);
                let place = [0, 2].map(|d| instruction_place(&machine, &ground, d));
                let kept = place.map(|at| [case.memory[at], case.memory[at + 1]]);
                let second = second_word(&mut rng, &machine, &pages, first);
                case.memory[place[1]..place[1] + 2].copy_from_slice(&second.to_be_bytes());
                case.memory[place[0]..place[0] + 2].copy_from_slice(&first.to_be_bytes());
                case.image.clear();
                case.image.extend_from_slice(&image::write(&machine));
                bench.compare(&case, &mut count, &|| format!("words, {name}, round {round}, first word {first:04X}"));
                case.memory[place[1]..place[1] + 2].copy_from_slice(&kept[1]);
                case.memory[place[0]..place[0] + 2].copy_from_slice(&kept[0]);
            }
        }
        text += &count.text(&format!("words ({name})"), start);
    }
    text
}

fn word_state(rng: &mut Rng, machine: &mut Machine, ground: &Ground, pages: &[u8], bits: u16) {
    for n in 0..13 {
        machine.regs[n] = if rng.chance(5) { rng.pick(&sample::PORTS) } else { sample::value(rng, pages) };
    }
    machine.ssp = sample::value(rng, &ground.write) & if rng.chance(90) { 0xFFFE } else { 0xFFFF };
    machine.usp = sample::value(rng, &ground.write);
    machine.pc = sample::inside(rng, &ground.code) & 0xFFFE;
    machine.flag = bits | rng.word() & FLAG_BITS & !(P | I);
    machine.violation = rng.word();
    machine.cause = rng.below(4) as u8;
    machine.missed = rng.byte();
    machine.input = rng.byte();
    machine.timers = sample::timers(rng);
}

/// A second word. In mode 1, half of the time, it leads by the register that the first word names to where it would have
/// led alone: to one of the pages, mostly.
fn second_word(rng: &mut Rng, machine: &Machine, pages: &[u8], first: u16) -> u16 {
    let value = sample::value(rng, pages);
    if first >> 8 & 7 != 1 || rng.chance(50) {
        return value;
    }
    let index = match first & 15 {
        15 => machine.pc.wrapping_add(4),
        number => machine.reg(number as usize),
    };
    value.wrapping_sub(index)
}

/// Where the word at PC + d lies, for the program's own page.
fn instruction_place(machine: &Machine, ground: &Ground, d: u16) -> usize {
    let address = machine.pc.wrapping_add(d);
    ground.frame(&machine.tlb, (address >> 8) as u8) + (address & 0xFF) as usize
}

/// So many random cases, each of its own generator: `part` is a number that no other part has.
fn random(
    args: &Arguments,
    name: &str,
    part: u64,
    cases: u64,
    count: &mut Count,
    make: &mut dyn FnMut(&mut Rng, &mut Case),
) {
    let (mut bench, mut case) = (Bench::new(args), Case::empty());
    for index in 0..cases * args.factor {
        make(&mut Rng::of_case(args.seed, part, index), &mut case);
        bench.compare(&case, count, &|| format!("{name}, case {index}"));
    }
}

fn runs(args: &Arguments) -> String {
    let (start, mut count, mut maker) = (Instant::now(), Count::default(), Maker::new());
    random(args, "runs", 20, RUNS, &mut count, &mut |rng, case| maker.run_case(rng, case));
    count.text("runs", start)
}

fn cards(args: &Arguments) -> String {
    let (start, mut count, mut maker) = (Instant::now(), Count::default(), Maker::new());
    random(args, "cards", 30, CARDS, &mut count, &mut |rng, case| maker.card_case(rng, case));
    count.text("cards", start)
}

/// Cards of times and runs. Everything that can happen to a timer has to happen to both.
fn timers(args: &Arguments) -> String {
    let (start, mut count, mut maker) = (Instant::now(), Count::default(), Maker::new());
    random(args, "timers", 46, TIMES, &mut count, &mut |rng, case| maker.time_case(rng, case));
    happened("timers", &count.met.lacking());
    count.text("timers", start) + &count.met.text()
}

/// Ends the program if something has never happened.
fn happened(part: &str, lacking: &[String]) {
    if !lacking.is_empty() {
        println!("{part}: this never happened: {}", lacking.join("; "));
        exit(1);
    }
}

/// Register 15. Each use of it has to be met in the kernel, by a user and by a user without the MMU, by the first step
/// of a run and by a later one that leaves the TLB as it is.
fn following(args: &Arguments) -> String {
    let (start, mut count, mut reached) = (Instant::now(), Count::default(), Reached::default());
    random(args, "following", 47, FOLLOWING, &mut count, &mut |rng, case| {
        REGISTER_15.case(rng, case);
        reached.case(case);
    });
    happened("following", &reached.lacking());
    count.text("following", start) + &reached.text()
}

/// Each scenario in turn.
fn scenarios(args: &Arguments) -> String {
    let (start, mut count) = (Instant::now(), Count::default());
    for (k, scenario) in SCENARIOS.iter().enumerate() {
        if args.scenario.as_deref().is_none_or(|name| name == scenario.name) {
            let name = format!("scenarios, {}", scenario.name);
            random(args, &name, 50 + k as u64, EACH, &mut count, &mut |rng, case| scenario.case(rng, case));
        }
    }
    count.text("scenarios", start)
}

/// Looks between runs, and before and behind the kernel's IN.
fn looks(args: &Arguments) -> String {
    let (start, mut count) = (Instant::now(), Count::default());
    let (mut maker, mut looks) = (Maker::new(), Looks::empty());
    let mut after = [[0; 4]; 16];
    for index in 0..LOOKS * args.factor {
        maker.looks(&mut Rng::of_case(args.seed, 45, index), &mut looks);
        if args.verbose {
            eprintln!("looks, case {index}");
        }
        assert!(looks::asked(&looks));
        match looks::check(BOTH, &looks) {
            Ok(Seen { report, look }) => {
                count.cases += 1;
                count.run(&report);
                count.look(look);
                count.timers();
                if report[ENDING] == 1 {
                    after[report[NUMBER] as usize][(look >> 24) as usize] += 1;
                }
            }
            Err(what) => stop(&format!("MISMATCH in looks, case {index}\nas found: {what}"), || {
                looks::describe(BOTH, &looks::shrink(BOTH, &looks))
            }),
        }
    }
    let found = [10, 11].map(|number| format!("  looks by cause after entry {number}: {}\n", list(&after[number])));
    count.text("looks", start) + &found.concat()
}

/// Simulations of a winder. Everything that can happen in one has to happen; some of them are made of the library's own
/// runs, too.
fn winder(args: &Arguments) -> String {
    let (start, mut count, mut maker, mut wound) = (Instant::now(), Count::default(), Maker::new(), Wound::default());
    let [mut made, mut cut] = [0u64; 2];
    random(args, "winder", 48, WINDINGS, &mut count, &mut |rng, case| {
        maker.wind_case(rng, case);
        wound.case(case);
        if made % AGAIN == 0 {
            cut += wound::asked(case) as u64;
            simulation_again(args, case, made);
        }
        made += 1;
    });
    let refused = [1, 2, 3, 9].into_iter().filter(|number| count.refused[*number] == 0);
    let lacking: Vec<String> = refused.map(|number| format!("refusal {number}")).chain(wound.lacking()).collect();
    happened("winder", &lacking);
    count.text("winder", start) + &wound.text() + &format!("  simulations made of runs, too: {cut}\n")
}

/// The library's simulation beside its runs, if it is not refused, and with other bytes behind its buffers.
fn simulation_again(args: &Arguments, case: &Case, index: u64) {
    if args.verbose {
        eprintln!("winder, case {index}, again");
    }
    let unlike = |case: &Case| if wound::asked(case) { wound::unlike_runs(&LIBRARY, case) } else { None };
    let smallest = |fails: &dyn Fn(&Case) -> bool| case::describe(&case::shrink(case, fails), &OWN, &LIBRARY);
    if let Some(found) = unlike(case) {
        let what = format!("NOT LIKE ITS RUNS in winder, case {index}\nas found: {found}");
        stop(&what, || smallest(&|case| unlike(case).is_some()));
    }
    if wound::writes_behind(&LIBRARY, case) {
        let what = format!("WRITES BEHIND A BUFFER in winder, case {index}");
        stop(&what, || smallest(&|case| wound::writes_behind(&LIBRARY, case)));
    }
}

/// Runs of records. Everything that a run, a width and its windows can be has to be met.
fn load(args: &Arguments) -> String {
    let (start, mut count, mut stretches) = (Instant::now(), Count::default(), Stretches::default());
    let mut made = 0u64;
    random(args, "load", 49, STRETCHES, &mut count, &mut |rng, case| {
        stretches::draw(rng, case);
        stretches.case(case);
        if made.is_multiple_of(AGAIN) {
            stretch_again(args, case, made);
        }
        made += 1;
    });
    happened("load", &stretches.lacking());
    count.text("load", start) + &stretches.text()
}

/// The library's figure by the words of the request, window by window, and with other bytes around the records.
fn stretch_again(args: &Arguments, case: &Case, index: u64) {
    if args.verbose {
        eprintln!("load, case {index}, again");
    }
    let must_not = |what: &str, fails: &dyn Fn(&Case) -> bool| {
        if fails(case) {
            stop(&format!("{what} in load, case {index}"), || {
                case::describe(&case::shrink(case, fails), &OWN, &LIBRARY)
            });
        }
    };
    must_not("NOT ALLOWED", &|case| !stretches::allowed(&LIBRARY, case));
    must_not("LOOKS AROUND ITS BUFFER", &|case| stretches::looks_around(&LIBRARY, case));
}

/// Demand 3, on the library alone.
fn pairs(args: &Arguments) -> String {
    let start = Instant::now();
    let mut count = Count::default();
    let (mut maker, mut pair) = (Maker::new(), Pair::empty());
    let (mut a, mut b) = (After::empty(), After::empty());
    let [mut handlers, mut overwrote, mut stored] = [0u64; 3];
    let mut reached = Reached::default();
    for index in 0..PAIRS * args.factor {
        let mut rng = Rng::of_case(args.seed, 40, index);
        maker.pair(&mut rng, &mut pair);
        if args.verbose {
            eprintln!("pairs, case {index}");
        }
        assert!(isolation::asked(&pair) && pair.first != pair.second);
        if index % WATCHED == 0 {
            reached.pair(&pair);
        }
        match isolation::check(ffi::run, &pair, &mut a, &mut b) {
            Ok(seen) => {
                count.cases += 1;
                count.run(&seen.report);
                handlers += seen.other_handler as u64;
                overwrote += seen.overwrote as u64;
                stored += seen.stored as u64;
            }
            Err(what) => stop(&format!("DEMAND 3 FAILS in pairs, case {index}: {what}"), || {
                isolation::describe(ffi::run, &isolation::shrink(ffi::run, &pair))
            }),
        }
    }
    happened("pairs", &reached.lacking_for_users());
    let found = format!(
        "  pairs with different handlers {handlers}, with secrets overwritten {overwrote}, with stores {stored}\n"
    );
    count.text("pairs", start) + &found + &reached.text()
}

/// Does the case of a text again; true if nothing differs.
fn replay(name: &str) -> Result<bool, String> {
    let text = std::fs::read_to_string(name).map_err(|error| format!("{name}: {error}"))?;
    match parse(&text)? {
        Replay::Case(case) => {
            print!("{}", case::describe(&case, &OWN, &LIBRARY));
            Ok(!case::differ(&OWN, &LIBRARY, &case))
        }
        Replay::Looks(looks) if looks::asked(&looks) => {
            print!("{}", looks::describe(BOTH, &looks));
            Ok(looks::check(BOTH, &looks).is_ok())
        }
        Replay::Looks(_) => Err("looks stand between runs on good buffers".to_string()),
        Replay::Pair(pair) if isolation::asked(&pair) => {
            print!("{}", isolation::describe(ffi::run, &pair));
            Ok(isolation::check(ffi::run, &pair, &mut After::empty(), &mut After::empty()).is_ok())
        }
        Replay::Pair(_) => Err("demand 3 is not about such a pair".to_string()),
    }
}

fn main() {
    let args = arguments();
    if let Some(name) = &args.replay {
        match replay(name) {
            Ok(equal) => exit(!equal as i32),
            Err(what) => {
                eprintln!("{what}");
                exit(2);
            }
        }
    }
    println!("compare: seed {}, factor {}", args.seed, args.factor);
    let wanted = |name: &str| args.part.as_deref().is_none_or(|part| part == name);
    thread::scope(|scope| {
        let started: Vec<_> =
            PARTS.iter().filter(|(name, _)| wanted(name)).map(|(_, part)| scope.spawn(|| part(&args))).collect();
        for part in started {
            print!("{}", part.join().unwrap());
        }
    });
    println!("no mismatch");
}
