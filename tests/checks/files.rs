//! Cards and listings that the repository stores.

use std::fs;
use std::path::{Path, PathBuf};
use tac_tests::card;
use tac_tests::stored::{self, Stored};

pub fn at_root(path: &str) -> PathBuf {
    Path::new(env!("CARGO_MANIFEST_DIR")).join("..").join(path)
}

fn bytes(path: &str) -> Vec<u8> {
    fs::read(at_root(path)).unwrap_or_else(|error| panic!("{path}: {error}"))
}

pub fn text(path: &str) -> String {
    String::from_utf8(bytes(path)).expect("listings are text")
}

/// The card that `bench` is run on is the worked one.
#[test]
fn worked_card_of_bench() {
    assert_eq!(bytes("crates/bench/stdin"), stored::all()[0].card);
    assert_eq!(text("crates/bench/stdout"), "runs 2\nentered 15 4 21 0008 0040\nhalted - 1 5 0002 0040\n");
}

/// The stored files are what `cargo run --bin store` writes.
#[test]
fn stored_files() {
    let (input, output) = stored::files(&stored::all());
    assert!(bytes("crates/stored/stdin") == input, "crates/stored/stdin is not what `store` writes");
    assert!(text("crates/stored/stdout") == output, "crates/stored/stdout is not what `store` writes");
    assert!(input.len() < 60_000 && output.len() < 60_000, "{} {}", input.len(), output.len());
}

/// The stored input, read by its format, gives the stored output.
#[test]
fn stored_input_read_back() {
    let input = bytes("crates/stored/stdin");
    let mut rest = &input[..];
    let mut output = String::new();
    while let [m, n, image_lacks, f, g, r, s, c, d, more @ ..] = rest {
        let number = |a: &u8, b: &u8| *a as u16 * 256 + *b as u16;
        let (card, behind) = more.split_at(number(c, d) as usize);
        let case = Stored {
            name: String::new(),
            memory_lacks: number(m, n),
            image_lacks: *image_lacks,
            flag: number(f, g),
            report: number(r, s),
            card: card.to_vec(),
        };
        output.push_str(&case.listing());
        rest = behind;
    }
    assert!(rest.is_empty());
    assert!(output == text("crates/stored/stdout"));
}

/// Every refusal, every ending and every number of an entry is stored.
#[test]
fn stored_is_varied() {
    let output = text("crates/stored/stdout");
    let lines: Vec<&str> = output.lines().collect();
    let begins = |front: String| assert!(lines.iter().any(|line| line.starts_with(&front)), "no line with {front}");
    (1..=8).for_each(|number| begins(format!("refused {number} ")));
    (0..=15).for_each(|number| begins(format!("entered {number} ")));
    ["spent", "halted", "lost"].iter().for_each(|ending| begins(format!("{ending} - ")));
}

/// Rd 15: the kernel's first step; a user's second.
const PC_AS_RD: &str = "runs 2\nentered 14 1 12 0100 0040\nentered 14 2 15 1202 0000\n";

/// Listings that were worked out by hand from documents 01 and 02.
const BY_HAND: &[(&str, &str)] = &[
    ("the worked card", "runs 2\nentered 15 4 21 0008 0040\nhalted - 1 5 0002 0040\n"),
    ("an empty card", "runs 0\n"),
    // ADD in mode 5 and a jump; PC goes from FFFEh to 0000h, then to G0.
    ("01 at both ends of memory", "runs 1\nspent - 2 9 0005 0040\n"),
    // SVC; then SSP, 4 less than set, and USP, which is 0.
    (
        "02 for number 13 is SSP while P=0",
        "runs 3\nentered 15 1 12 0002 0000\nspent - 1 5 1FFC 0040\nspent - 1 5 0000 0040\n",
    ),
    // Line 2; RETI and line 9; RETI and two NO.
    (
        "03 adds lines: both are entered, the lowest first",
        "runs 3\nentered 2 1 12 0000 00C0\nentered 9 2 21 0000 00C0\nspent - 3 15 0004 00C0\n",
    ),
    ("03 sets the input byte, read from port 18h", "runs 2\nspent - 2 12 005A 0040\nspent - 2 12 00FF 0040\n"),
    ("04 with 65,535 steps", "runs 1\nspent - 65535 327675 0000 0040\n"),
    // 32,768 DIV at 73 and 32,767 jumps at 5.
    (
        "04 with 65,535 steps, half of them DIV",
        "runs 2\nspent - 65535 2555899 0004 0041\nspent - 1 5 0000 0041\n",
    ),
    // NO, LD in mode 5 and a jump to what it gave: -8 to 7.
    (
        "immediates of four bits",
        "runs 16\n\
         spent - 3 12 FFF8 0040\nspent - 3 12 FFF9 0040\nspent - 3 12 FFFA 0040\nspent - 3 12 FFFB 0040\n\
         spent - 3 12 FFFC 0040\nspent - 3 12 FFFD 0040\nspent - 3 12 FFFE 0040\nspent - 3 12 FFFF 0040\n\
         spent - 3 12 0000 0040\nspent - 3 12 0001 0040\nspent - 3 12 0002 0040\nspent - 3 12 0003 0040\n\
         spent - 3 12 0004 0040\nspent - 3 12 0005 0040\nspent - 3 12 0006 0040\nspent - 3 12 0007 0040\n",
    ),
    // NO, LD in mode 3 and a jump to the address that was read: FP-16 to FP+14.
    (
        "words read at FP + 2 × D4",
        "runs 16\n\
         spent - 3 15 02F0 0040\nspent - 3 15 02F2 0040\nspent - 3 15 02F4 0040\nspent - 3 15 02F6 0040\n\
         spent - 3 15 02F8 0040\nspent - 3 15 02FA 0040\nspent - 3 15 02FC 0040\nspent - 3 15 02FE 0040\n\
         spent - 3 15 0300 0040\nspent - 3 15 0302 0040\nspent - 3 15 0304 0040\nspent - 3 15 0306 0040\n\
         spent - 3 15 0308 0040\nspent - 3 15 030A 0040\nspent - 3 15 030C 0040\nspent - 3 15 030E 0040\n",
    ),
    // LD and a jump to what it gave; the same behind a NO.
    ("LD G0,PC at 0100h", "runs 2\nspent - 2 9 0102 0040\nspent - 3 12 0102 0040\n"),
    // The word at 0200h + 0104h.
    ("LD G0,[Dsp+PC] at 0100h", "runs 2\nspent - 2 12 5AA4 0040\nspent - 3 15 5AA4 0040\n"),
    // The jump's own first word, and its upper half.
    ("a word read by [PC]", "runs 2\nspent - 2 11 A1F0 0040\nspent - 3 14 A1F0 0040\n"),
    ("a byte read by [PC]", "runs 2\nspent - 2 11 00A1 0040\nspent - 3 14 00A1 0040\n"),
    // 1234h and 0102h; CMP keeps 1234h, the shifts go by 2.
    (
        "ADD to SHRL with PC as the source",
        "runs 28\n\
         spent - 2 10 1336 0040\nspent - 2 10 1132 0040\nspent - 2 10 1234 0040\nspent - 2 10 0000 0041\n\
         spent - 2 10 1336 0040\nspent - 2 10 1336 0040\nspent - 2 11 1438 0040\nspent - 2 60 5868 0040\n\
         spent - 2 76 0012 0040\nspent - 2 76 0010 0040\nspent - 2 13 48D0 0040\nspent - 2 13 48D0 0040\n\
         spent - 2 13 048D 0040\nspent - 2 13 048D 0040\n\
         spent - 3 13 1336 0040\nspent - 3 13 1132 0040\nspent - 3 13 1234 0040\nspent - 3 13 0000 0041\n\
         spent - 3 13 1336 0040\nspent - 3 13 1336 0040\nspent - 3 14 1438 0040\nspent - 3 63 5868 0040\n\
         spent - 3 79 0012 0040\nspent - 3 79 0010 0040\nspent - 3 16 48D0 0040\nspent - 3 16 48D0 0040\n\
         spent - 3 16 048D 0040\nspent - 3 16 048D 0040\n",
    ),
    ("IN by [PC] at 0016h", "runs 2\nspent - 2 11 005A 0040\nspent - 3 14 005A 0040\n"),
    ("a word stored at [Dsp+PC]", "runs 2\nspent - 3 18 1357 0040\nspent - 4 21 1357 0040\n"),
    // ST, what was NO and is now LD G0,5, a jump to G0.
    ("ST by [PC] over the next word", "runs 2\nspent - 3 14 0005 0040\nspent - 4 17 0005 0040\n"),
    ("ST by [PC] over the next byte", "runs 2\nspent - 3 14 0005 0040\nspent - 4 17 0005 0040\n"),
    ("JMP [Dsp+PC] at 0100h", "runs 2\nspent - 1 5 0304 0040\nspent - 2 8 0304 0040\n"),
    ("JMP [Dsp+PC], not taken", "runs 2\nspent - 1 4 0104 0040\nspent - 2 7 0104 0040\n"),
    ("JMP [Dsp+PC] to itself", "runs 2\nspent - 65534 327670 0100 0040\nspent - 65535 327673 0100 0040\n"),
    // CALL; at 0304h POP, and a jump to what was pushed.
    ("CALL [Dsp+PC] at 0100h", "runs 2\nspent - 3 17 0104 0040\nspent - 4 20 0104 0040\n"),
    // OUT to 82h, IN from there, a jump to the word.
    ("OUT by [PC] at 0080h", "runs 2\nspent - 3 17 8534 0040\nspent - 4 20 8534 0040\n"),
    // A jump to 0300h + 0000h; the words at 0300h + 0000h and at 0300h + 0002h.
    ("LD G0,PC at FFFEh", "runs 2\nspent - 2 9 0300 0040\nspent - 3 12 0300 0040\n"),
    ("LD G0,[Dsp+PC] at FFFCh", "runs 2\nspent - 2 12 1112 0040\nspent - 3 15 1112 0040\n"),
    ("LD G0,[Dsp+PC] at FFFEh", "runs 2\nspent - 2 12 2224 0040\nspent - 3 15 2224 0040\n"),
    ("DIV by PC at FFFEh: fault 12", "runs 2\nentered 12 1 12 FFFE 0040\nentered 12 2 15 FFFE 0040\n"),
    ("a user's LD G0,PC at 1200h", "runs 1\nspent - 2 9 1202 0000\n"),
    // LD, LD of 1111h, ADD of 0222h, a jump to the sum.
    ("a user's table found by PC", "runs 1\nspent - 4 23 1333 0000\n"),
    // NO, ST, SVC; the kernel reads the word in the frame.
    ("a user's ST by [Dsp+PC]", "runs 2\nentered 15 3 21 1208 0000\nspent - 2 12 2468 0040\n"),
    ("a user's jump by [Dsp+PC] to itself", "runs 1\nspent - 65535 327675 1200 0000\n"),
    // The fault; two IN and a jump to the address; a jump to the cause.
    (
        "11: a read by [PC] without right",
        "runs 3\nentered 11 1 12 1200 0000\nspent - 3 19 1202 0040\nspent - 1 5 0001 0040\n",
    ),
    (
        "11: a store by [PC] without right",
        "runs 3\nentered 11 2 15 1202 0000\nspent - 3 19 1204 0040\nspent - 1 5 0001 0040\n",
    ),
    ("10: a read by [Dsp+PC]", "runs 2\nentered 10 2 15 1202 0000\nspent - 2 12 007E 0040\n"),
    ("13: IN by [PC] of a user", "runs 1\nentered 13 1 12 1200 0000\n"),
    ("14: LD PC,PC", PC_AS_RD),
    ("14: ST PC,[1310h]", PC_AS_RD),
    ("14: ST PC,[PC]", PC_AS_RD),
    ("14: LD PC,FLAG", PC_AS_RD),
    ("14: ADD PC,G0", PC_AS_RD),
    ("14: CMP PC,G0", PC_AS_RD),
    ("14: SHRL PC,1", PC_AS_RD),
    ("14: IN PC,[18h]", PC_AS_RD),
    ("14: OUT PC,[18h]", PC_AS_RD),
    ("14: PUSH PC", PC_AS_RD),
    ("14: POP PC", PC_AS_RD),
    // LD and SVC, entry 1 with R; ST and SVC, entry 1 with R and D.
    (
        "R-bit and D as accesses leave them",
        "runs 4\nentered 15 2 19 1206 0000\nspent - 2 12 9635 0040\nentered 15 2 18 120C 0000\nspent - 2 12 9E35 0040\n",
    ),
    (
        "06 on and off, in user and kernel mode",
        "runs 3\nentered 10 1 12 0000 0000\nspent - 2 6 0004 0000\nspent - 2 6 0008 0040\n",
    ),
    ("RETI keeps the bits of FLAG that there are", "runs 1\nspent - 5 29 2000 00EF\n"),
    // Starred examples: V S, C S, C S.
    (
        "sums, differences and a shift by 0",
        "runs 3\nspent - 1 4 0002 004A\nspent - 1 4 0004 0046\nspent - 1 5 0006 0046\n",
    ),
    // 9 ms; two IN and a jump to the first value. 1 ms more; the same; a jump to the second value.
    (
        "08: Timer0 fires at its period, IN clears fired",
        "runs 4\nspent - 4 22 0210 0040\nspent - 3 19 0000 0040\nspent - 3 19 8000 0040\nspent - 1 5 0000 0040\n",
    ),
    (
        "08: Timer1 counts 7, and 5 ms later 2",
        "runs 3\nspent - 4 22 0210 0040\nspent - 2 12 0007 0040\nspent - 2 12 0002 0040\n",
    ),
    // 9 ms; two jumps. 1 ms more; the entry; IN, RETI, a jump; three jumps.
    (
        "08: an interrupt of Timer0",
        "runs 5\nspent - 4 22 0210 00C0\nspent - 2 10 0210 00C0\nentered 0 1 12 0210 00C0\nspent - 3 21 0210 00C0\n\
         spent - 3 15 0210 00C0\n",
    ),
    (
        "08: an interrupt of Timer1",
        "runs 5\nspent - 4 22 0210 00C0\nspent - 2 10 0210 00C0\nentered 1 1 12 0210 00C0\nspent - 3 21 0210 00C0\n\
         spent - 3 15 0210 00C0\n",
    ),
    (
        "08: 65,535 firings of Timer1, one interrupt",
        "runs 3\nspent - 4 22 0210 00C0\nentered 1 1 12 0210 00C0\nspent - 3 19 0210 00C0\n",
    ),
    (
        "08: another interrupt of Timer0, fired still set",
        "runs 4\nspent - 4 22 0210 00C0\nentered 0 1 12 0210 00C0\nspent - 2 14 0210 00C0\nentered 0 1 12 0210 00C0\n",
    ),
    (
        "08: an interrupt of Timer1 waits while E=0",
        "runs 3\nspent - 4 22 0210 0040\nspent - 3 9 0216 0040\nentered 1 1 12 0216 00C0\n",
    ),
    (
        "08: Timer0 with period 0",
        "runs 3\nspent - 4 22 0210 00C0\nspent - 3 19 0000 00C0\nspent - 1 5 0000 00C0\n",
    ),
    // IN of the count and of fired, and a jump to the first; a jump to the second.
    (
        "08: Timer1 without its interrupt",
        "runs 3\nspent - 4 22 0210 00C0\nspent - 3 19 0000 00C0\nspent - 1 5 8000 00C0\n",
    ),
    // The count behind 65,534 ms and behind 65,535; then fired.
    (
        "08: Timer1 with period 65,535",
        "runs 4\nspent - 4 22 0210 0040\nspent - 2 12 FFFE 0040\nspent - 2 12 0000 0040\nspent - 2 12 8000 0040\n",
    ),
    // 22 states and 65,531 jumps; 1 ms; the entry.
    (
        "steps let no time pass for Timer0",
        "runs 2\nspent - 65535 327677 0210 00C0\nentered 0 1 12 0210 00C0\n",
    ),
    // 7 ms; stopped; 100 ms; started, and the count is shown; 2 ms, 1 ms.
    (
        "08: Timer1 stopped and started again",
        "runs 5\nspent - 4 22 0210 0040\nspent - 2 10 0216 0040\nspent - 4 22 0007 0040\nspent - 2 12 0009 0040\n\
         spent - 2 12 0000 0040\n",
    ),
    (
        "OUT of Timer0's period zeroes the count and keeps fired",
        "runs 3\nspent - 4 22 0210 0040\nspent - 5 29 0000 0040\nspent - 1 5 8000 0040\n",
    ),
    (
        "OUT of Timer1's control keeps the count and fired",
        "runs 3\nspent - 4 22 0210 0040\nspent - 5 29 0007 0040\nspent - 1 5 8000 0040\n",
    ),
    (
        "08 on a halted machine with Timer1: it stays halted",
        "runs 2\nhalted - 5 27 0212 00C0\nhalted - 0 0 0212 00C0\n",
    ),
    ("08 on a lost machine: it stays lost", "runs 2\nlost - 5 22 0210 00C0\nlost - 0 0 0210 00C0\n"),
    (
        "Timer0's ports for a user with I/O privilege",
        "runs 2\nspent - 4 22 1210 0020\nspent - 2 12 8000 0020\n",
    ),
    ("13: OUT of 06h of a user", "runs 1\nentered 13 1 12 1200 0000\n"),
    // 10 turns of IN, CMP and a jump, again at 499 ms; at 500 IN, CMP, no jump, HALT.
    ("08: a pause of 500 ms", "runs 3\nspent - 34 182 0210 0041\nspent - 30 160 0210 0041\nhalted - 4 20 021C 0042\n"),
    // Line 0; RETI and line 1; RETI and two jumps; a millisecond without a firing; one with.
    (
        "08 for both timers: line 0 before line 1",
        "runs 6\nspent - 8 44 0320 00C0\nentered 0 1 12 0320 00C0\nentered 1 2 21 0320 00C0\nspent - 3 19 0320 00C0\n\
         spent - 1 5 0320 00C0\nentered 1 1 12 0320 00C0\n",
    ),
    // NO and the fault; two IN and a jump to the address; a jump to the cause.
    ("11: a read without right", "runs 3\nentered 11 2 15 1202 0000\nspent - 3 19 1580 0040\nspent - 1 5 0001 0040\n"),
    // The fault; two IN and a jump to the first value; a jump to the second.
    (
        "11: the cause read twice, 1 for a missing right, then 0",
        "runs 3\nentered 11 1 12 1200 0000\nspent - 3 19 0001 0040\nspent - 1 5 0000 0040\n",
    ),
    (
        "11: the cause read twice, 2 for an odd address, then 0",
        "runs 3\nentered 11 1 12 1200 0000\nspent - 3 19 0002 0040\nspent - 1 5 0000 0040\n",
    ),
    (
        "11: the cause read twice, 3 for both, then 0",
        "runs 4\nentered 11 1 12 1200 0000\nentered 11 1 12 1204 0000\nspent - 3 19 0003 0040\nspent - 1 5 0000 0040\n",
    ),
    ("10: a page that is not there", "runs 2\nentered 10 2 15 1202 0000\nspent - 2 12 007E 0040\n"),
    ("12: a division by 0", "runs 2\nentered 12 2 16 1202 0009\nspent - 0 0 0C00 0049\n"),
    // 8 turns of 20 states, the last jump not taken: 5 + 159 + 6 + 12.
    ("a loop over mapped data", "runs 2\nentered 15 35 182 1216 0001\nspent - 2 12 000C 0041\n"),
    // ADD, SVC; then ADD, RETI, a jump, ADD, SVC each time.
    (
        "requests one after the other: user, kernel, user",
        "runs 4\nentered 15 2 16 1204 0000\nentered 15 5 35 1204 0000\nentered 15 5 35 1204 0000\n\
         entered 15 5 35 1204 0000\n",
    ),
    (
        "lost by SVC on an odd SSP, and found lost",
        "runs 4\nlost - 2 3 0002 0040\nlost - 0 0 0002 0040\nlost - 0 0 0002 0040\nlost - 0 0 0002 0040\n",
    ),
    // 100 ADD; 409 more; the last ADD and HALT; found halted.
    (
        "a card of 4,096 bytes",
        "runs 4\nspent - 100 400 00C8 0040\nspent - 409 1636 03FA 0040\nhalted - 2 9 03FE 0040\nhalted - 0 0 03FE 0040\n",
    ),
    ("refused 6: register 16, cut short", "refused 6 0\n"),
    ("refused 6: 08 without its last 2", "refused 6 0\n"),
    ("refused 6: a run, 08 without its last 1", "refused 6 3\n"),
    // 1,023 commands of 4 bytes stand in front.
    ("refused 6: the last command of a long card", "refused 6 4092\n"),
];

#[test]
fn stored_listings_by_hand() {
    let cases = stored::all();
    for &(name, expected) in BY_HAND {
        let case = cases.iter().find(|case| case.name == name).unwrap_or_else(|| panic!("no case {name}"));
        assert_eq!(case.listing(), expected, "{name}");
    }
}

/// No two stored cases have one name.
#[test]
fn stored_names() {
    let mut names: Vec<String> = stored::all().into_iter().map(|case| case.name).collect();
    names.sort();
    let count = names.len();
    names.dedup();
    assert_eq!(names.len(), count);
}

/// The bytes of a card's text: pairs of digits, comments from # on.
fn of_hex(text: &str) -> Vec<u8> {
    let words = text.lines().flat_map(|line| line.split('#').next().unwrap_or_default().split_whitespace());
    words.map(|pair| u8::from_str_radix(pair, 16).expect("a byte")).collect()
}

/// Each example's text is its card, and its listing is that of the card.
#[test]
fn example_cards() {
    let mut names = Vec::new();
    for file in fs::read_dir(at_root("examples")).expect("examples") {
        let path = file.expect("a file").path();
        if !path.extension().is_some_and(|end| end == "card" || end == "hex") {
            continue;
        }
        let name = path.file_stem().and_then(|stem| stem.to_str()).expect("a name").to_string();
        let card = bytes(&format!("examples/{name}.card"));
        assert_eq!(of_hex(&text(&format!("examples/{name}.hex"))), card, "{name}");
        assert_eq!(card::bench(&card), text(&format!("examples/{name}.txt")), "{name}");
        names.push(name);
    }
    for name in ["worked", "pages", "user", "fence", "winder", "cause", "pause", "operands", "tables", "refused"] {
        assert!(names.iter().any(|found| found == name), "no example {name}");
    }
}

/// The winder keeps to its label: three turns are done, the motor is off, and the program was answered four times.
#[test]
fn winder_keeps_the_label() {
    use tac_tests::emulator::{HALTED, MEMORY, P};
    use tac_tests::image;
    let mut memory = vec![0; MEMORY];
    let mut state = [0; image::IMAGE];
    state[image::FLAG + 1] = P as u8;
    let mut report = [0; 120];
    card::card(&mut memory, &mut state, &bytes("examples/winder.card"), &mut report);
    let m = image::read(memory, &state);
    assert_eq!((m.memory[0x0301], m.memory[0x0303]), (3, 3));
    assert_eq!((m.output, m.condition, m.regs[5]), (0, HALTED, 4));
}
