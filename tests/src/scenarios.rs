//! Programs that go back and forth between plain instructions and what a fast loop must leave to the whole machine:
//! marks, faults, ports, lines, code that changes. Each is a scenario of its own, random in its details.

use crate::assemble::Operand::*;
use crate::assemble::*;
use crate::case::Case;
use crate::emulator::{DIRTY, E, EXECUTE, FLAG_BITS, I, LINES, P, READ, REFERENCED, VALID, WRITE};
use crate::rng::Rng;
use crate::sample::{number, timer_word, ALU, PORTS, TIMER_PORTS};
use crate::scene::{place, Code, Scene, Way};

pub struct Scenario {
    pub name: &'static str,
    ways: &'static [Way],
    make: fn(&mut Scene),
}

use Way::{Bare, Kernel, User};
const TRANSLATED: &[Way] = &[User];
const ALL: &[Way] = &[User, User, Kernel, Bare];
const KERNEL: &[Way] = &[Kernel];
const USER: &[Way] = &[User, User, User, Bare];

const fn scenario(name: &'static str, ways: &'static [Way], make: fn(&mut Scene)) -> Scenario {
    Scenario { name, ways, make }
}

/// It has a part of its own in `compare`.
pub const REGISTER_15: Scenario = scenario("register 15", ALL, following);

/// Only simulations of a winder have it.
pub const MOTOR: Scenario = scenario("motor", ALL, motor);

pub const SCENARIOS: [Scenario; 26] = [
    scenario("first touches", TRANSLATED, first_touches),
    scenario("marks without rights", TRANSLATED, marks_without_rights),
    scenario("entries changed by OUT", USER, entries_changed),
    scenario("own entry changed by OUT", TRANSLATED, own_entry_changed),
    scenario("entries set by the kernel", KERNEL, entries_set_by_kernel),
    scenario("MMU switched", USER, mmu_switched),
    scenario("RETI and lines", KERNEL, reti_and_lines),
    scenario("store into the next instruction", ALL, |s| stores(s, Target::Next, false)),
    scenario("store into a second word", ALL, |s| stores(s, Target::Second, false)),
    scenario("store into itself", ALL, |s| stores(s, Target::Own, false)),
    scenario("store into a page mapped twice", ALL, stores_by_another_page),
    scenario("bytes stored into code", ALL, |s| stores(s, Target::Byte, false)),
    scenario("code over a page's end", ALL, over_the_end),
    scenario("PC at FFFEh", ALL, at_the_top),
    scenario("a page twice", TRANSLATED, page_twice),
    scenario("stack at an end", ALL, stack_at_an_end),
    scenario("registers 13 and 14", ALL, stack_registers),
    REGISTER_15,
    scenario("LD FLAG", ALL, flag_loaded),
    scenario("zero divisor in a loop", ALL, zero_divisor),
    scenario("shifts", ALL, shifts),
    scenario("jumps", ALL, jumps),
    scenario("ports in a loop", ALL, ports),
    scenario("a stop in a loop", ALL, stop_in_a_loop),
    scenario("many pages", ALL, many_pages),
    scenario("timers in a loop", ALL, timers),
];

impl Scenario {
    pub fn case(&self, rng: &mut Rng, case: &mut Case) {
        let way = rng.pick(self.ways);
        let mut scene = Scene::new(rng, way);
        (self.make)(&mut scene);
        scene.into_case(case);
    }
}

const ANY: u32 = READ | WRITE | EXECUTE;
const MARKS: u32 = REFERENCED | DIRTY;

/// A loop with accesses to these pages and tame instructions between them.
fn loop_over(s: &mut Scene, base: u16, data: &[u16], most: u64) {
    let mut code = s.code_in(base);
    let top = s.turns(&mut code);
    for _ in 0..s.rng.between(1, most) {
        let page = s.rng.pick(data);
        s.access(&mut code, page);
        s.tame_up_to(&mut code, 1);
    }
    s.end_turns(&mut code, top);
    s.begin_at(&code);
}

/// Accesses to pages that lack marks.
fn first_touches(s: &mut Scene) {
    s.marks = s.rng.pick(&[0, 0, 30]);
    let code = s.page(EXECUTE);
    let rights = [READ | WRITE, READ | WRITE, READ, WRITE, ANY];
    let data = [(); 4].map(|_| {
        let rights = s.rng.pick(&rights);
        s.data(rights)
    });
    loop_over(s, code, &data, 8);
}

/// Pages with marks that lack a right.
fn marks_without_rights(s: &mut Scene) {
    s.marks = s.rng.pick(&[100, 100, 80]);
    let rights = s.rng.pick(&[EXECUTE, EXECUTE, WRITE | EXECUTE]);
    let code = s.page(rights);
    let data = [(); 4].map(|_| {
        let rights = s.rng.pick(&[READ | WRITE, READ, WRITE, EXECUTE, READ | EXECUTE, WRITE | EXECUTE, ANY, 0]);
        s.data(rights)
    });
    loop_over(s, code, &data, 6);
}

/// A lower half of an entry that replaces another: one bit or the frame changed, the marks taken, anything.
fn other_half(s: &mut Scene, half: u16, frame: u8) -> u16 {
    let rights = (READ | WRITE | EXECUTE) as u16;
    let marks = MARKS as u16;
    match s.rng.below(8) {
        0 => half ^ VALID as u16,
        1 => half ^ READ as u16,
        2 => half ^ WRITE as u16,
        3 => half ^ EXECUTE as u16,
        4 => half & !marks,
        5 => half & !(marks | 0xFF) | frame as u16,
        6 => half & 0xFF00 | frame as u16,
        _ => half & !rights | s.rng.word() & rights,
    }
}

fn entry_of(s: &Scene, base: u16) -> Option<usize> {
    s.m.tlb.iter().position(|e| e & VALID != 0 && *e >> 16 == base as u32 >> 8)
}

/// OUT to the entry of a data page and back, accesses before and behind.
fn entries_changed(s: &mut Scene) {
    s.m.flag |= I;
    let code = s.page(EXECUTE);
    let data = [s.data(READ | WRITE), s.data(ANY)];
    let frame = s.number();
    s.fill_frames(&[frame]);
    let k = entry_of(s, data[0]).unwrap_or(0);
    let (page, half) = ((s.m.tlb[k] >> 16) as u16, s.m.tlb[k] as u16);
    let changed = other_half(s, half, frame);
    let port = 0x80 + 4 * k as u16;
    let mut c = s.code_in(code);
    let top = s.turns(&mut c);
    let accesses = |s: &mut Scene, c: &mut Code| {
        for _ in 0..s.rng.between(1, 3) {
            let page = s.rng.pick(&[data[0], data[0], data[0], data[1]]);
            s.access(c, page);
        }
    };
    accesses(s, &mut c);
    match s.rng.below(4) {
        0 => s.out(&mut c, port, page ^ 1),
        _ => s.out(&mut c, port + 2, changed),
    }
    accesses(s, &mut c);
    s.out(&mut c, port, page);
    s.out(&mut c, port + 2, half);
    s.end_turns(&mut c, top);
    s.begin_at(&c);
}

/// OUT to the entry that serves the program's own fetches; the other frame has other code behind the OUT.
fn own_entry_changed(s: &mut Scene) {
    s.m.flag |= I;
    let code = s.page(EXECUTE | READ);
    let data = s.data(READ | WRITE);
    let frame = s.number();
    let k = entry_of(s, code).expect("the code's entry");
    let half = s.m.tlb[k] as u16;
    let changed = if s.rng.chance(60) { half & 0x9F00 | frame as u16 } else { other_half(s, half, frame) };
    let port = 0x82 + 4 * k as u16;
    let mut c = s.code_in(code);
    let top = s.turns(&mut c);
    s.access(&mut c, data);
    s.out(&mut c, port, changed);
    let differs = c.add_open(ld(4, Value(1)));
    s.tame_up_to(&mut c, 2);
    if s.rng.chance(30) {
        c.add(input(5, At(port)));
    }
    s.out(&mut c, port, half);
    c.add(adds(3, Register(4)));
    s.end_turns(&mut c, top);
    s.begin_at(&c);
    c.words[differs] = number(s.rng);
    s.put_in_frame(frame, &c);
}

/// A return to a program: FLAG and PC are pushed, then RETI.
fn go_to(c: &mut Code, pc: u16, flag: u16) {
    c.add(ld(0, Value(pc)));
    c.add(push(0));
    c.add(ld(1, Value(flag)));
    c.add(push(1));
    c.add(reti());
}

/// A user program with its data: one where the frame of its page is, and another where it would be without the MMU. Gives
/// its start and its two entries.
fn two_programs(s: &mut Scene) -> (u16, [usize; 2]) {
    let [page, frame, data, other] = [(); 4].map(|_| s.number());
    let entries = [s.map(page, frame, EXECUTE), s.map(data, other, READ | WRITE)];
    s.fill_frames(&[data, other]);
    let start = u16::from_be_bytes([page, 0x10]);
    for place in [page, frame] {
        let mut c = Code::at(start);
        let top = s.turns(&mut c);
        for _ in 0..s.rng.between(1, 4) {
            s.access(&mut c, u16::from_be_bytes([data, 0]));
            s.tame_up_to(&mut c, 2);
        }
        s.end_turns(&mut c, top);
        s.put_in_frame(place, &c);
    }
    (start, entries)
}

/// The kernel changes entries and the MMU by ports, then returns to a user program.
fn entries_set_by_kernel(s: &mut Scene) {
    let (start, entries) = two_programs(s);
    let base = s.page(ANY);
    let mut c = Code::at(base);
    s.tame_up_to(&mut c, 3);
    for k in entries {
        let (half, port) = (s.m.tlb[k] as u16, 0x82 + 4 * k as u16);
        match s.rng.below(4) {
            // It was no entry before.
            0 => {
                s.m.tlb[k] &= !VALID;
                s.out(&mut c, port, half);
            }
            1 => {
                let frame = s.number();
                let changed = other_half(s, half, frame);
                s.out(&mut c, port, changed);
            }
            2 => s.out(&mut c, port, half & !(MARKS as u16)),
            _ => s.tame_up_to(&mut c, 2),
        }
    }
    s.m.mmu_on = s.rng.chance(50);
    let on = s.rng.word() | if s.rng.chance(70) { 1 } else { 0 };
    s.out(&mut c, 0xA2, on);
    let flag = s.rng.word() & FLAG_BITS & !(P | E);
    go_to(&mut c, start, flag);
    s.begin_at(&c);
}

/// A program that switches the MMU off and on while it runs.
fn mmu_switched(s: &mut Scene) {
    s.m.flag |= I;
    let [page, frame, data, other] = [(); 4].map(|_| s.number());
    s.map(page, frame, EXECUTE);
    s.map(data, other, READ | WRITE);
    s.fill_frames(&[data, other]);
    let base = u16::from_be_bytes([data, 0]);
    let mut c = Code::at(u16::from_be_bytes([page, 2 * s.rng.below(8) as u8]));
    let top = s.turns(&mut c);
    let mut differing = Vec::new();
    for _ in 0..s.rng.between(1, 3) {
        s.access(&mut c, base);
        let on = s.rng.word();
        s.out(&mut c, 0xA2, on);
        differing.push(c.add_open(ld(4, Value(1))));
        c.add(adds(3, Register(4)));
    }
    s.access(&mut c, base);
    s.end_turns(&mut c, top);
    for place in [page, frame] {
        s.put_in_frame(place, &c);
        for at in &differing {
            c.words[*at] = number(s.rng);
        }
    }
    s.m.pc = c.start;
}

/// RETI to a program in either mode, with lines pending, E set or not by it.
fn reti_and_lines(s: &mut Scene) {
    let (start, _) = two_programs(s);
    s.m.flag &= !E;
    s.m.pending = s.rng.pick(&[0, 1, 0x0200, LINES]) | s.rng.word() & LINES & s.rng.pick(&[0, 0xFFFF]);
    let base = s.page(ANY);
    let mut c = Code::at(base);
    s.tame_up_to(&mut c, 4);
    let flag = s.rng.word() & if s.rng.chance(60) { !P } else { 0xFFFF };
    let target = start | s.rng.chance(3) as u16;
    if s.rng.chance(30) {
        // First back to the kernel itself.
        let behind = c.here().wrapping_add(14);
        let same = s.rng.word() | P;
        go_to(&mut c, behind, same);
        s.tame_up_to(&mut c, 3);
    }
    go_to(&mut c, target, flag);
    s.begin_at(&c);
}

#[derive(Clone, Copy, PartialEq, Eq)]
enum Target {
    /// The first word of the next instruction, or of one behind it.
    Next,
    /// The second word of it.
    Second,
    /// A word of the storing instruction.
    Own,
    /// A byte of the next instruction.
    Byte,
}

fn stores_by_another_page(s: &mut Scene) {
    let target = s.rng.pick(&[Target::Next, Target::Second, Target::Own, Target::Byte]);
    stores(s, target, true);
}

/// A store of G5 whose address is still open.
struct Store {
    /// The instruction's own address.
    at: u16,
    /// The word that holds the address, and how far above it that has to be.
    open: usize,
    above: u16,
}

fn open_store(s: &mut Scene, c: &mut Code, byte: bool) -> Store {
    let forms = [(8, st(5, Pointer(8)), 0), (8, st(5, Indexed(0, 8)), 0), (12, st(5, Frame(0)), 0), (13, push(5), 2)];
    let (pointer, instruction, above) = match s.rng.below(6) as usize {
        _ if byte => (8, st(5, Byte(8)), 0),
        form @ 0..=3 => forms[form].clone(),
        _ => return Store { at: c.here(), open: c.add_open(st(5, At(0))), above: 0 },
    };
    let open = c.add_open(ld(pointer, Value(0)));
    let at = c.here();
    c.add(instruction);
    Store { at, open, above }
}

/// How far another page of the same frame is, by which the program can write; 0 if it writes by its own page.
fn another_page(s: &mut Scene, base: u16) -> u16 {
    if s.way != User {
        return 0;
    }
    let (page, frame) = (s.number(), (place(&s.m, base) >> 8) as u8);
    s.map(page, frame, READ | WRITE);
    u16::from_be_bytes([page, 0]).wrapping_sub(base)
}

/// A loop that stores into its own code, one of two values by turns; by another page of the same frame if `twice`.
fn stores(s: &mut Scene, target: Target, twice: bool) {
    let base = s.page(if twice { EXECUTE } else { ANY });
    let distance = if twice { another_page(s, base) } else { 0 };
    let second = target == Target::Second;
    let [a, b] = [(); 2].map(|_| if second { number(s.rng) } else { s.one_word() });
    let mut c = s.code_in(base);
    c.add(ld(5, Value(a)));
    let top = s.turns(&mut c);
    s.tame_up_to(&mut c, 2);
    c.add(xor(5, Value(a ^ b)));
    let store = open_store(s, &mut c, target == Target::Byte);
    let length = c.here() - store.at;
    if s.rng.chance(20) {
        s.tame_up_to(&mut c, 3);
    }
    let place = match target {
        Target::Own => store.at + 2 * s.rng.below(length as u64 / 2) as u16,
        Target::Second => c.here() + 2,
        Target::Next => c.here(),
        Target::Byte => c.here() + s.rng.below(2) as u16,
    };
    c.words[store.open] = place.wrapping_add(distance).wrapping_add(store.above);
    if second {
        c.add(moded(s.rng.pick(&[0x08, 0x18, 0x20, 0x40, 0x88, 0x98]), 4, Value(a)));
    } else {
        c.add(word(a));
    }
    c.add(adds(3, Register(4)));
    s.end_turns(&mut c, top);
    s.begin_at(&c);
}

/// An instruction of two words, the next in this code, by PC at times; its data page is there.
fn two_words(s: &mut Scene, c: &Code, data: u16, target: u16) -> Words {
    let rd = s.register();
    let address = data | s.offset() & 0xFE;
    let pc = s.rng.chance(30);
    let [data, target] = [address, target].map(|to| if pc { c.by_pc(to) } else { At(to) });
    match s.rng.below(8) {
        0..=1 => ld(rd, Value(number(s.rng))),
        2 => add(rd, data),
        3 => st(rd, data),
        4 => jump(s.condition(), target),
        5 => call(target),
        6 => jump(ALWAYS, target),
        _ => output(rd, At(0x18)),
    }
}

/// An instruction whose second word is in the next page; the page is there, missing, not executable or has no marks.
fn over_the_end(s: &mut Scene) {
    let page = s.numbers(2);
    let rights = s.rng.pick(&[EXECUTE, READ | EXECUTE, ANY]);
    let base = s.page_at(page, rights);
    match s.rng.below(10) {
        0 => {}
        1 => {
            s.page_at(page + 1, READ | WRITE);
        }
        2 => {
            let next = s.page_at(page + 1, EXECUTE);
            if let Some(k) = entry_of(s, next) {
                s.m.tlb[k] &= !VALID;
            }
        }
        _ => {
            s.page_at(page + 1, EXECUTE);
        }
    }
    let data = s.data(READ | WRITE);
    across(s, data, base.wrapping_add(256));
}

/// Code with an instruction in front of the address `end` and some behind it, in a loop. A jump may go back at once, so that
/// nothing else is fetched behind the end.
fn across(s: &mut Scene, data: u16, end: u16) {
    s.m.usp = data | 0x80;
    let before: Vec<Words> = (0..s.rng.between(1, 3)).map(|_| s.tame()).collect();
    // The last instruction begins two bytes before the end, or four.
    let short = if s.rng.chance(80) { 2 } else { 4 };
    let start = end.wrapping_sub(2 * before.concat().len() as u16 + short);
    let target = s.rng.pick(&[start, start, end.wrapping_add(2)]);
    let mut c = Code { start, words: before.concat() };
    c.add(if s.rng.chance(75) { two_words(s, &c, data, target) } else { word(s.one_word()) });
    s.tame_up_to(&mut c, 3);
    c.add(sub(7, Short(1)));
    c.add(jump(ALWAYS, At(start)));
    s.begin_at(&c);
}

/// The same with the last page and the first: PC goes from FFFEh to 0000h.
fn at_the_top(s: &mut Scene) {
    let rights = s.rng.pick(&[EXECUTE, READ | EXECUTE, ANY]);
    s.page_at(0xFF, rights);
    match s.rng.below(10) {
        0 => {}
        1 => {
            s.page_at(0x00, READ | WRITE);
        }
        _ => {
            s.page_at(0x00, EXECUTE);
        }
    }
    let data = s.data(READ | WRITE);
    across(s, data, 0x0000);
}

/// A page with two valid entries, of other frames, rights and marks; the first of them serves, until it is not valid.
fn page_twice(s: &mut Scene) {
    let rights = [READ | WRITE, READ, WRITE, ANY];
    let code = s.page(EXECUTE);
    let data = s.data(READ | WRITE);
    let page = (if s.rng.chance(30) { code } else { data } >> 8) as u8;
    let (frame, right) = (s.number(), s.rng.pick(&rights));
    let first = entry_of(s, u16::from_be_bytes([page, 0])).expect("an entry");
    let own = s.m.tlb[first] & ANY;
    let other = s.map(page, frame, if page as u16 == code >> 8 { own } else { right });
    s.fill_frames(&[frame]);
    let serving = first.min(other);
    let half = s.m.tlb[serving] as u16;
    let mut c = s.code_in(code);
    let top = s.turns(&mut c);
    let changes = s.rng.chance(60);
    s.m.flag |= if changes { I } else { 0 };
    for turn in 0..2 {
        for _ in 0..s.rng.between(1, 3) {
            s.access(&mut c, data);
        }
        if changes {
            s.out(&mut c, 0x82 + 4 * serving as u16, if turn == 0 { half & !(VALID as u16) } else { half });
        }
    }
    s.end_turns(&mut c, top);
    s.begin_at(&c);
    if page as u16 == code >> 8 {
        // The same program in both frames.
        for k in [first, other] {
            s.put_in_frame(s.m.tlb[k] as u8, &c);
        }
    }
}

/// PUSH, POP, CALL and RET with SP at the ends of pages and of memory, or odd.
fn stack_at_an_end(s: &mut Scene) {
    let code = s.page(EXECUTE);
    let low = s.numbers(2);
    for page in [low, low + 1, 0x00, 0xFF] {
        if s.rng.chance(85) {
            let rights = s.rng.pick(&[READ | WRITE, READ | WRITE, READ | WRITE, READ, WRITE]);
            s.page_at(page, rights);
        }
    }
    let end = u16::from_be_bytes([low + 1, 0]);
    let near = s.rng.pick(&[end, end, 0x0000, 0x0000]).wrapping_add(2 * s.rng.below(5) as u16).wrapping_sub(4);
    let sp = near.wrapping_add(s.rng.chance(10) as u16);
    let mut c = s.code_in(code);
    let top = s.turns(&mut c);
    c.add(ld(13, Value(sp)));
    for _ in 0..s.rng.between(2, 8) {
        let rd = s.rng.pick(&[0, 1, 2, 3, 4, 12, 14]);
        match s.rng.below(4) {
            0 => c.add(push(rd)),
            1 => c.add(pop(s.rng.pick(&[0, 1, 2, 3, 4]))),
            2 => c.add(call(At(c.here().wrapping_add(4)))),
            _ => {
                c.add(ld(0, Value(c.here().wrapping_add(8))));
                c.add(push(0));
                c.add(ret());
            }
        }
    }
    s.end_turns(&mut c, top);
    s.begin_at(&c);
}

/// Registers 13 and 14 as Rd, as source and as pointer.
fn stack_registers(s: &mut Scene) {
    let code = s.page(EXECUTE);
    let data = s.data(READ | WRITE);
    s.m.usp = data | 0x80;
    let mut c = s.code_in(code);
    let top = s.turns(&mut c);
    for _ in 0..s.rng.between(2, 8) {
        let stack = s.rng.pick(&[13, 14]);
        let other = s.rng.pick(&[13, 14, 0, 1]);
        match s.rng.below(9) {
            0 => c.add(ld(stack, Value(data | s.offset() & 0xFE))),
            1 => c.add(moded(s.rng.pick(&[0x18, 0x20]), stack, Short(s.rng.pick(&[2, -2, 4, 1])))),
            2 => c.add(push(stack)),
            3 => c.add(pop(other)),
            4 => c.add(moded(s.rng.pick(&[0x08, 0x18, 0x28]), s.register(), Register(stack))),
            5 => c.add(moded(s.rng.pick(&[0x08, 0x10]), other, Pointer(stack))),
            6 => c.add(moded(s.rng.pick(&[0x08, 0x10]), s.register(), Byte(stack))),
            7 => c.add(moded(s.rng.pick(&[0x08, 0x10]), s.register(), Indexed(s.rng.pick(&[0, 2, 0xFFFE]), stack))),
            _ => c.add(push(other)),
        }
    }
    s.end_turns(&mut c, top);
    s.begin_at(&c);
}

/// Register 15 as Rs and as Rx in every instruction and mode that has it, as Rd at times. The code stands anywhere, in
/// the first page, where its addresses are ports, or over the end of memory. A run may begin with such an instruction.
fn following(s: &mut Scene) {
    let rights = s.rng.pick(&[ANY, ANY, ANY, READ | EXECUTE, EXECUTE]);
    let data = s.data(READ | WRITE);
    s.m.usp = data | 0x80;
    let place = s.rng.below(8);
    let mut c = match place {
        0..=1 => Code::at(s.page_at(0x00, rights) + 2 * s.rng.below(0x4C) as u16),
        2..=3 => {
            s.page_at(0x00, rights);
            // The first use stands at FFFEh or FFFCh.
            Code::at(s.page_at(0xFF, rights) + s.rng.pick(&[0xFA, 0xF8]))
        }
        _ => {
            let base = s.page(rights);
            s.code_in(base)
        }
    };
    let top = s.turns(&mut c);
    let mut uses = Vec::new();
    for _ in 0..s.rng.between(2, 7) {
        uses.push(by_following(s, &mut c, data));
        s.tame_up_to(&mut c, 1);
    }
    if s.rng.chance(25) {
        uses.push(c.here());
        c.add(as_rd(s, data));
    }
    s.end_turns(&mut c, top);
    s.begin_at(&c);
    if s.rng.chance(45) {
        s.m.pc = if s.rng.chance(40) { uses[0] } else { s.rng.pick(&uses) };
    }
}

/// An instruction with register 15 as its last field, and what it needs before and behind it; gives its address.
fn by_following(s: &mut Scene, c: &mut Code, data: u16) -> u16 {
    let rd = s.register();
    let first = if s.rng.chance(20) { 0x08 } else { s.rng.pick(&ALU) };
    let (at, far) = (c.here(), c.by_pc(data | s.offset() & 0xFE));
    match s.rng.below(14) {
        0..=1 => c.add(moded(first, rd, Register(PC))),
        2..=3 => c.add(moded(first, rd, far)),
        4 => c.add(moded(first, rd, Pointer(PC))),
        5 => c.add(moded(first, rd, Byte(PC))),
        6 => c.add(st(rd, far)),
        7..=8 => return store_next(s, c),
        // Over the one word that follows.
        9..=10 => {
            c.add(jump(s.condition(), Indexed(2, PC)));
            c.add(word(s.one_word()));
        }
        11 => {
            c.add(call(Indexed(s.rng.pick(&[0, 2]), PC)));
            c.add(no());
            c.add(pop(rd));
        }
        _ => c.add(moded(s.rng.pick(&[0xB0, 0xB8]), rd, Pointer(PC))),
    }
    at
}

/// A store by PC of the next word, or of its first byte; gives the store's address.
fn store_next(s: &mut Scene, c: &mut Code) -> u16 {
    let [before, after] = [(); 2].map(|_| s.one_word());
    let byte = s.rng.chance(50);
    c.add(ld(5, Value(if byte { after >> 8 } else { after })));
    let at = c.here();
    c.add(st(5, if byte { Byte(PC) } else { Pointer(PC) }));
    c.add(word(before));
    at
}

/// An instruction with register 15 as Rd, which is undefined.
fn as_rd(s: &mut Scene, data: u16) -> Words {
    let first = s.rng.pick(&[0x08, 0x10, 0x18, 0x28, 0x50]);
    match s.rng.below(6) {
        0 => push(PC),
        1 => pop(PC),
        2 => ld_flag(PC),
        3 => moded(s.rng.pick(&[0xB0, 0xB8]), PC, At(0x18)),
        4 => moded(first, PC, Pointer(PC)),
        _ => moded(first, PC, At(data)),
    }
}

/// FLAG read behind each result, with all of its upper bits.
fn flag_loaded(s: &mut Scene) {
    s.m.pending = if s.m.flag & E != 0 { 0 } else { s.m.pending };
    let code = s.page(EXECUTE);
    let data = s.data(READ | WRITE);
    let mut c = s.code_in(code);
    let top = s.turns(&mut c);
    for _ in 0..s.rng.between(1, 6) {
        c.add(s.tame());
        let rd = s.rng.pick(&[4, 5, 8, 12, 14]);
        c.add(ld_flag(rd));
        match s.rng.below(3) {
            0 => c.add(st(rd, At(data | s.offset() & 0xFE))),
            1 => c.add(jump(s.condition(), At(c.here().wrapping_add(4)))),
            _ => c.add(adds(3, Register(rd))),
        }
    }
    s.end_turns(&mut c, top);
    s.begin_at(&c);
}

/// DIV or MOD by a number that counts down, from a register or from memory.
fn zero_divisor(s: &mut Scene) {
    let code = s.page(EXECUTE);
    let data = s.data(READ | WRITE);
    let at = data | s.offset() & 0xFE;
    let mut c = s.code_in(code);
    c.add(ld(6, Value(s.rng.between(0, 6) as u16)));
    c.add(ld(8, Value(at)));
    c.add(ld(9, Value(at | 1)));
    let top = c.here();
    s.tame_up_to(&mut c, 2);
    let first = s.rng.pick(&[0x58, 0x60]);
    let rd = s.register();
    c.add(st(6, Pointer(8)));
    let source = s.rng.pick(&[Register(6), Pointer(8), Byte(9), At(at), Indexed(0, 8)]);
    c.add(moded(first, rd, source));
    s.tame_up_to(&mut c, 2);
    c.add(sub(6, Short(s.rng.pick(&[1, 1, 2]))));
    c.add(jump(ALWAYS, At(top)));
    s.begin_at(&c);
}

/// Each shift by each count and more, from a register, a short immediate or memory, and FLAG behind it.
fn shifts(s: &mut Scene) {
    let code = s.page(EXECUTE);
    let data = s.data(READ | WRITE);
    let at = data | s.offset() & 0xFE;
    let mut c = s.code_in(code);
    c.add(ld(6, Value(s.rng.pick(&[0, 0, 0, 14, 0x7FF0, 0xFFF8]))));
    c.add(ld(8, Value(at)));
    let top = c.here();
    for _ in 0..s.rng.between(1, 3) {
        let first = s.rng.pick(&[0x80, 0x88, 0x90, 0x98]);
        c.add(ld(0, Value(s.rng.pick(&[0x8001, 0x7FFE, 0xFFFF, 0x0001, 0x8000, 0x5A5A]))));
        c.add(st(6, Pointer(8)));
        let source = s.rng.pick(&[Register(6), Register(6), Pointer(8), At(at), Short(0)]);
        let source = if let Short(_) = source { Short(s.short()) } else { source };
        c.add(moded(first, 0, source));
        c.add(ld_flag(1));
        c.add(adds(3, Register(0)));
        c.add(xor(4, Register(1)));
    }
    c.add(add(6, Short(1)));
    c.add(jump(ALWAYS, At(top)));
    s.begin_at(&c);
}

/// Jumps of all conditions behind results, forwards and by a register, CALL and RET.
fn jumps(s: &mut Scene) {
    let code = s.page(EXECUTE);
    let data = s.data(READ | WRITE);
    s.m.usp = data | 0x80;
    let mut c = s.code_in(code);
    let top = s.turns(&mut c);
    for _ in 0..s.rng.between(2, 7) {
        c.add(s.tame());
        let condition = if s.rng.chance(2) { 13 } else { s.condition() };
        match s.rng.below(4) {
            // Over the one word that follows.
            0..=1 => c.add(jump(condition, At(c.here().wrapping_add(6)))),
            2 => {
                let index = number(s.rng);
                c.add(ld(8, Value(index)));
                c.add(jump(condition, Indexed(c.here().wrapping_add(6).wrapping_sub(index), 8)));
            }
            _ => {
                let index = number(s.rng);
                c.add(ld(8, Value(index)));
                c.add(call(Indexed(c.here().wrapping_add(6).wrapping_sub(index), 8)));
            }
        }
        c.add(word(s.rng.pick(&[0x1D31, 0x1D42, 0x0000, 0xC450, 0xC000])));
    }
    s.end_turns(&mut c, top);
    s.begin_at(&c);
}

/// IN and OUT between accesses; the marks that IN shows are those of the moment.
fn ports(s: &mut Scene) {
    s.m.flag |= if s.rng.chance(85) { I } else { 0 };
    let code = s.page(EXECUTE);
    let data = [s.data(READ | WRITE), s.data(READ | WRITE)];
    let mut c = s.code_in(code);
    let top = s.turns(&mut c);
    for _ in 0..s.rng.between(2, 6) {
        let page = s.rng.pick(&data);
        let entry = entry_of(s, page).unwrap_or(0) as u16;
        s.access(&mut c, page);
        let rd = s.register();
        let port = if s.rng.chance(50) { 0x82 + 4 * entry } else { s.rng.pick(&PORTS) };
        if s.rng.chance(80) {
            c.add(input(rd, At(port)));
        } else {
            s.out(&mut c, port, 0x8600 | page >> 8);
        }
        c.add(adds(3, Register(rd)));
    }
    s.end_turns(&mut c, top);
    s.begin_at(&c);
}

/// A loop that runs well for some turns, then does what ends a run: a pointer that leaves its page or becomes odd, a word
/// that is undefined, privileged or SVC.
fn stop_in_a_loop(s: &mut Scene) {
    let code = s.page(EXECUTE);
    let data = s.data(READ | WRITE);
    let mut c = s.code_in(code);
    c.add(ld(6, Value(s.rng.between(1, 6) as u16)));
    c.add(ld(8, Value(data | s.rng.pick(&[0x00, 0x08, 0xF0, 0xF8]))));
    let top = c.here();
    s.tame_up_to(&mut c, 3);
    match s.rng.below(3) {
        0 => c.add(moded(s.rng.pick(&[0x08, 0x10, 0x18]), s.register(), Pointer(8))),
        1 => c.add(moded(s.rng.pick(&[0x08, 0x10, 0x18]), s.register(), Byte(8))),
        _ => c.add(moded(s.rng.pick(&[0x08, 0x10, 0x18]), s.register(), Indexed(0, 8))),
    }
    c.add(add(8, Short(s.rng.pick(&[2, 2, 4, -2, -4, 1, 3]))));
    c.add(sub(6, Short(1)));
    c.add(jump(NOT_ZERO, At(top)));
    let stop = s.rng.pick(&[
        0xF000, 0xFF00, 0xD400, 0xB000, 0xB800, 0x08F0, 0x1CF0, 0x1200, 0xA0D0, 0x0100, 0x7000, 0xC0F0, 0x5D00, 0xFFFF,
    ]);
    c.add(word(stop));
    c.add(jump(ALWAYS, At(c.start)));
    s.begin_at(&c);
}

/// Pieces of code over many pages, each with a jump to the next, accesses between them.
fn many_pages(s: &mut Scene) {
    let pages = [(); 5].map(|_| s.page(EXECUTE));
    let data = [s.data(READ | WRITE), s.data(READ | WRITE)];
    for (k, page) in pages.into_iter().enumerate() {
        let next = pages[(k + 1) % pages.len()];
        let mut c = Code::at(page | 0x20);
        s.tame_up_to(&mut c, 2);
        let at = s.rng.pick(&data);
        s.access(&mut c, at);
        if s.rng.chance(30) {
            let other = s.rng.pick(&pages);
            c.add(jump(s.condition(), At(other | 0x20)));
        }
        c.add(jump(ALWAYS, At(next | 0x20)));
        s.begin_at(&c);
    }
}

/// A loop that reads and sets the timers, stores what it reads and waits for a firing at times; time passes between the runs.
fn timers(s: &mut Scene) {
    s.time = 70;
    s.m.flag |= if s.rng.chance(90) { I } else { 0 };
    s.m.flag |= if s.rng.chance(50) { E } else { 0 };
    let code = s.page(EXECUTE);
    let data = s.data(READ | WRITE);
    s.m.usp = data | 0x80;
    let mut c = s.code_in(code);
    let top = s.turns(&mut c);
    for _ in 0..s.rng.between(2, 6) {
        let port = s.rng.pick(&TIMER_PORTS);
        let rd = s.register();
        match s.rng.below(4) {
            0 => {
                let value = timer_word(s.rng, port);
                s.out(&mut c, port, value);
            }
            1 => {
                c.add(input(rd, At(port)));
                c.add(st(rd, At(data | s.offset() & 0xFE)));
            }
            // Until fired is set: the run is spent here, unless it is.
            2 => {
                let wait = c.here();
                c.add(input(rd, At(port | 2)));
                c.add(cmp(rd, Short(0)));
                if s.rng.chance(30) {
                    c.add(jump(ZERO, At(wait)));
                }
            }
            _ => c.add(input(rd, At(port))),
        }
        s.tame_up_to(&mut c, 2);
    }
    s.end_turns(&mut c, top);
    s.begin_at(&c);
}

/// A loop that switches the motor, with entries and other instructions between; it halts at times.
fn motor(s: &mut Scene) {
    s.m.flag |= if s.rng.chance(95) { I } else { 0 };
    s.m.flag |= if s.rng.chance(30) { E } else { 0 };
    let code = s.page(EXECUTE);
    let data = s.data(READ | WRITE);
    s.m.usp = data | 0x80;
    let mut c = s.code_in(code);
    for _ in 0..s.rng.between(1, 4) {
        switch(s, &mut c);
        s.tame_up_to(&mut c, 2);
        match s.rng.below(12) {
            0 => c.add(svc()),
            1 => c.add(word(s.rng.pick(&[0x0100, 0x5D00, 0x08F0]))),
            2..=3 => s.access(&mut c, data),
            _ => {}
        }
    }
    c.add(if s.rng.chance(5) { halt() } else { jump(ALWAYS, At(c.start)) });
    s.begin_at(&c);
}

/// The motor switched by the input bit, against it, or without asking.
fn switch(s: &mut Scene, code: &mut Code) {
    let rd = s.register();
    match s.rng.below(6) {
        // On where the bit is clear.
        0..=1 => code.add([input(rd, At(0x18)), xor(rd, Short(1)), output(rd, At(0x18))].concat()),
        // Off where it is set.
        2 => {
            code.add([input(rd, At(0x18)), moded(0x30, rd, Short(1))].concat());
            let behind = code.here().wrapping_add(10);
            code.add([jump(ZERO, At(behind)), ld(rd, Short(0)), output(rd, At(0x18))].concat());
        }
        3 => code.add([input(rd, At(0x18)), output(rd, At(0x18))].concat()),
        _ => {
            let value = number(s.rng) | s.rng.below(2) as u16;
            s.out(code, 0x18, value);
        }
    }
}
