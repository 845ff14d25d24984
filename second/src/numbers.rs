//! Document 01's list of numbers, each by name, and those of the handbook slips that it settles.

use crate::bench::{Bench, Call, Case};
use crate::machine::{set_word, word, Core, End, State, ADDRESS, BREAK, LIMIT, STACK};

const LENGTH: usize = 4096;
const W: u32 = 1024;
const PC: u32 = 2100;
const SP: u32 = 600;

/// A program at 2100 over a stack of given words at 600, and what document 01 says of its end.
struct Number {
    name: &'static str,
    core: Core,
    code: &'static [u8],
    stack: &'static [u32],
    due: Due,
}

enum Due {
    /// The top, and how far sp has moved.
    Top(u32, i32),
    /// The counter, and how far sp has moved.
    Counter(u32, i32),
    /// The word at this distance from the old sp, and how far sp has moved.
    WordAt(u32, u32, i32),
}

use Core::{Narrow, Wide};
use Due::{Counter, Top, WordAt};

const fn number(
    name: &'static str,
    core: Core,
    code: &'static [u8],
    stack: &'static [u32],
    due: Due,
) -> Number {
    Number { name, core, code, stack, due }
}

const COUNT: [u32; 40] = {
    let mut words = [0; 40];
    let mut index = 0;
    while index < 40 {
        words[index] = 0x100 + index as u32;
        index += 1;
    }
    words
};

const INT_MIN: u32 = 0x8000_0000;
const MINUS_1: u32 = 0xFFFF_FFFF;
const MINUS_2: u32 = 0xFFFF_FFFE;
const MINUS_5: u32 = 0xFFFF_FFFB;

const LIST: &[Number] = &[
    number("P: FF pushes FFFFFFFF", Narrow, &[0xFF], &[], Top(MINUS_1, -1)),
    number("P: C0 pushes FFFFFFC0", Narrow, &[0xC0], &[], Top(0xFFFF_FFC0, -1)),
    number("P: 81 then 80 leaves 128", Narrow, &[0x81, 0x80], &[], Top(128, -1)),
    number("50 is STORESP 0", Narrow, &[0x50], &COUNT, WordAt(0, 0x100, 1)),
    number("40 is STORESP 16", Narrow, &[0x40], &COUNT, WordAt(16, 0x100, 1)),
    number("6F is LOADSP 31", Narrow, &[0x6F], &COUNT, Top(0x100 + 31, -1)),
    number("7F is LOADSP 15", Narrow, &[0x7F], &COUNT, Top(0x100 + 15, -1)),
    number("P: LESSTHAN 80000000, 1", Wide, &[36], &[INT_MIN, 1], Top(1, 1)),
    number("P: ULESSTHAN 80000000, 1", Wide, &[38], &[INT_MIN, 1], Top(0, 1)),
    number("P: LESSTHAN A = B", Wide, &[36], &[77, 77], Top(0, 1)),
    number("P: DIV 80000000 by FFFFFFFF", Wide, &[53], &[MINUS_1, INT_MIN], Top(INT_MIN, 1)),
    number("P: MOD 80000000 by FFFFFFFF", Wide, &[54], &[MINUS_1, INT_MIN], Top(0, 1)),
    number("P: DIV -5 by 3", Wide, &[53], &[3, MINUS_5], Top(MINUS_1, 1)),
    number("P: MOD -5 by 3", Wide, &[54], &[3, MINUS_5], Top(MINUS_2, 1)),
    number("ASHIFTRIGHT of 80000000 by 40", Wide, &[44], &[40, INT_MIN], Top(MINUS_1, 1)),
    number("LSHIFTRIGHT by 32", Wide, &[42], &[32, INT_MIN], Top(0, 1)),
    number("P: FLIP 1", Narrow, &[10], &[1], Top(INT_MIN, 0)),
    number("P: NEG 80000000", Wide, &[48], &[INT_MIN], Top(INT_MIN, 0)),
    number("P: NEQBRANCH, B = 1", Wide, &[56], &[0xFFFF_FFFC, 1], Counter(2096, 2)),
    number("P: NEQBRANCH, B = 0", Wide, &[56], &[0xFFFF_FFFC, 0], Counter(2101, 2)),
    number("P: PUSHSPADD, sp = 600, A = FFFFFFFF", Wide, &[61], &[MINUS_1], Top(2396, 0)),
    number("LOADB 3 of 01020304", Wide, &[51], &[3], Top(4, 0)),
    number("LOADH 3 of 01020304", Wide, &[34], &[3], Top(772, 0)),
    number("P: 31 on the narrow core", Narrow, &[0x31], &[], Counter(544, -1)),
    number("PUSHSP gives 4 times sp", Narrow, &[2], &[], Top(2400, -1)),
    number("POPSP takes a byte address", Narrow, &[13], &[2047], Counter(2101, -89)),
    number("POPDOWN is 81", Narrow, &[81], &[7, 8, 9], Top(7, 1)),
    number("LOAD keeps the depth", Narrow, &[8], &[0], Top(0x0102_0304, 0)),
    number("ADDTOP is 17", Narrow, &[17], &[5, 3], Top(8, 0)),
    number("SHIFT is 16", Narrow, &[16], &[5], Top(10, 0)),
    number("ULESSTHAN is 38", Wide, &[38], &[1, 2], Top(1, 1)),
    number("ULESSTHANOREQUAL is 39", Wide, &[39], &[2, 2], Top(1, 1)),
    number("CALLPCREL is 63", Wide, &[63], &[10], Counter(2110, 0)),
    number("PUSHPC pushes its own address", Wide, &[59], &[], Top(2100, -1)),
];

pub fn all(bench: &mut Bench) {
    for number in LIST {
        check(bench, number);
    }
    load_at_the_end(bench);
    empty_stack(bench);
    limit_nought(bench);
    break_on_the_last_step(bench);
}

fn image_of(code: &[u8], stack: &[u32]) -> Vec<u8> {
    let mut image = vec![0; LENGTH];
    set_word(&mut image, 0, 0x0102_0304);
    image[PC as usize..][..code.len()].copy_from_slice(code);
    for (index, &value) in (SP..).zip(stack) {
        set_word(&mut image, index, value);
    }
    image
}

fn check(bench: &mut Bench, number: &Number) {
    if !bench.report.case() {
        return;
    }
    let image = image_of(number.code, number.stack);
    let start = State { pc: PC, sp: SP, flag: false };
    let steps = number.code.len() as u32;
    let case = Case { image: &image, start, core: number.core, call: Call::Run(steps) };
    let mut after = image.clone();
    let end = case.carry_out(bench.subject, &mut after);
    let moved = end.state.sp.wrapping_sub(SP) as i32;
    let top = || word(&after, end.state.sp.min(W - 1));
    let as_due = match number.due {
        Top(value, by) => top() == value && moved == by,
        Counter(pc, by) => end.state.pc == pc && moved == by,
        WordAt(depth, value, by) => word(&after, SP + depth) == value && moved == by,
    };
    let done = end.outcome == LIMIT && end.steps == steps;
    bench.report.expect(done && as_due, || {
        format!("number \"{}\": {end:?}, top {:08X}", number.name, top())
    });
    bench.compare(&case, || format!("number \"{}\"", number.name));
}

fn expect_end(bench: &mut Bench, name: &str, case: &Case, due: End) {
    if !bench.report.case() {
        return;
    }
    let end = case.carry_out(bench.subject, &mut case.image.to_vec());
    bench.report.expect(end == due, || format!("number \"{name}\": {end:?}, due {due:?}"));
    bench.compare(case, || format!("number \"{name}\""));
}

fn load_at_the_end(bench: &mut Bench) {
    let start = State { pc: PC, sp: SP, flag: false };
    let image = image_of(&[8], &[LENGTH as u32 - 1]);
    let case = Case { image: &image, start, core: Narrow, call: Call::Run(1) };
    let on = State { pc: PC + 1, ..start };
    expect_end(bench, "LOAD at L - 1", &case, End { outcome: LIMIT, steps: 1, state: on });
    let image = image_of(&[8], &[LENGTH as u32]);
    let case = Case { image: &image, ..case };
    expect_end(bench, "LOAD at L", &case, End { outcome: ADDRESS, steps: 0, state: start });
}

fn empty_stack(bench: &mut Bench) {
    let start = State { pc: PC, sp: W, flag: false };
    let image = image_of(&[4], &[]);
    let case = Case { image: &image, start, core: Narrow, call: Call::Run(1) };
    expect_end(bench, "POPPC at W", &case, End { outcome: STACK, steps: 0, state: start });
}

fn limit_nought(bench: &mut Bench) {
    let start = State { pc: LENGTH as u32, sp: W, flag: false };
    let image = image_of(&[], &[]);
    let case = Case { image: &image, start, core: Narrow, call: Call::Run(0) };
    expect_end(bench, "limit 0 at L", &case, End { outcome: LIMIT, steps: 0, state: start });
}

fn break_on_the_last_step(bench: &mut Bench) {
    let start = State { pc: PC, sp: W, flag: true };
    let image = image_of(&[0], &[]);
    let case = Case { image: &image, start, core: Wide, call: Call::Run(1) };
    let state = State { pc: PC + 1, sp: W, flag: false };
    expect_end(bench, "BREAK on the last step", &case, End { outcome: BREAK, steps: 1, state });
}
