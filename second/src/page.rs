//! The microcode page: its rules, the short ones at the edges, random programs.

use std::ops::Range;

use crate::bench::{Bench, Call, Case};
use crate::demand3::Pair;
use crate::dirt::{PAGE, SHORT_ONES};
use crate::machine::{set_word, word, words, Core, State, BREAK};
use crate::program::{Writer, SHORT};
use crate::rng::Rng;
use crate::subject::outcome_text;

const FAMILY: u64 = 2;

/// The page addresses of the vector that serves this byte, one of 32 to 63.
pub fn vector(byte: u8) -> Range<usize> {
    let first = 32 * (byte as usize - 32);
    first..first + 32
}

/// What the programs have put to the page.
#[derive(Default)]
pub struct Tally {
    wide_steps: u64,
    narrow_steps: u64,
    short_ones: u64,
}

impl Tally {
    fn add(&mut self, pair: &Pair) {
        self.wide_steps += u64::from(pair.wide_steps);
        self.narrow_steps += u64::from(pair.narrow_steps);
        self.short_ones += u64::from(pair.short_ones);
    }

    pub fn text(&self) -> String {
        let Tally { wide_steps, narrow_steps, short_ones } = self;
        format!(
            "{wide_steps} wide steps, {short_ones} of them short ones, {narrow_steps} narrow steps"
        )
    }
}

/// What `zpu_page` answers, what the page may hold, and the example.
pub fn rules(bench: &mut Bench) {
    for length in [0, 1, 4, 2044, 2047, 2048, 2049, 2050, 2052, 4096, 65_536, 65_537, 65_540] {
        for filling in 0..=255 {
            answer(bench, length, filling);
        }
    }
    let mut image = vec![0; PAGE];
    bench.subject.lay_page(&mut image);
    for (at, &byte) in image.iter().enumerate() {
        let core_instruction = !matches!(byte, 0 | 1 | 3 | 14 | 15 | 32..=63);
        if bench.report.case() {
            bench.report.expect(core_instruction, || format!("page byte {at} is {byte:02X}"));
        }
    }
    example(bench);
}

pub fn answer(bench: &mut Bench, length: usize, filling: u8) {
    if !bench.report.case() {
        return;
    }
    let mut page = vec![0; PAGE];
    bench.subject.lay_page(&mut page);
    let mut image = vec![filling; length];
    let answer = bench.subject.page_answer(&mut image);
    let done = length >= PAGE;
    let due = if done { 0 } else { 2 };
    let laid = if done { PAGE } else { 0 };
    let untouched = image[laid..].iter().all(|&byte| byte == filling);
    let holds = answer == due && untouched && image[..laid] == page[..laid];
    bench.report.expect(holds, || {
        let answer = outcome_text(answer);
        format!("page over {length} bytes of {filling:02X}: answer {answer}, untouched {untouched}")
    });
}

/// The program for which document 01 prints zpurun's lines.
pub const EXAMPLE: [u8; 5] = [0x85, 0x0B, 0x83, 0x31, 0x00];

/// What zpurun prints for the example, from the subject's own page and runs.
fn example(bench: &mut Bench) {
    let mut laid = vec![0; 4096];
    laid[PAGE..PAGE + EXAMPLE.len()].copy_from_slice(&EXAMPLE);
    bench.subject.lay_page(&mut laid);
    let start = State { pc: 2048, sp: 1024, flag: false };
    for (core, limit) in [(Core::Wide, 1000), (Core::Narrow, 200_000)] {
        if !bench.report.case() {
            continue;
        }
        let mut image = laid.clone();
        let end = bench.subject.run(&mut image, start, core, limit);
        let State { pc, sp, .. } = end.state;
        let holds = (end.outcome, pc, sp, word(&image, 1023)) == (BREAK, 2053, 1023, 2);
        bench.report.expect(holds, || format!("the example, {core:?}: {end:?}"));
    }
}

/// An image with the page and NOPs behind it.
pub fn fresh(bench: &Bench, length: usize) -> Vec<u8> {
    let mut image = vec![11; length];
    bench.subject.lay_page(&mut image);
    image
}

/// Demand 3 from this start, and the subject's own runs over the same numbers of steps.
fn follow(
    bench: &mut Bench,
    image: &[u8],
    start: State,
    steps: u32,
    tally: &mut Tally,
    name: &dyn Fn() -> String,
) {
    let mut pair = Pair::new(image, start);
    match pair.follow(steps) {
        Ok(()) => bench.report.pass(),
        Err(wrong) => {
            let (length, image) = (image.len(), bench.image_text(image));
            bench.report.fail(|| format!("{}: L {length}, {start:?}: {wrong}{image}", name()));
        }
    }
    tally.add(&pair);
    for (core, steps) in [(Core::Wide, pair.wide_steps), (Core::Narrow, pair.narrow_steps)] {
        bench.compare(&Case { image, start, core, call: Call::Run(steps) }, name);
    }
}

pub fn edges(bench: &mut Bench, tally: &mut Tally) {
    for (byte, name) in SHORT_ONES {
        edges_of(bench, byte, name, tally);
    }
}

pub const OPERANDS: [u32; 18] = [
    0, 1, 2, 3, 544, 2048, 2100, 4095, 4096, 0xFFFF, 0x1234_5678, 0x7FFF_FFFE, 0x7FFF_FFFF,
    0x8000_0000, 0x8000_0001, 0xFFFF_FFFC, 0xFFFF_FFFE, 0xFFFF_FFFF,
];

/// Code away from the stack, at sp = 528 and at the top of memory.
pub fn edges_of(bench: &mut Bench, byte: u8, name: &str, tally: &mut Tally) {
    for (length, pc, sp) in [
        (4096, 3000, 528),
        (4096, 3000, 529),
        (4096, 2048, 700),
        (4096, 4095, 700),
        (4096, 2100, 1022),
        (4096, 2100, 1023),
        (2120, 2119, 528),
        (65_536, 2048, 16_382),
    ] {
        let mut image = fresh(bench, length);
        image[pc as usize] = byte;
        for flag in [false, true] {
            operands_of(bench, &mut image, State { pc, sp, flag }, name, tally);
            if bench.report.enough() {
                return;
            }
        }
    }
}

fn operands_of(bench: &mut Bench, image: &mut [u8], start: State, name: &str, tally: &mut Tally) {
    let code = image[start.pc as usize];
    for top in OPERANDS {
        for second in OPERANDS {
            set_word(image, start.sp, top);
            if start.sp + 1 < words(image) {
                set_word(image, start.sp + 1, second);
            }
            image[start.pc as usize] = code;
            if bench.report.case() {
                let name = || format!("{name}, A {top:08X}, B {second:08X}");
                follow(bench, image, start, 1, tally, &name);
            }
            if bench.report.enough() {
                return;
            }
        }
    }
}

pub fn programs(bench: &mut Bench, seed: u64, count: u64, tally: &mut Tally) {
    for number in 0..count {
        one_program(bench, seed, number, tally);
        if bench.report.enough() {
            return;
        }
    }
}

fn one_program(bench: &mut Bench, seed: u64, number: u64, tally: &mut Tally) {
    if !bench.report.case() {
        return;
    }
    let mut rng = Rng::of_case(seed, FAMILY, number);
    let (image, start) = program(bench, &mut rng);
    let name = || "page program".to_string();
    let steps = rng.between(1, 80);
    follow(bench, &image, start, steps, tally, &name);
}

/// Code low and the stack at the top of memory, or the stack from 528 up and the code behind it.
fn program(bench: &Bench, rng: &mut Rng) -> (Vec<u8>, State) {
    let code_words = rng.between(4, 60);
    let depth = rng.below(40);
    let low_stack = rng.one_in(3);
    let gap = if rng.one_in(2) { rng.below(60) } else { 60 };
    let length = 4 * (528 + code_words + gap + depth + rng.below(8));
    let mut image = fresh(bench, length as usize);
    let w = words(&image);
    let (sp, code) = if low_stack {
        (528 + rng.pick(&[0, 0, 1, 2, 8, 20]).min(depth), 528 + depth)
    } else {
        (w - depth, 512)
    };
    for index in sp..w {
        let value = rng.operand(length as usize);
        set_word(&mut image, index, value);
    }
    let start = State { pc: 4 * code, sp, flag: rng.one_in(4) };
    let (at, end) = (4 * code as usize, 4 * (code + code_words).min(w) as usize);
    Writer { image: &mut image, at, end, rng, repertoire: &SHORT }.fill();
    (image, start)
}
