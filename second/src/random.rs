//! Random images and random well-formed programs, on both cores.

use crate::bench::{Bench, Call, Case};
use crate::machine::{set_word, words, Core, State, CORES, LIMIT};
use crate::program::{Writer, ALL};
use crate::rng::Rng;

const FAMILY: u64 = 1;

pub fn cases(bench: &mut Bench, seed: u64, count: u64) {
    let mut image = Vec::new();
    for number in 0..count {
        case(bench, &mut image, seed, number);
        if bench.report.enough() {
            return;
        }
    }
}

fn case(bench: &mut Bench, image: &mut Vec<u8>, seed: u64, number: u64) {
    if !bench.report.case() {
        return;
    }
    let mut rng = Rng::of_case(seed, FAMILY, number);
    let length = length(&mut rng);
    image.resize(length, 0);
    let start = match rng.below(4) {
        0 => any_bytes(&mut rng, image),
        1 => lively_bytes(&mut rng, image),
        _ => program(&mut rng, image),
    };
    let start = if rng.one_in(16) { odd_start(&mut rng, start, length) } else { start };
    let core: Core = rng.pick(&CORES);
    let call = call(&mut rng);
    let name = || "random case".to_string();
    let case = Case { image, start, core, call };
    let end = bench.compare(&case, name);
    // Only a run that is known to end may have the greatest limit.
    if end.is_some_and(|end| end.outcome != LIMIT) && rng.one_in(8) {
        bench.compare(&Case { call: Call::Run(u32::MAX), ..case }, name);
    }
}

fn length(rng: &mut Rng) -> usize {
    let words = match rng.below(1024) {
        0 => 16_384,
        1 => rng.between(1, 16_384),
        2..=40 => rng.between(150, 1024),
        41..=400 => rng.between(40, 150),
        _ => rng.between(1, 40),
    };
    let astray = if rng.one_in(256) { rng.below(4) } else { 0 };
    (4 * words + astray) as usize
}

fn call(rng: &mut Rng) -> Call {
    match rng.below(32) {
        0 => Call::Run(0),
        1 => Call::Run(rng.below(2000)),
        2..=5 => Call::Step,
        _ => Call::Run(rng.below(60)),
    }
}

fn inside(rng: &mut Rng, image: &[u8]) -> State {
    let length = image.len() as u32;
    State { pc: rng.below(length), sp: rng.below(length / 4 + 1), flag: rng.one_in(2) }
}

fn any_bytes(rng: &mut Rng, image: &mut [u8]) -> State {
    rng.fill(image);
    inside(rng, image)
}

/// Bytes that seldom stop, over words that are often addresses.
fn lively_bytes(rng: &mut Rng, image: &mut [u8]) -> State {
    for byte in image.iter_mut() {
        *byte = match rng.below(6) {
            0 => rng.pick(&[2, 4, 5, 6, 7, 8, 9, 10, 11, 12, 13]),
            1 | 2 => rng.between(16, 63) as u8,
            3 | 4 => rng.pick(&[64, 96]) | (rng.below(6) as u8 ^ 16),
            _ => rng.next() as u8 | 128,
        };
    }
    let start = inside(rng, image);
    strew_operands(rng, image, start.sp, 6);
    start
}

fn strew_operands(rng: &mut Rng, image: &mut [u8], sp: u32, count: u32) {
    let length = image.len();
    for index in sp..words(image).min(sp + count) {
        let value = rng.operand(length);
        set_word(image, index, value);
    }
}

/// Code in the first part, a stack in the rest.
fn program(rng: &mut Rng, image: &mut [u8]) -> State {
    rng.fill(image);
    let w = words(image);
    if w == 0 {
        return inside(rng, image);
    }
    let code_words = rng.between(1, w.min(60));
    let pc = rng.below(4 * code_words);
    let end = 4 * code_words as usize;
    Writer { image, at: pc as usize, end, rng, repertoire: &ALL }.fill();
    let sp = rng.between(code_words, w);
    strew_operands(rng, image, sp, 24);
    State { pc, sp, flag: rng.one_in(4) }
}

/// A counter or an sp at an edge, or any at all.
fn odd_start(rng: &mut Rng, start: State, length: usize) -> State {
    let length = length as u32;
    let w = length / 4;
    let any = rng.next() as u32;
    if rng.one_in(2) {
        State { pc: rng.pick(&[length - 1, length, length + 1, any]), ..start }
    } else {
        State { sp: rng.pick(&[0, 1, w.max(1) - 1, w, w + 1, any]), ..start }
    }
}
