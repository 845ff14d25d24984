//! Each of the 256 bytes, on each core, at the edges.

use crate::bench::{Bench, Call, Case};
use crate::machine::{self, is_image, set_word, words, Core, State, CORES, LIMIT};
use crate::rng::Rng;

const FLAGS: [bool; 2] = [false, true];

pub fn all(bench: &mut Bench) {
    let parts: [fn(&mut Bench); 8] = [
        stack_edges,
        operand_edges,
        longest_image,
        counter_edges,
        limit_edges,
        lengths,
        bad_lengths,
        starts,
    ];
    for part in parts {
        part(bench);
        if bench.report.enough() {
            return;
        }
    }
}

fn each_byte(bench: &mut Bench, mut work: impl FnMut(&mut Bench, Core, u8, bool)) {
    for core in CORES {
        for byte in 0..=255 {
            for flag in FLAGS {
                work(bench, core, byte, flag);
            }
            if bench.report.enough() {
                return;
            }
        }
    }
}

fn one(bench: &mut Bench, case: &Case) {
    bench.case(case, || "edge".to_string());
}

/// Three fillings: all zero, small numbers, any numbers.
fn filled(length: usize, filling: u64) -> Vec<u8> {
    let mut image = vec![0; length];
    match filling {
        0 => {}
        1 => {
            for index in 0..words(&image) {
                set_word(&mut image, index, index * 5 % (length as u32 + 8));
            }
        }
        _ => Rng::of_case(0, filling, length as u64).fill(&mut image),
    }
    image
}

/// Every sp from 0 to W + 1, so that every offset stops short of W, reaches it and passes it.
fn stack_edges(bench: &mut Bench) {
    for length in [4, 8, 12, 16, 60, 128, 160] {
        for filling in 0..3 {
            let whole = filled(length, filling);
            let mut image = whole.clone();
            each_byte(bench, |bench, core, byte, flag| {
                for at in [0, length / 2, length - 1] {
                    image.copy_from_slice(&whole);
                    image[at] = byte;
                    for sp in (0..=words(&image) + 1).chain([0x4000_0000, u32::MAX]) {
                        let start = State { pc: at as u32, sp, flag };
                        let case = Case { image: &image, start, core, call: Call::Step };
                        one(bench, &case);
                    }
                }
            });
        }
    }
}

/// Top operands: shifts, divisors, addresses at both ends, of the code and of the stack.
fn tops(length: u32, pc: u32) -> Vec<u32> {
    let mut list = vec![
        0, 1, 2, 3, 5, 7, 31, 32, 33, 40, 0x100, 0x7FFF_FFFF, 0x8000_0000, 0x8000_0001,
        0xFFFF_FFFB, 0xFFFF_FFFC, 0xFFFF_FFFE, 0xFFFF_FFFF,
    ];
    list.extend([pc, pc + 1, pc + 4, 0x1_0000 + pc]);
    list.extend([0, 0x1_0000, 0x8000_0000].map(|high| high + length / 2 + 1));
    list.extend(length - 5..=length + 8);
    list
}

const SECONDS: [u32; 12] = [
    0, 1, 2, 3, 0x7FFF_FFFF, 0x8000_0000, 0x8000_0001, 0x0102_8384, 0xFFFF_FFFB, 0xFFFF_FF00,
    0xFFFF_FFFE, 0xFFFF_FFFF,
];

fn operand_edges(bench: &mut Bench) {
    let length = 64;
    let whole = filled(length, 2);
    let last = words(&whole) - 1;
    for at in [0, 41, length - 1] {
        for sp in [5, last - 1, last] {
            each_byte(bench, |bench, core, byte, flag| {
                let start = State { pc: at as u32, sp, flag };
                operands_of(bench, &whole, core, start, byte);
            });
        }
    }
}

fn operands_of(bench: &mut Bench, whole: &[u8], core: Core, start: State, byte: u8) {
    let mut image = whole.to_vec();
    for top in tops(whole.len() as u32, start.pc) {
        for second in SECONDS {
            image.copy_from_slice(whole);
            set_word(&mut image, start.sp, top);
            if start.sp + 1 < words(whole) {
                set_word(&mut image, start.sp + 1, second);
            }
            image[start.pc as usize] = byte;
            for call in [Call::Step, Call::Run(4)] {
                let case = Case { image: &image, start, core, call };
                one(bench, &case);
            }
        }
    }
}

fn longest_image(bench: &mut Bench) {
    let length = machine::LONGEST_IMAGE as u32;
    let mut image = filled(length as usize, 2);
    let w = words(&image);
    each_byte(bench, |bench, core, byte, flag| {
        image[2048] = byte;
        for top in [0, length - 1, length, length + 3, length + 4, 0xFFFF_FFFF] {
            for sp in [0, w - 2, w - 1, w, w + 1] {
                if sp < w {
                    set_word(&mut image, sp, top);
                }
                let start = State { pc: 2048, sp, flag };
                let case = Case { image: &image, start, core, call: Call::Run(2) };
                one(bench, &case);
            }
        }
    });
}

/// Counters at the end of memory and beyond it, with limits that end the run before and after.
fn counter_edges(bench: &mut Bench) {
    let length = 32;
    let mut image = filled(length, 1);
    let end = length as u32;
    each_byte(bench, |bench, core, byte, flag| {
        image[length - 1] = byte;
        for pc in [end - 1, end, end + 1, end + 4, 0x8000_0000, u32::MAX - 1, u32::MAX] {
            for sp in [0, 1, 4, 7, 8, 9] {
                for limit in [0, 1, 2] {
                    let start = State { pc, sp, flag };
                    let case = Case { image: &image, start, core, call: Call::Run(limit) };
                    one(bench, &case);
                }
            }
        }
    });
}

/// Limits of 0, 1, one short of the end, the end, one over, and the greatest.
fn limit_edges(bench: &mut Bench) {
    let pairs = [(0, 0), (1, 5), (9, 0), (13, 1), (60, 2), (0xFFFF_FFFF, 7), (12, 12)];
    let mut image = vec![11; 64];
    each_byte(bench, |bench, core, byte, flag| {
        for (top, second) in pairs {
            for tail in [0, 11, 0x2E] {
                image.fill(tail);
                image[8..12].copy_from_slice(&[byte, 11, 0x83, 0]);
                set_word(&mut image, 14, top);
                set_word(&mut image, 15, second);
                limits_of(bench, &image, core, State { pc: 8, sp: 14, flag });
            }
        }
    });
}

const ENOUGH_TO_END: u32 = 4096;

/// One case, whose first failure ends it: a subject that goes astray might never come back from
/// the greater limits.
fn limits_of(bench: &mut Bench, image: &[u8], core: Core, start: State) {
    if !bench.report.case() {
        return;
    }
    let end = machine::run(&mut image.to_vec(), start, core, ENOUGH_TO_END);
    let exact = end.steps;
    let mut limits = vec![0, 1, exact.saturating_sub(1), exact, exact + 1];
    if end.outcome != LIMIT {
        limits.extend([0xFFFF, 0x1_0000, 0x8000_0000, 0xFFFF_FFFF]);
    }
    for limit in limits {
        let case = Case { image, start, core, call: Call::Run(limit) };
        if bench.compare(&case, || "limit edge".to_string()).is_none() {
            return;
        }
    }
}

fn lengths(bench: &mut Bench) {
    for length in (0..=20).chain([65_532, 65_533, 65_535, 65_536, 65_537, 65_540, 131_072]) {
        length_edges(bench, length);
    }
}

pub fn length_edges(bench: &mut Bench, length: usize) {
    let mut image = vec![11; length];
    image.iter_mut().step_by(3).for_each(|byte| *byte = 0x81);
    let w = length as u32 / 4;
    for sp in [0, 1, w.saturating_sub(1), w, w + 1, 16_384, 16_385, u32::MAX] {
        for pc in [0, length as u32 / 2, length as u32, u32::MAX] {
            for flag in FLAGS {
                starts_of(bench, &image, State { pc, sp, flag });
            }
        }
    }
}

/// Images of each byte, of lengths that IMAGE refuses.
fn bad_lengths(bench: &mut Bench) {
    for length in (1..20).chain([65_533, 65_534, 65_535, 65_537, 65_540, 131_072]) {
        if is_image(length) {
            continue;
        }
        let mut image = vec![0; length];
        let (pc, w) = (length as u32 / 2, length as u32 / 4);
        each_byte(bench, |bench, core, byte, flag| {
            image.fill(byte);
            for sp in [w / 2, w] {
                for call in [Call::Step, Call::Run(9)] {
                    let start = State { pc, sp, flag };
                    one(bench, &Case { image: &image, start, core, call });
                }
            }
        });
    }
}

fn starts_of(bench: &mut Bench, image: &[u8], start: State) {
    for core in CORES {
        for call in [Call::Step, Call::Run(0), Call::Run(1), Call::Run(9)] {
            let case = Case { image, start, core, call };
            one(bench, &case);
        }
    }
}

/// Every byte from an sp that START refuses.
fn starts(bench: &mut Bench) {
    let mut image = filled(32, 1);
    each_byte(bench, |bench, _, byte, flag| {
        image[0] = byte;
        for sp in [8, 9, 10, 0x4000_0000, 0x4000_0008, 0x8000_0000, u32::MAX] {
            for pc in [0, 32] {
                starts_of(bench, &image, State { pc, sp, flag });
            }
        }
    });
}
