//! The paths of the short ones through the page: none enters another vector, each comes out by
//! its return alone, and the bytes on no path are 11.

use std::collections::BTreeSet;

use crate::bench::Bench;
use crate::demand3::NARROW_STEPS;
use crate::dirt::{PAGE, SHORT_ONES};
use crate::machine::{self, set_word, Core, End, State, LIMIT};
use crate::page::{fresh, vector, OPERANDS};
use crate::rng::Rng;

const FAMILY: u64 = 4;
const LENGTH: usize = 2 * PAGE;
const RANDOM_PAIRS: u32 = 300;
/// The vectors of the bytes 32 to 63 end here. From here on a longer routine may go on.
const VECTORS_END: usize = 1024;

const POPPC: u8 = 4;
const NOP: u8 = 11;

/// Where a short one stands, and its stack: in the middle of memory, and at its ends.
const CALLERS: [State; 3] = [
    State { pc: 3000, sp: 900, flag: false },
    State { pc: 2048, sp: 1022, flag: true },
    State { pc: 4095, sp: 528, flag: false },
];

/// Page addresses.
pub type Addresses = BTreeSet<usize>;

pub fn all(bench: &mut Bench, seed: u64) {
    let used = routines(bench, seed);
    if !bench.report.enough() {
        unused(bench, &used);
    }
}

/// A case for each path. Gives the addresses on them, not all where the report has heard enough.
pub fn routines(bench: &mut Bench, seed: u64) -> Addresses {
    let mut used = Addresses::new();
    for (byte, name) in SHORT_ONES {
        used.extend(routine(bench, byte, name, seed));
    }
    used
}

/// A case for each byte of the page.
pub fn unused(bench: &mut Bench, used: &Addresses) {
    for (at, byte) in fresh(bench, PAGE).into_iter().enumerate() {
        if bench.report.case() {
            let holds = byte == NOP || used.contains(&at);
            bench.report.expect(holds, || format!("page byte {at} is unused and is {byte:02X}"));
        }
    }
}

/// The paths of one short one.
pub fn routine(bench: &mut Bench, byte: u8, name: &str, seed: u64) -> Addresses {
    let mut used = Addresses::new();
    let operands = operands(&mut Rng::of_case(seed, FAMILY, u64::from(byte)));
    for start in CALLERS {
        let mut image = fresh(bench, LENGTH);
        image[start.pc as usize] = byte;
        for &(top, second) in &operands {
            if bench.report.enough() {
                return used;
            }
            set_word(&mut image, start.sp, top);
            set_word(&mut image, start.sp + 1, second);
            let path = path(&image, start);
            let name = || format!("{name}, A {top:08X}, B {second:08X}, {start:?}");
            check(bench, &path, byte, name);
            used.extend(path.passed);
        }
    }
    used
}

fn operands(rng: &mut Rng) -> Vec<(u32, u32)> {
    let edges = OPERANDS.iter().flat_map(|&a| OPERANDS.map(|b| (a, b)));
    let random = (0..RANDOM_PAIRS).map(|_| (rng.operand(LENGTH), rng.operand(LENGTH)));
    edges.chain(random).collect()
}

/// What the narrow core does between an EMULATE and the return.
struct Path {
    passed: Vec<usize>,
    end: End,
    returned: bool,
}

/// A return is a POPPC into the state to which the wide core comes. That may lie in the page,
/// where A leads there.
fn path(image: &[u8], start: State) -> Path {
    let due = machine::step(&mut image.to_vec(), start, Core::Wide).state;
    let mut image = image.to_vec();
    let end = machine::step(&mut image, start, Core::Narrow);
    let mut path = Path { passed: Vec::new(), end, returned: false };
    while path.goes_on() {
        let before = path.end.state;
        let at = before.pc as usize;
        let pops = image[at] == POPPC;
        path.end = machine::step(&mut image, before, Core::Narrow);
        path.passed.push(at);
        path.returned = pops && path.end.state == due;
    }
    path
}

impl Path {
    fn goes_on(&self) -> bool {
        let inside = self.end.outcome == LIMIT && (self.end.state.pc as usize) < PAGE;
        inside && !self.returned && self.passed.len() < NARROW_STEPS as usize
    }

    fn enters_other_vector(&self, byte: u8) -> Option<usize> {
        let own = vector(byte);
        let other = |at: &usize| *at < VECTORS_END && !own.contains(at);
        self.passed.iter().copied().find(other)
    }
}

fn check(bench: &mut Bench, path: &Path, byte: u8, name: impl Fn() -> String) {
    if !bench.report.case() {
        return;
    }
    match path.enters_other_vector(byte) {
        Some(at) => {
            let other = 32 + at / 32;
            bench.report.fail(|| format!("{} enters the vector of byte {other} at {at}", name()));
        }
        None => bench.report.expect(path.returned, || {
            format!("{} does not return, but comes to {:?}", name(), path.end)
        }),
    }
}
