//! Machines that are wrong in one thing, made from the right one.

use crate::instruction::offset;
use crate::machine::{self, set_word, word, words, Core, End, State, LIMIT};
use crate::subject::Subject;

/// No wrong machine runs on for ever.
const LONGEST_RUN: u32 = 100_000;

/// A right step that was just done, to be bent into a wrong one.
pub struct Bent<'a> {
    pub image: &'a mut [u8],
    pub old: &'a [u8],
    pub core: Core,
    pub byte: u8,
    pub a: u32,
    pub b: u32,
    pub before: State,
    pub end: End,
}

pub type Bend = fn(&mut Bent);

#[derive(Clone, Copy)]
pub enum Wrong {
    Step(Bend),
    Run(fn(&mut [u8], State, Core, u32) -> End),
}

pub struct WrongMachine {
    pub name: &'static str,
    pub wrong: Wrong,
}

/// The word at this index, or 0 where there is none.
fn word_or_0(image: &[u8], index: u32) -> u32 {
    if index < words(image) {
        word(image, index)
    } else {
        0
    }
}

pub fn truth(holds: bool) -> u32 {
    u32::from(holds)
}

/// Puts another result in the place of what the wide core made of A and B.
pub fn if_wide(s: &mut Bent, byte: u8, work: fn(u32, u32) -> u32) {
    if s.did_wide(byte) {
        s.top_becomes(work(s.a, s.b));
    }
}

impl Bent<'_> {
    pub fn done(&self) -> bool {
        self.end.outcome == LIMIT
    }

    pub fn refused_with(&self, outcome: u32, byte: u8) -> bool {
        self.end.outcome == outcome && self.byte == byte
    }

    /// Whether this byte was carried out.
    pub fn did(&self, byte: u8) -> bool {
        self.done() && self.byte == byte
    }

    /// Whether the wide core carried this byte out itself.
    pub fn did_wide(&self, byte: u8) -> bool {
        self.did(byte) && self.core == Core::Wide
    }

    pub fn emulated(&self) -> bool {
        self.done() && self.core == Core::Narrow && (32..64).contains(&self.byte)
    }

    pub fn jumped_relative(&self) -> bool {
        match self.byte {
            57 | 63 => self.did_wide(self.byte),
            56 => self.did_wide(56) && self.b != 0,
            55 => self.did_wide(55) && self.b == 0,
            _ => false,
        }
    }

    pub fn jumped(&self) -> bool {
        self.jumped_relative() || self.did(4) || self.did_wide(45)
    }

    pub fn w(&self) -> u32 {
        words(self.old)
    }

    pub fn n(&self) -> u32 {
        offset(self.byte)
    }

    pub fn old_word(&self, index: u32) -> u32 {
        word_or_0(self.old, index)
    }

    pub fn top_becomes(&mut self, value: u32) {
        let sp = self.end.state.sp;
        if sp < words(self.image) {
            set_word(self.image, sp, value);
        }
    }

    pub fn undo(&mut self) {
        self.image.copy_from_slice(self.old);
    }

    pub fn refuse(&mut self, outcome: u32) {
        self.undo();
        self.end = End { outcome, steps: 0, state: self.before };
    }

    /// Done after all, with the memory as it was.
    pub fn accept(&mut self, pc: u32, sp: u32) {
        self.undo();
        self.end = End { outcome: LIMIT, steps: 1, state: State { pc, sp, flag: false } };
    }

    pub fn again_on(&mut self, core: Core) {
        self.undo();
        self.end = machine::step(self.image, self.before, core);
    }

    pub fn again_from(&mut self, start: State) {
        self.undo();
        self.end = machine::step(self.image, start, self.core);
    }

    /// The step done anew as if another byte stood there.
    pub fn again_as(&mut self, byte: u8) {
        self.undo();
        self.end = step_as(self.image, self.before, self.core, byte);
    }
}

fn step_as(image: &mut [u8], state: State, core: Core, byte: u8) -> End {
    let at = state.pc as usize;
    if at >= image.len() {
        return machine::step(image, state, core);
    }
    let there = std::mem::replace(&mut image[at], byte);
    let end = machine::step(image, state, core);
    if image[at] == byte {
        image[at] = there;
    }
    end
}

fn bent_step(bend: Bend, image: &mut [u8], before: State, core: Core) -> End {
    let old = image.to_vec();
    let byte = old.get(before.pc as usize).copied().unwrap_or(11);
    let (a, b) = (word_or_0(&old, before.sp), word_or_0(&old, before.sp.saturating_add(1)));
    let end = machine::step(image, before, core);
    let mut bent = Bent { image, old: &old, core, byte, a, b, before, end };
    bend(&mut bent);
    bent.end
}

fn bent_run(bend: Bend, image: &mut [u8], start: State, core: Core, limit: u32) -> End {
    let mut end = machine::run(image, start, core, 0);
    if end.outcome != LIMIT {
        return end;
    }
    for _ in 0..limit.min(LONGEST_RUN) {
        let step = bent_step(bend, image, end.state, core);
        end = End { steps: end.steps + step.steps, ..step };
        if step.outcome != LIMIT {
            break;
        }
    }
    end
}

/// A run that fetches from the image as it was at the start.
pub fn run_on_old_code(image: &mut [u8], start: State, core: Core, limit: u32) -> End {
    let code = image.to_vec();
    let mut end = machine::run(image, start, core, 0);
    while end.outcome == LIMIT && end.steps < limit.min(LONGEST_RUN) {
        let byte = code.get(end.state.pc as usize).copied().unwrap_or(11);
        let step = step_as(image, end.state, core, byte);
        end = End { steps: end.steps + step.steps, ..step };
    }
    end
}

impl Subject for WrongMachine {
    fn run(&self, image: &mut [u8], start: State, core: Core, limit: u32) -> End {
        match self.wrong {
            Wrong::Step(bend) => bent_run(bend, image, start, core, limit),
            Wrong::Run(run) => run(image, start, core, limit),
        }
    }

    fn step(&self, image: &mut [u8], start: State, core: Core) -> End {
        self.run(image, start, core, 1)
    }

    fn has_page(&self) -> bool {
        false
    }

    fn page_answer(&self, _image: &mut [u8]) -> u32 {
        2
    }
}
