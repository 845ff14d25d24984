//! The machine of document 01: a run and a single step, on either core.

use crate::instruction::Instruction;

pub const LIMIT: u32 = 0;
pub const BREAK: u32 = 1;
pub const IMAGE: u32 = 2;
pub const START: u32 = 3;
pub const FETCH: u32 = 4;
pub const ILLEGAL: u32 = 5;
pub const STACK: u32 = 6;
pub const ADDRESS: u32 = 7;
pub const DIVIDE: u32 = 8;

pub const LONGEST_IMAGE: usize = 65_536;

#[derive(Clone, Copy, PartialEq, Eq, Debug)]
pub enum Core {
    Narrow,
    Wide,
}

pub const CORES: [Core; 2] = [Core::Narrow, Core::Wide];

/// `pc` is a byte address, `sp` a word index.
#[derive(Clone, Copy, PartialEq, Eq, Debug)]
pub struct State {
    pub pc: u32,
    pub sp: u32,
    pub flag: bool,
}

#[derive(Clone, Copy, PartialEq, Eq, Debug)]
pub struct End {
    pub outcome: u32,
    pub steps: u32,
    pub state: State,
}

pub fn is_image(length: usize) -> bool {
    length != 0 && length <= LONGEST_IMAGE && length.is_multiple_of(4)
}

/// W, the number of words of an image.
pub fn words(image: &[u8]) -> u32 {
    (image.len() / 4) as u32
}

pub fn word(image: &[u8], index: u32) -> u32 {
    let at = 4 * index as usize;
    u32::from_be_bytes([image[at], image[at + 1], image[at + 2], image[at + 3]])
}

pub fn set_word(image: &mut [u8], index: u32, value: u32) {
    let at = 4 * index as usize;
    image[at..at + 4].copy_from_slice(&value.to_be_bytes());
}

pub fn run(image: &mut [u8], start: State, core: Core, limit: u32) -> End {
    let mut end = End { outcome: LIMIT, steps: 0, state: start };
    if !is_image(image.len()) {
        return End { outcome: IMAGE, ..end };
    }
    if start.sp > words(image) {
        return End { outcome: START, ..end };
    }
    while end.steps != limit {
        let state = end.state;
        let Some(&byte) = image.get(state.pc as usize) else {
            return End { outcome: FETCH, ..end };
        };
        match (Instruction { image, state, byte }).carry_out(core) {
            Err(refusal) => return End { outcome: refusal, ..end },
            Ok(next) => end = End { outcome: LIMIT, steps: end.steps + 1, state: next },
        }
        if byte == 0 {
            return End { outcome: BREAK, ..end };
        }
    }
    end
}

pub fn step(image: &mut [u8], start: State, core: Core) -> End {
    run(image, start, core, 1)
}
