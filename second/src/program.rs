//! Writes well-formed programs: constants before the instructions that take them, addresses
//! inside the image, jumps that stay near.

use crate::rng::Rng;

/// The instructions that a program may use, by what they take.
pub struct Repertoire {
    two_to_one: &'static [u8],
    change_top: &'static [u8],
    loads: &'static [u8],
    stores: &'static [u8],
    absolute: &'static [u8],
    relative: &'static [u8],
    pushes: &'static [u8],
}

pub const ALL: Repertoire = Repertoire {
    two_to_one: &[5, 6, 7, 36, 37, 38, 39, 41, 42, 43, 44, 46, 47, 49, 50, 53, 54],
    change_top: &[9, 10, 48, 61],
    loads: &[8, 34, 51],
    stores: &[12, 35, 52],
    absolute: &[4, 45],
    relative: &[55, 56, 57, 63],
    pushes: &[2, 59],
};

/// The core instructions and the twelve short ones.
pub const SHORT: Repertoire = Repertoire {
    two_to_one: &[5, 6, 7, 36, 37, 38, 39, 46, 47, 49, 50],
    change_top: &[9, 10, 48, 61],
    loads: &[8],
    stores: &[12],
    absolute: &[4, 45],
    relative: &[56],
    pushes: &[2],
};

const NOP: u8 = 11;
const ADD: u8 = 5;
const PUSHSP: u8 = 2;
const POPSP: u8 = 13;
const PUSHSPADD: u8 = 61;

pub struct Writer<'a> {
    pub image: &'a mut [u8],
    pub at: usize,
    pub end: usize,
    pub rng: &'a mut Rng,
    pub repertoire: &'static Repertoire,
}

impl Writer<'_> {
    pub fn fill(&mut self) {
        while self.at < self.end {
            self.phrase();
        }
    }

    fn phrase(&mut self) {
        match self.rng.below(12) {
            0 => self.number(),
            1 | 2 => self.put_one_of(self.repertoire.two_to_one),
            3 => {
                self.number();
                self.number();
                self.put_one_of(self.repertoire.two_to_one);
            }
            4 => self.put_one_of(self.repertoire.change_top),
            5 | 6 => self.stack_offset(),
            7 => self.memory(),
            8 | 9 => self.jump(),
            10 => self.stack_pointer(),
            _ => self.put_one_of(self.repertoire.pushes),
        }
    }

    fn put(&mut self, byte: u8) {
        if self.at < self.end {
            self.image[self.at] = byte;
            self.at += 1;
        }
    }

    fn put_one_of(&mut self, list: &[u8]) {
        let byte = self.rng.pick(list);
        self.put(byte);
    }

    /// Keeps the constant to come from extending the one before it, as a rule.
    fn part(&mut self) {
        let after_im = self.at > 0 && self.image[self.at - 1] >= 128;
        if after_im && !self.rng.one_in(16) {
            self.put(NOP);
        }
    }

    fn constant(&mut self, value: u32, groups: u32) {
        self.part();
        for group in (0..groups).rev() {
            self.put(128 | (value >> (7 * group)) as u8 & 127);
        }
    }

    /// A constant in as few bytes as hold it.
    fn short_constant(&mut self, value: u32) {
        let fits = |groups: u32| {
            let spare = 32 - 7 * groups;
            ((value << spare) as i32 >> spare) as u32 == value
        };
        let groups = (1..=4).find(|&groups| fits(groups)).unwrap_or(5);
        self.constant(value, groups);
    }

    fn number(&mut self) {
        let value = self.rng.operand(self.image.len());
        self.short_constant(value);
    }

    fn stack_offset(&mut self) {
        let near = if self.rng.one_in(8) { 32 } else { 5 };
        let offset = self.rng.below(near) as u8;
        let byte = match self.rng.below(3) {
            0 => 64 | (offset ^ 16),
            1 => 96 | (offset ^ 16),
            _ => 16 | (offset & 15),
        };
        self.put(byte);
    }

    /// A load or a store, mostly above the page where there is one.
    fn memory(&mut self) {
        let length = self.image.len() as u32;
        let low = if length > 2048 && !self.rng.one_in(16) { 2048 } else { 0 };
        let address = self.rng.between(low, length - 1);
        if self.rng.one_in(2) {
            self.short_constant(address);
            self.put_one_of(self.repertoire.loads);
        } else {
            self.number();
            self.short_constant(address);
            self.put_one_of(self.repertoire.stores);
        }
    }

    /// A jump, forwards as a rule. Three groups hold every address.
    fn jump(&mut self) {
        if self.rng.one_in(2) {
            self.number();
        }
        self.part();
        let from = self.at as u32 + 3;
        let ahead = self.rng.below(12) + 1;
        let back = self.rng.below(20);
        let move_by = if self.rng.one_in(5) { 0u32.wrapping_sub(back) } else { ahead };
        if self.rng.one_in(2) {
            self.constant(from.wrapping_add(move_by), 3);
            self.put_one_of(self.repertoire.absolute);
        } else {
            self.constant(move_by, 3);
            self.put_one_of(self.repertoire.relative);
        }
    }

    /// Reads a word near the top by its address, or moves sp by a few words either way.
    fn stack_pointer(&mut self) {
        let words = self.rng.below(10).wrapping_sub(4);
        if self.rng.one_in(2) {
            self.short_constant(words);
            self.put(PUSHSPADD);
            self.put_one_of(self.repertoire.loads);
        } else {
            self.put(PUSHSP);
            self.short_constant(words.wrapping_mul(4));
            self.put(ADD);
            self.put(POPSP);
        }
    }
}
