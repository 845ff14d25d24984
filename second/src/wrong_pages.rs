//! Microcode of this program's own, laid over a vector of the page: document 01's two faults of
//! microcode that look right, and a right routine to hold one of them against. Then pages that
//! are wrong in their unused bytes or in the paths of their routines, and again a right one.
//!
//! A routine begins with the return address on top of A and B, and ends by popping it.

use crate::page::vector;
use crate::paths::Addresses;

const POPPC: u8 = 4;
const ADD: u8 = 5;
const AND: u8 = 6;
const NOT: u8 = 9;
const FLIP: u8 = 10;
const NOP: u8 = 11;

const fn im(bits: u8) -> u8 {
    128 | bits
}

const fn loadsp(offset: u8) -> u8 {
    96 | (offset ^ 16)
}

const fn storesp(offset: u8) -> u8 {
    64 | (offset ^ 16)
}

pub struct Routine {
    pub name: &'static str,
    /// The short one whose vector it is laid over.
    pub byte: u8,
    code: &'static [u8],
    /// The A and B for which it is wrong.
    pub is_wrong: fn(u32, u32) -> bool,
}

impl Routine {
    pub fn lay(&self, page: &mut [u8]) {
        page[vector(self.byte)][..self.code.len()].copy_from_slice(self.code);
    }
}

/// NEG pushes 0 and 1, and gives 0 + (1 + NOT A). LESSTHAN takes the top bit of A + (NOT B + 1),
/// which is wrong where A - B is not a signed number of 32 bits.
pub const ROUTINES: [Routine; 3] = [
    Routine {
        name: "NEG, two constants parted by a NOP",
        byte: 48,
        code: &[im(0), NOP, im(1), loadsp(3), NOT, ADD, ADD, storesp(2), POPPC],
        is_wrong: |_, _| false,
    },
    Routine {
        name: "NEG, two constants with no instruction between them",
        byte: 48,
        code: &[im(0), im(1), loadsp(3), NOT, ADD, ADD, storesp(2), POPPC],
        is_wrong: |_, _| true,
    },
    Routine {
        name: "LESSTHAN by the sign of A - B",
        byte: 36,
        code: &[
            loadsp(2),
            NOT,
            im(1),
            ADD,
            loadsp(2),
            ADD,
            FLIP,
            im(1),
            AND,
            storesp(3),
            storesp(1),
            POPPC,
        ],
        is_wrong: |a, b| (a as i32).checked_sub(b as i32).is_none(),
    },
];

pub const PATH: &str = "a path";
pub const UNUSED_BYTE: &str = "an unused byte";

pub struct Spoilt {
    pub name: &'static str,
    /// Takes the addresses that the routines use, too.
    pub spoil: fn(&mut [u8], &Addresses),
    /// What tells the page apart. None for a page that is right.
    pub sign: Option<&'static str>,
}

const ULESSTHANOREQUAL: u8 = 39;
const NEG: u8 = 48;
/// The wide core refuses it, so that no page serves it. Its vector follows ULESSTHANOREQUAL's.
const UNSERVED: u8 = 40;
/// The page's last 32 bytes, behind the vectors.
const LAST_BLOCK: usize = 2016;

pub const SPOILT: [Spoilt; 7] = [
    Spoilt {
        name: "ADDs for the unused NOPs",
        spoil: |page, used| {
            let unused = (0..page.len()).filter(|at| !used.contains(at));
            unused.for_each(|at| page[at] = ADD);
        },
        sign: Some(UNUSED_BYTE),
    },
    Spoilt {
        name: "a NOT amid an unserved vector",
        spoil: |page, _| page[vector(UNSERVED)][16] = NOT,
        sign: Some(UNUSED_BYTE),
    },
    Spoilt {
        name: "an AND after a routine's end",
        spoil: |page, used| page[first_end(used)] = AND,
        sign: Some(UNUSED_BYTE),
    },
    Spoilt {
        name: "ULESSTHANOREQUAL by a jump into an unserved vector",
        spoil: |page, _| move_to(page, ULESSTHANOREQUAL, vector(UNSERVED).start),
        sign: Some(PATH),
    },
    Spoilt {
        name: "ULESSTHANOREQUAL by NOPs into an unserved vector",
        spoil: |page, _| {
            page.copy_within(vector(ULESSTHANOREQUAL), vector(UNSERVED).start);
            page[vector(ULESSTHANOREQUAL)].fill(NOP);
        },
        sign: Some(PATH),
    },
    Spoilt {
        name: "NEG by a jump to the page's last byte",
        spoil: |page, _| jump_to(page, NEG, page.len() - 1),
        sign: Some(PATH),
    },
    Spoilt {
        name: "ULESSTHANOREQUAL by a jump behind the vectors",
        spoil: |page, _| move_to(page, ULESSTHANOREQUAL, LAST_BLOCK),
        sign: None,
    },
];

/// The first unused address right behind a used one.
fn first_end(used: &Addresses) -> usize {
    used.iter().map(|at| at + 1).find(|at| !used.contains(at)).unwrap()
}

/// Copies the byte's vector elsewhere and leaves a jump there in its place.
fn move_to(page: &mut [u8], byte: u8, to: usize) {
    page.copy_within(vector(byte), to);
    jump_to(page, byte, to);
}

/// Leaves nothing in the byte's vector but a jump.
fn jump_to(page: &mut [u8], byte: u8, to: usize) {
    let vector = &mut page[vector(byte)];
    vector.fill(NOP);
    vector[..3].copy_from_slice(&[im((to >> 7) as u8), im((to & 127) as u8), POPPC]);
}
