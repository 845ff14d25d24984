//! What one wide step reads and writes, and the dirt that short ones leave behind.

use crate::instruction::offset;
use crate::machine::{word, words, State};

/// The twelve short ones.
pub const SHORT_ONES: [(u8, &str); 12] = [
    (36, "LESSTHAN"),
    (37, "LESSTHANOREQUAL"),
    (38, "ULESSTHAN"),
    (39, "ULESSTHANOREQUAL"),
    (45, "CALL"),
    (46, "EQ"),
    (47, "NEQ"),
    (48, "NEG"),
    (49, "SUB"),
    (50, "XOR"),
    (56, "NEQBRANCH"),
    (61, "PUSHSPADD"),
];

pub fn is_short_one(byte: u8) -> bool {
    SHORT_ONES.iter().any(|&(short_one, _)| short_one == byte)
}

/// Length of the microcode page in bytes.
pub const PAGE: usize = 2048;
const PAGE_WORDS: u32 = PAGE as u32 / 4;
/// Words below sp that a short one may use.
const FREE_WORDS: u32 = 16;

/// The words that an instruction reads besides its own byte, and the one it writes.
#[derive(Debug)]
pub struct Touched {
    pub reads: [Option<u32>; 2],
    pub write: Option<u32>,
}

/// None for a byte that is neither a core instruction nor a short one, and for a LOAD or STORE
/// without a top. An index may be W or more, where the machine refuses.
pub fn touched(image: &[u8], state: State, byte: u8) -> Option<Touched> {
    let State { sp, flag, .. } = state;
    let below = sp.wrapping_sub(1);
    let data = || (sp < words(image)).then(|| word(image, sp) / 4);
    let (reads, write) = match byte {
        128..=255 if flag => ([Some(sp), None], Some(sp)),
        128..=255 | 2 => ([None, None], Some(below)),
        96..=127 => ([Some(sp + offset(byte)), None], Some(below)),
        64..=95 => ([Some(sp), None], Some(sp + offset(byte))),
        16..=31 => ([Some(sp), Some(sp + u32::from(byte & 15))], Some(sp)),
        4 | 13 => ([Some(sp), None], None),
        8 => ([Some(sp), Some(data()?)], Some(sp)),
        12 => ([Some(sp), Some(sp + 1)], Some(data()?)),
        9 | 10 | 45 | 48 | 61 => ([Some(sp), None], Some(sp)),
        56 => ([Some(sp), Some(sp + 1)], None),
        5..=7 | 36..=39 | 46 | 47 | 49 | 50 => ([Some(sp), Some(sp + 1)], Some(sp + 1)),
        11 => ([None, None], None),
        _ => return None,
    };
    Some(Touched { reads, write })
}

/// One byte of mask for each byte of the image: FF where it is dirty, 00 where it is clean.
pub struct Dirt {
    mask: Vec<u8>,
}

impl Dirt {
    pub fn none(length: usize) -> Dirt {
        Dirt { mask: vec![0; length] }
    }

    fn word_is_clean(&self, index: u32) -> bool {
        let at = 4 * index as usize;
        self.mask[at..at + 4] == [0; 4]
    }

    fn mark(&mut self, from: u32, to: u32, mark: u8) {
        self.mask[4 * from as usize..4 * to as usize].fill(mark);
    }

    /// Whether the step breaks no condition of demand 3 that can be seen before it is done.
    pub fn allows(&self, state: State, byte: u8, touched: &Touched) -> bool {
        let w = self.mask.len() as u32 / 4;
        let clean = |index: u32| index < w && self.word_is_clean(index);
        let room = !is_short_one(byte) || state.sp >= PAGE_WORDS + FREE_WORDS;
        self.mask[state.pc as usize] == 0
            && touched.reads.iter().flatten().all(|&index| clean(index))
            && touched.write.is_none_or(|index| (PAGE_WORDS..w).contains(&index))
            && room
    }

    /// Reckons a step that was done.
    pub fn after(&mut self, byte: u8, old_sp: u32, new_sp: u32, touched: &Touched) {
        if is_short_one(byte) {
            self.mark(old_sp - FREE_WORDS, new_sp, 0xFF);
        }
        if let Some(index) = touched.write {
            self.mark(index, index + 1, 0);
        }
    }

    pub fn same_where_clean(&self, one: &[u8], other: &[u8]) -> bool {
        let pairs = one.iter().zip(other).zip(&self.mask);
        pairs.fold(0, |sum, ((a, b), dirty)| sum | ((a ^ b) & !dirty)) == 0
    }

    pub fn first_difference(&self, one: &[u8], other: &[u8]) -> Option<usize> {
        (0..one.len()).find(|&at| self.mask[at] == 0 && one[at] != other[at])
    }
}
