//! The product behind its C boundary.

use crate::dirt::PAGE;
use crate::machine::{Core, End, State};
use crate::subject::{Subject, NOT_A_FLAG, OUTSIDE};

#[repr(C)]
#[derive(Clone, Copy)]
struct ZpuState {
    pc: u32,
    sp: u32,
    flag: u32,
}

#[repr(C)]
struct ZpuEnd {
    outcome: u32,
    steps: u32,
    state: ZpuState,
}

extern "C" {
    fn zpu_step(image: *mut u8, length: usize, start: ZpuState, core: u32) -> ZpuEnd;
    fn zpu_run(image: *mut u8, length: usize, start: ZpuState, core: u32, limit: u32) -> ZpuEnd;
    fn zpu_page(image: *mut u8, length: usize) -> u32;
}

/// The boundary takes any number but 0 as a flag that is set.
const SET: [u32; 5] = [1, 2, 256, 0x8000_0000, u32::MAX];
/// The boundary takes any number but 1 as the narrow core.
const NARROW: [u32; 5] = [0, 2, 257, 0x8000_0001, u32::MAX];

const VARIANTS: usize = 5;

/// Bytes around a lent image that nobody may write: a page behind it, and a page and the variant
/// in front, so that images lie at different places in a machine word.
const FENCE: [u8; PAGE + VARIANTS] = [0xA5; PAGE + VARIANTS];

pub struct Library {
    /// Whether an empty image is lent as a null pointer.
    pub null: bool,
}

/// Varies with the start alone, so that a case run again passes the same numbers.
fn variant(start: State) -> usize {
    (start.pc ^ start.sp.rotate_left(7)) as usize % VARIANTS
}

fn to_c(start: State) -> ZpuState {
    let flag = if start.flag { SET[variant(start)] } else { 0 };
    ZpuState { pc: start.pc, sp: start.sp, flag }
}

fn core_number(core: Core, start: State) -> u32 {
    match core {
        Core::Wide => 1,
        Core::Narrow => NARROW[variant(start)],
    }
}

impl Library {
    /// Makes the call on a copy of the image between two fences. Gives its answer, and whether
    /// both fences still stand.
    fn lend<T>(
        &self,
        image: &mut [u8],
        variant: usize,
        call: impl FnOnce(*mut u8, usize) -> T,
    ) -> (T, bool) {
        let (before, behind) = (&FENCE[..PAGE + variant], &FENCE[..PAGE]);
        let (first, length) = (before.len(), image.len());
        let mut lent = [before, image, behind].concat();
        let pointer = match self.null && length == 0 {
            true => std::ptr::null_mut(),
            false => lent.as_mut_ptr().wrapping_add(first),
        };
        let answer = call(pointer, length);
        image.copy_from_slice(&lent[first..first + length]);
        (answer, lent[..first] == *before && lent[first + length..] == *behind)
    }

    fn end(&self, (end, fenced): (ZpuEnd, bool)) -> End {
        let ZpuState { pc, sp, flag } = end.state;
        let outcome = match end.outcome {
            _ if !fenced => OUTSIDE,
            _ if flag > 1 => NOT_A_FLAG,
            outcome => outcome,
        };
        End { outcome, steps: end.steps, state: State { pc, sp, flag: flag != 0 } }
    }
}

// SAFETY, of each call: the image is `length` bytes that are lent for this call alone, or is
// empty, where the pointer is not followed.
impl Subject for Library {
    fn run(&self, image: &mut [u8], start: State, core: Core, limit: u32) -> End {
        let core = core_number(core, start);
        self.end(self.lend(image, variant(start), |image, length| unsafe {
            zpu_run(image, length, to_c(start), core, limit)
        }))
    }

    fn step(&self, image: &mut [u8], start: State, core: Core) -> End {
        let core = core_number(core, start);
        self.end(self.lend(image, variant(start), |image, length| unsafe {
            zpu_step(image, length, to_c(start), core)
        }))
    }

    fn has_page(&self) -> bool {
        true
    }

    fn page_answer(&self, image: &mut [u8]) -> u32 {
        let variant = image.len() % VARIANTS;
        let (answer, fenced) =
            self.lend(image, variant, |image, length| unsafe { zpu_page(image, length) });
        if fenced {
            answer
        } else {
            OUTSIDE
        }
    }

    fn with_null(&self) -> Option<&'static dyn Subject> {
        Some(&Library { null: true })
    }
}
