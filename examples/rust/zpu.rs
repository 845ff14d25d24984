//! The ZPU behind a safe face. The image is lent for the length of a call; any argument is allowed.

#[derive(Clone, Copy, PartialEq, Eq, Debug)]
pub enum Core {
    Narrow,
    Wide,
}

/// The discriminants are the outcomes' numbers.
#[derive(Clone, Copy, PartialEq, Eq, Debug)]
pub enum Outcome {
    Limit,
    Break,
    Image,
    Start,
    Fetch,
    Illegal,
    Stack,
    Address,
    Divide,
}

/// `pc` is a byte address, `sp` a word index; an `sp` of a quarter of the image's length is an empty stack.
#[derive(Clone, Copy, PartialEq, Eq, Debug)]
pub struct State {
    pub pc: u32,
    pub sp: u32,
    pub flag: bool,
}

#[derive(Clone, Copy, PartialEq, Eq, Debug)]
pub struct End {
    pub outcome: Outcome,
    pub steps: u32,
    pub state: State,
}

/// Runs until `limit` steps are done, a BREAK, or a refusal.
pub fn run(image: &mut [u8], start: State, core: Core, limit: u32) -> End {
    // SAFETY: the pointer and the length are those of a slice that is lent for this call alone.
    let end =
        unsafe { ffi::zpu_run(image.as_mut_ptr(), image.len(), start.into(), number(core), limit) };
    end.into()
}

/// A run with limit 1.
pub fn step(image: &mut [u8], start: State, core: Core) -> End {
    // SAFETY: as in `run`.
    let end = unsafe { ffi::zpu_step(image.as_mut_ptr(), image.len(), start.into(), number(core)) };
    end.into()
}

/// The bytes of the microcode page.
pub const PAGE_LENGTH: u32 = 2048;

/// Lays the microcode page over the first `PAGE_LENGTH` bytes. An image with fewer is left alone, and the answer is `false`.
pub fn lay_page(image: &mut [u8]) -> bool {
    // SAFETY: as in `run`.
    unsafe { ffi::zpu_page(image.as_mut_ptr(), image.len()) == ffi::ZPU_PAGE_IN_PLACE }
}

fn number(core: Core) -> u32 {
    match core {
        Core::Narrow => 0,
        Core::Wide => 1,
    }
}

fn outcome(number: u32) -> Outcome {
    match number {
        0 => Outcome::Limit,
        1 => Outcome::Break,
        2 => Outcome::Image,
        3 => Outcome::Start,
        4 => Outcome::Fetch,
        5 => Outcome::Illegal,
        6 => Outcome::Stack,
        7 => Outcome::Address,
        8 => Outcome::Divide,
        _ => unreachable!("no outcome has the number {number}"),
    }
}

impl From<State> for ffi::State {
    fn from(state: State) -> ffi::State {
        ffi::State { pc: state.pc, sp: state.sp, flag: state.flag.into() }
    }
}

impl From<ffi::End> for End {
    fn from(end: ffi::End) -> End {
        let ffi::State { pc, sp, flag } = end.state;
        End {
            outcome: outcome(end.outcome),
            steps: end.steps,
            state: State { pc, sp, flag: flag != 0 },
        }
    }
}

/// As in include/zpu.h.
mod ffi {
    #[repr(C)]
    pub struct State {
        pub pc: u32,
        pub sp: u32,
        pub flag: u32,
    }

    #[repr(C)]
    pub struct End {
        pub outcome: u32,
        pub steps: u32,
        pub state: State,
    }

    pub const ZPU_PAGE_IN_PLACE: u32 = 0;

    extern "C" {
        pub fn zpu_run(image: *mut u8, length: usize, start: State, core: u32, limit: u32) -> End;
        pub fn zpu_step(image: *mut u8, length: usize, start: State, core: u32) -> End;
        pub fn zpu_page(image: *mut u8, length: usize) -> u32;
    }
}
