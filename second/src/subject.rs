//! The machine under test.

use crate::machine::{self, Core, End, State};

/// Stands for a flag that came back as neither 0 nor 1. No machine gives this outcome.
pub const NOT_A_FLAG: u32 = u32::MAX;
/// Stands for a call that wrote bytes around the image. No machine gives this outcome.
pub const OUTSIDE: u32 = u32::MAX - 1;

/// An outcome, or what stands in the place of one, in words.
pub fn outcome_text(outcome: u32) -> String {
    match outcome {
        NOT_A_FLAG => "with a flag that is neither 0 nor 1".to_string(),
        OUTSIDE => "with bytes around the image written".to_string(),
        outcome => outcome.to_string(),
    }
}

pub trait Subject {
    fn run(&self, image: &mut [u8], start: State, core: Core, limit: u32) -> End;

    fn step(&self, image: &mut [u8], start: State, core: Core) -> End;

    /// Whether the subject promises a microcode page at all.
    fn has_page(&self) -> bool;

    /// Lays the page over bytes 0 to 2047 and answers 0, or refuses with 2.
    fn page_answer(&self, image: &mut [u8]) -> u32;

    fn lay_page(&self, image: &mut [u8]) -> bool {
        self.page_answer(image) == 0
    }

    /// The same subject, lent an empty image as a null pointer, where it is lent pointers.
    fn with_null(&self) -> Option<&'static dyn Subject> {
        None
    }
}

/// This program's own machine, which has no page.
pub struct Own;

impl Subject for Own {
    fn run(&self, image: &mut [u8], start: State, core: Core, limit: u32) -> End {
        machine::run(image, start, core, limit)
    }

    fn step(&self, image: &mut [u8], start: State, core: Core) -> End {
        machine::step(image, start, core)
    }

    fn has_page(&self) -> bool {
        false
    }

    fn page_answer(&self, _image: &mut [u8]) -> u32 {
        2
    }
}
