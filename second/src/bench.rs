//! Runs one case on this program's machine and on the subject and compares all they promise.

use crate::machine::{Core, End, State};
use crate::report::Report;
use crate::subject::{outcome_text, Own, Subject};

#[derive(Clone, Copy, PartialEq, Eq, Debug)]
pub enum Call {
    Step,
    Run(u32),
}

pub struct Case<'a> {
    pub image: &'a [u8],
    pub start: State,
    pub core: Core,
    pub call: Call,
}

impl Case<'_> {
    /// Makes the call on a copy of the image.
    pub fn carry_out(&self, subject: &dyn Subject, image: &mut [u8]) -> End {
        match self.call {
            Call::Step => subject.step(image, self.start, self.core),
            Call::Run(limit) => subject.run(image, self.start, self.core, limit),
        }
    }
}

const SHORT_IMAGE: usize = 64;

pub struct Bench<'a> {
    pub subject: &'a dyn Subject,
    pub report: Report,
    /// Whether a failure prints its image even where that is long.
    pub prints_long_images: bool,
    ours: Vec<u8>,
    theirs: Vec<u8>,
}

impl<'a> Bench<'a> {
    pub fn new(subject: &'a dyn Subject, report: Report) -> Bench<'a> {
        Bench { subject, report, prints_long_images: false, ours: Vec::new(), theirs: Vec::new() }
    }

    /// A case of this one call.
    pub fn case(&mut self, case: &Case, name: impl FnOnce() -> String) {
        if self.report.case() {
            self.compare(case, name);
        }
    }

    /// Compares and reports. Gives this program's end if the subject's is the same.
    pub fn compare(&mut self, case: &Case, name: impl FnOnce() -> String) -> Option<End> {
        let (ours, theirs) = self.both(case);
        if ours == theirs && self.ours == self.theirs {
            self.report.pass();
            return Some(ours);
        }
        let (described, difference) = (self.describe(case), self.difference(ours, theirs));
        self.report.fail(|| format!("{}: {described}: {difference}", name()));
        None
    }

    fn both(&mut self, case: &Case) -> (End, End) {
        for copy in [&mut self.ours, &mut self.theirs] {
            copy.clear();
            copy.extend_from_slice(case.image);
        }
        let theirs = case.carry_out(self.subject, &mut self.theirs);
        (case.carry_out(&Own, &mut self.ours), theirs)
    }

    fn difference(&self, ours: End, theirs: End) -> String {
        let mut parts = Vec::new();
        if theirs.outcome != ours.outcome {
            let given = outcome_text(theirs.outcome);
            parts.push(format!("outcome {given} where {} is due", ours.outcome));
        }
        let numbers = [
            ("steps", ours.steps, theirs.steps),
            ("counter", ours.state.pc, theirs.state.pc),
            ("sp", ours.state.sp, theirs.state.sp),
            ("flag", u32::from(ours.state.flag), u32::from(theirs.state.flag)),
        ];
        for (name, wanted, given) in numbers {
            if wanted != given {
                parts.push(format!("{name} {given} where {wanted} is due"));
            }
        }
        let mut bytes = self.theirs.iter().zip(&self.ours).enumerate();
        if let Some((at, (given, wanted))) = bytes.find(|(_, (given, wanted))| given != wanted) {
            parts.push(format!("byte {at} is {given:02X} where {wanted:02X} is due"));
        }
        parts.join(", ")
    }

    fn describe(&self, case: &Case) -> String {
        let State { pc, sp, flag } = case.start;
        let byte = match case.image.get(pc as usize) {
            Some(byte) => format!("{byte:02X}"),
            None => "none".to_string(),
        };
        format!(
            "{:?} {:?}, L {}, counter {pc}, sp {sp}, flag {flag}, byte there {byte}{}",
            case.core,
            case.call,
            case.image.len(),
            self.image_text(case.image)
        )
    }

    pub fn image_text(&self, image: &[u8]) -> String {
        if image.len() > SHORT_IMAGE && !self.prints_long_images {
            return String::new();
        }
        let hex: Vec<String> = image.iter().map(|byte| format!("{byte:02X}")).collect();
        format!(", image {}", hex.join(" "))
    }
}
