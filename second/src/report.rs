//! Numbers the cases of each part, counts what passed and what failed, and prints the first
//! failures of each part with the command that runs such a case again alone.

const SHOWN: u32 = 12;

pub struct Report {
    pub passed: u64,
    pub failed: u64,
    loud: bool,
    shown: u32,
    seed: u64,
    part: &'static str,
    /// The one case that is to be done, or none where all are.
    only: Option<u64>,
    /// How many cases of the part have begun. The current one has the number below this.
    begun: u64,
}

impl Report {
    pub fn loud(seed: u64, only: Option<u64>) -> Report {
        Report { passed: 0, failed: 0, loud: true, shown: 0, seed, part: "", only, begun: 0 }
    }

    /// A report that prints nothing and has heard enough after one failure.
    pub fn quiet() -> Report {
        Report { loud: false, ..Report::loud(0, None) }
    }

    /// Begins a part, whose cases are numbered from 0 and whose first failures are printed.
    pub fn begin(&mut self, part: &'static str) {
        (self.part, self.begun, self.shown) = (part, 0, 0);
    }

    /// Begins the next case: every check belongs to the case begun last. False where this one is
    /// to be left out. A number must not depend on how earlier cases fared.
    pub fn case(&mut self) -> bool {
        self.begun += 1;
        self.only.is_none_or(|only| only == self.begun - 1)
    }

    /// Whether the cases that are left would tell nothing more.
    pub fn enough(&self) -> bool {
        let heard = !self.loud && self.failed > 0;
        heard || self.only.is_some_and(|only| self.begun > only)
    }

    pub fn pass(&mut self) {
        self.passed += 1;
    }

    pub fn fail(&mut self, text: impl FnOnce() -> String) {
        self.failed += 1;
        if !self.loud {
            return;
        }
        self.shown = self.shown.saturating_add(1);
        if self.shown <= SHOWN {
            let (part, number) = (self.part, self.begun - 1);
            println!("FAILED {part} {number}: {}", text());
            println!("  again: second/check --seed {} --part {part} --only {number}", self.seed);
        }
        if self.shown == SHOWN {
            println!("(more failures of this part are only counted)");
        }
    }

    pub fn expect(&mut self, holds: bool, text: impl FnOnce() -> String) {
        match holds {
            true => self.pass(),
            false => self.fail(text),
        }
    }

    pub fn note(&self, text: &str) {
        if self.loud {
            println!("{text}");
        }
    }
}
