//! An independent second program that checks a software ZPU.
//!
//! It is written from document 01 and shares nothing with the product that it checks: it has its
//! own machine, its own reckoning of dirt and its own cases, and it meets the product only
//! through the C boundary of `libzpu_c.a` and the printed lines of `zpurun`. Where document 01
//! leaves a matter open it takes the reading that docs/DECISIONS.md settles, so on those it is a
//! check of the code and not of the reading.
//!
//! `ZPU_LIB_DIR` at build time names the folder of `libzpu_c.a`; without it the program checks
//! its own machine. `ZPURUN` at run time names the `zpurun` executable.
//!
//! `--part` does one part alone, `--only` one case of that part, by its number. A failure prints
//! both.

mod apart;
mod bench;
mod demand3;
mod dirt;
mod edges;
mod instruction;
#[cfg(zpu_library)]
mod library;
mod lines;
mod machine;
mod numbers;
mod page;
mod paths;
mod program;
mod random;
mod report;
mod rng;
mod subject;
mod wide;
mod wrong;
mod wrong_core;
mod wrong_pages;
mod wrong_runs;
mod wrong_wide;

use std::process::ExitCode;
use std::time::{SystemTime, UNIX_EPOCH};

use bench::Bench;
use page::Tally;
use report::Report;
use subject::{Own, Subject};

const USAGE: &str = "usage: second [--seed N] [--cases N] [--part NAME [--only K]]";
/// Page programs are fewer than random cases by this factor, each being longer.
const CASES_PER_PROGRAM: u64 = 20;

struct Options {
    seed: u64,
    cases: u64,
    part: Option<String>,
    only: Option<u64>,
}

impl Options {
    /// Of a part that may have any number of cases: these many, or as many as reach the only one.
    fn count(&self, cases: u64) -> u64 {
        self.only.map_or(cases, |only| only.saturating_add(1))
    }

    fn takes(&self, name: &str) -> bool {
        self.part.as_ref().is_none_or(|part| part == name)
    }

    fn make_sense(&self) -> bool {
        let known = PARTS.iter().any(|part| self.takes(part.name));
        known && (self.part.is_some() || self.only.is_none())
    }
}

fn options() -> Option<Options> {
    let now = SystemTime::now().duration_since(UNIX_EPOCH);
    let seed = now.map_or(1, |time| time.as_nanos() as u64);
    let mut options = Options { seed, cases: 1_000_000, part: None, only: None };
    let mut args = std::env::args().skip(1);
    while let Some(name) = args.next() {
        let value = args.next()?;
        let number = value.parse().ok();
        match name.as_str() {
            "--seed" => options.seed = number?,
            "--cases" => options.cases = number?,
            "--part" => options.part = Some(value),
            "--only" => options.only = Some(number?),
            _ => return None,
        }
    }
    options.make_sense().then_some(options)
}

#[cfg(zpu_library)]
fn the_subject() -> &'static dyn Subject {
    println!("subject: libzpu_c.a");
    &library::Library { null: false }
}

#[cfg(not(zpu_library))]
fn the_subject() -> &'static dyn Subject {
    println!("subject: this program's own machine, built without ZPU_LIB_DIR");
    &Own
}

struct Part {
    name: &'static str,
    needs_page: bool,
    work: fn(&mut Bench, &Options),
}

const fn part(name: &'static str, work: fn(&mut Bench, &Options)) -> Part {
    Part { name, needs_page: false, work }
}

const fn page_part(name: &'static str, work: fn(&mut Bench, &Options)) -> Part {
    Part { name, needs_page: true, work }
}

const PARTS: [Part; 12] = [
    part("own-numbers", |bench, _| with_subject(bench, &Own, numbers::all)),
    part("numbers", |bench, _| numbers::all(bench)),
    part("edges", |bench, _| edges::all(bench)),
    part("null", |bench, _| null_image(bench)),
    part("random", |bench, options| {
        random::cases(bench, options.seed, options.count(options.cases))
    }),
    page_part("page", |bench, _| page::rules(bench)),
    page_part("page-paths", |bench, options| paths::all(bench, options.seed)),
    page_part("page-edges", |bench, _| page_edges(bench)),
    page_part("page-programs", page_programs),
    part("zpurun", |bench, options| lines::all(bench, options.seed)),
    part("wrong-machines", |bench, options| apart::machines(&mut bench.report, options.seed)),
    page_part("wrong-pages", |bench, options| {
        apart::pages(&mut bench.report, bench.subject, options.seed)
    }),
];

fn with_subject(bench: &mut Bench, subject: &'static dyn Subject, work: fn(&mut Bench)) {
    let usual = std::mem::replace(&mut bench.subject, subject);
    work(bench);
    bench.subject = usual;
}

/// The empty image as a null pointer.
fn null_image(bench: &mut Bench) {
    let Some(subject) = bench.subject.with_null() else {
        bench.report.note("null: skipped, the subject is lent no pointers");
        return;
    };
    with_subject(bench, subject, |bench| {
        edges::length_edges(bench, 0);
        page::answer(bench, 0, 0);
    });
}

fn page_edges(bench: &mut Bench) {
    let mut tally = Tally::default();
    page::edges(bench, &mut tally);
    println!("page-edges: {}", tally.text());
}

fn page_programs(bench: &mut Bench, options: &Options) {
    let mut tally = Tally::default();
    let count = options.count(options.cases / CASES_PER_PROGRAM);
    page::programs(bench, options.seed, count, &mut tally);
    println!("page-programs: {}", tally.text());
}

/// Does one part of the work and prints what it came to.
fn carry_out(part: &Part, bench: &mut Bench, options: &Options) {
    let name = part.name;
    if part.needs_page && !bench.subject.has_page() {
        println!("{name}: skipped, the subject has no page");
        return;
    }
    let (passed, failed) = (bench.report.passed, bench.report.failed);
    bench.report.begin(name);
    (part.work)(bench, options);
    let (passed, failed) = (bench.report.passed - passed, bench.report.failed - failed);
    println!("{name}: {passed} passed, {failed} failed");
}

fn main() -> ExitCode {
    let Some(options) = options() else {
        eprintln!("{USAGE}");
        eprintln!("parts: {}", PARTS.map(|part| part.name).join(", "));
        return ExitCode::from(2);
    };
    println!("seed {}", options.seed);
    let mut bench = Bench::new(the_subject(), Report::loud(options.seed, options.only));
    bench.prints_long_images = options.only.is_some();
    for part in PARTS.iter().filter(|part| options.takes(part.name)) {
        carry_out(part, &mut bench, &options);
    }
    let Report { passed, failed, .. } = bench.report;
    if passed + failed == 0 {
        eprintln!("second: nothing was checked");
        return ExitCode::from(2);
    }
    println!("second: {passed} passed, {failed} failed");
    ExitCode::from(u8::from(failed > 0))
}
