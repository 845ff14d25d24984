//! These checks can fail: each wrong machine and each wrong page is told from the right one.

use crate::bench::Bench;
use crate::demand3::Pair;
use crate::dirt::{PAGE, SHORT_ONES};
use crate::machine::{set_word, Core, End, State};
use crate::page::{self, vector, Tally, OPERANDS};
use crate::paths;
use crate::report::Report;
use crate::subject::Subject;
use crate::wrong::{Wrong, WrongMachine};
use crate::wrong_pages::{Routine, Spoilt, PATH, ROUTINES, SPOILT, UNUSED_BYTE};
use crate::{edges, numbers, random, wrong_core, wrong_runs, wrong_wide};

const RANDOM_CASES: u64 = 20_000;

fn fails(machine: &WrongMachine, check: impl Fn(&mut Bench)) -> bool {
    let mut bench = Bench::new(machine, Report::quiet());
    check(&mut bench);
    bench.report.failed > 0
}

/// The checks that tell this machine from the right one.
fn told_by(machine: &WrongMachine, seed: u64) -> Vec<&'static str> {
    let random_cases = |bench: &mut Bench| random::cases(bench, seed, RANDOM_CASES);
    let told = [
        ("numbers", fails(machine, numbers::all)),
        ("edges", fails(machine, edges::all)),
        ("random cases", fails(machine, random_cases)),
    ];
    told.into_iter().filter(|(_, fails)| *fails).map(|(name, _)| name).collect()
}

fn wrong_machines() -> Vec<WrongMachine> {
    let steps = [wrong_core::LOOK_RIGHT, wrong_core::CORE, wrong_wide::WIDE].concat();
    let steps = steps.into_iter().map(|(name, bend)| (name, Wrong::Step(bend)));
    let runs = wrong_runs::RUNS.iter().map(|&(name, run)| (name, Wrong::Run(run)));
    steps.chain(runs).map(|(name, wrong)| WrongMachine { name, wrong }).collect()
}

pub fn machines(report: &mut Report, seed: u64) {
    if report.case() {
        let unbent = WrongMachine { name: "nothing bent", wrong: Wrong::Step(|_| {}) };
        let told = told_by(&unbent, seed);
        report.expect(told.is_empty(), || format!("the right machine is told apart by {told:?}"));
    }
    for machine in wrong_machines() {
        if !report.case() {
            continue;
        }
        let name = machine.name;
        let told = told_by(&machine, seed);
        report.expect(!told.is_empty(), || format!("wrong machine {name}: not told apart"));
        if !told.is_empty() {
            println!("wrong machine {name}: told apart by {}", told.join(", "));
        }
    }
}

/// The subject with its page spoilt.
struct WrongPage<'a> {
    right: &'a dyn Subject,
    spoil: &'a dyn Fn(&mut [u8]),
}

impl Subject for WrongPage<'_> {
    fn run(&self, image: &mut [u8], start: State, core: Core, limit: u32) -> End {
        self.right.run(image, start, core, limit)
    }

    fn step(&self, image: &mut [u8], start: State, core: Core) -> End {
        self.right.step(image, start, core)
    }

    fn has_page(&self) -> bool {
        true
    }

    fn page_answer(&self, image: &mut [u8]) -> u32 {
        let answer = self.right.page_answer(image);
        if answer == 0 {
            (self.spoil)(&mut image[..PAGE]);
        }
        answer
    }
}

fn page_is_told_apart(right: &dyn Subject, byte: u8, spoil: &dyn Fn(&mut [u8])) -> bool {
    let wrong = WrongPage { right, spoil };
    let mut bench = Bench::new(&wrong, Report::quiet());
    page::edges_of(&mut bench, byte, "", &mut Tally::default());
    bench.report.failed > 0
}

/// A NOP, which may part two constants, becomes an IM between them, any other byte a NOP.
fn change_is_told_apart(right: &dyn Subject, byte: u8, at: usize) -> bool {
    page_is_told_apart(right, byte, &|page| page[at] = if page[at] == 11 { 128 } else { 11 })
}

/// Where `with_operands` puts a short one.
const OPERANDS_AT: State = State { pc: 3000, sp: 900, flag: false };

fn with_operands(subject: &dyn Subject, byte: u8, top: u32, second: u32) -> Vec<u8> {
    let State { pc, sp, .. } = OPERANDS_AT;
    let mut image = vec![11; 2 * PAGE];
    subject.lay_page(&mut image);
    image[pc as usize] = byte;
    set_word(&mut image, sp, top);
    set_word(&mut image, sp + 1, second);
    image
}

pub fn pages(report: &mut Report, subject: &dyn Subject, seed: u64) {
    for (byte, name) in SHORT_ONES {
        if report.case() {
            changed_bytes(report, subject, byte, name, seed);
        }
    }
    for routine in &ROUTINES {
        if report.case() {
            own_routine(report, subject, routine);
        }
    }
    for spoilt in &SPOILT {
        if report.case() {
            spoilt_page(report, subject, spoilt, seed);
        }
    }
}

/// A change of the routine's first byte must be told apart. Of its other bytes it is printed
/// how many are, since a change may also happen to do no harm.
fn changed_bytes(report: &mut Report, subject: &dyn Subject, byte: u8, name: &str, seed: u64) {
    let first = vector(byte).start;
    let told = change_is_told_apart(subject, byte, first);
    report.expect(told, || format!("wrong page {name}, byte {first}: not told apart"));
    let nops = page_is_told_apart(subject, byte, &|page| page.fill(11));
    report.expect(nops, || format!("page of NOPs, {name}: not told apart"));
    let passed = paths::routine(&mut Bench::new(subject, Report::quiet()), byte, name, seed);
    let (told, untold): (Vec<usize>, Vec<usize>) =
        passed.iter().partition(|&&at| change_is_told_apart(subject, byte, at));
    let (bytes, all) = (told.len(), passed.len());
    println!("wrong page {name}: told apart for {bytes} of {all} bytes, changed one by one");
    if !untold.is_empty() {
        println!("wrong page {name}: no difference to be seen with a change at {untold:?}");
    }
}

/// The routine must be told apart if it is wrong for any operands, and must fail for just those.
fn own_routine(report: &mut Report, subject: &dyn Subject, routine: &Routine) {
    let Routine { name, byte, is_wrong, .. } = *routine;
    let spoil = |page: &mut [u8]| routine.lay(page);
    let pairs = || OPERANDS.iter().flat_map(|&a| OPERANDS.map(|b| (a, b)));
    let wrong = pairs().filter(|&(a, b)| is_wrong(a, b)).count();
    let told = page_is_told_apart(subject, byte, &spoil);
    report.expect(told == (wrong > 0), || {
        format!("page with {name}: wrong for {wrong} operands, told apart {told}")
    });
    let wrong_page = WrongPage { right: subject, spoil: &spoil };
    let surprise = pairs().find(|&(a, b)| fails_for(&wrong_page, byte, a, b) != is_wrong(a, b));
    report.expect(surprise.is_none(), || {
        format!("page with {name}: fails where it is right, or not where wrong: {surprise:08X?}")
    });
    if told && surprise.is_none() {
        println!("wrong page {name}: told apart for {wrong} of {} operands", pairs().count());
    }
}

/// Whether the narrow core over this page falls behind the wide core in this instruction.
fn fails_for(subject: &dyn Subject, byte: u8, top: u32, second: u32) -> bool {
    let image = with_operands(subject, byte, top, second);
    Pair::new(&image, OPERANDS_AT).follow(1).is_err()
}

/// The page must be told apart by its own sign.
fn spoilt_page(report: &mut Report, subject: &dyn Subject, spoilt: &Spoilt, seed: u64) {
    let Spoilt { name, spoil, sign: due } = *spoilt;
    let used = paths::routines(&mut Bench::new(subject, Report::quiet()), seed);
    let spoil = |page: &mut [u8]| spoil(page, &used);
    let sign = sign_of(&WrongPage { right: subject, spoil: &spoil }, seed);
    report.expect(sign == due, || format!("page with {name}: told by {sign:?}, not by {due:?}"));
    if let Some(sign) = sign.filter(|_| sign == due) {
        println!("wrong page {name}: told apart by {sign}");
    }
}

/// What the paths tell of this page.
fn sign_of(subject: &dyn Subject, seed: u64) -> Option<&'static str> {
    let mut bench = Bench::new(subject, Report::quiet());
    let used = paths::routines(&mut bench, seed);
    if bench.report.failed > 0 {
        return Some(PATH);
    }
    paths::unused(&mut bench, &used);
    (bench.report.failed > 0).then_some(UNUSED_BYTE)
}
