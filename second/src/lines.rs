//! The lines that zpurun prints.

use std::io::{self, Write};
use std::os::unix::io::OwnedFd;
use std::os::unix::net::UnixStream;
use std::process::{Command, ExitStatus, Output, Stdio};

use crate::bench::Bench;
use crate::dirt::PAGE;
use crate::machine::{self, word, words, Core, State};
use crate::page::EXAMPLE;
use crate::program::{Writer, ALL};
use crate::rng::Rng;

const FAMILY: u64 = 3;
const PROGRAMS: u64 = 200;
const LONGEST: usize = 16_384;
const EXAMPLE_LINES: &str = "wide 1 2053 1023 2\nnarrow 1 2053 1023 2\n";

type Printed = io::Result<(String, ExitStatus)>;

pub fn all(bench: &mut Bench, seed: u64) {
    let Ok(zpurun) = std::env::var("ZPURUN") else {
        bench.report.note("zpurun: skipped, ZPURUN names no executable");
        return;
    };
    example(bench, &zpurun);
    refused(bench, &zpurun);
    failed_reads(bench, &zpurun);
    ended_stream(bench, &zpurun);
    if !bench.subject.has_page() {
        bench.report.note("zpurun: random images skipped, the subject has no page");
        return;
    }
    for length in [2052, 2056, 4096, 16_380, LONGEST] {
        for filling in [0, 11, 0x31, 0x7F, 0x81] {
            let input = vec![filling; length];
            check(bench, &zpurun, &input, &format!("{length} bytes of {filling:02X}"));
        }
    }
    for number in 0..PROGRAMS {
        let input = random_input(&mut Rng::of_case(seed, FAMILY, number));
        check(bench, &zpurun, &input, "a random image");
    }
}

fn check(bench: &mut Bench, zpurun: &str, input: &[u8], name: &str) {
    compare(bench, input, name, || by_pipe(zpurun, input), |bench| lines(bench, input));
}

/// zpurun ends with 0 whatever it prints.
fn compare(
    bench: &mut Bench,
    input: &[u8],
    name: &str,
    printed: impl FnOnce() -> Printed,
    due: impl FnOnce(&Bench) -> String,
) {
    if !bench.report.case() {
        return;
    }
    let image = bench.image_text(input);
    let due = due(bench);
    match printed() {
        Ok((text, status)) => bench.report.expect(text == due && status.success(), || {
            format!("zpurun on {name}: {text:?}, {status}, where {due:?} and 0 are due{image}")
        }),
        Err(error) => bench.report.fail(|| format!("zpurun on {name}: {error}{image}")),
    }
}

fn by_pipe(zpurun: &str, input: &[u8]) -> Printed {
    let mut child = Command::new(zpurun).stdin(Stdio::piped()).stdout(Stdio::piped()).spawn()?;
    if let Some(mut stdin) = child.stdin.take() {
        // A program that refuses the size may close its input early.
        let _ = stdin.write_all(input);
    }
    child.wait_with_output().map(text_and_status)
}

fn by_open_stream(zpurun: &str, input: &[u8]) -> Printed {
    let (writer, reader) = stream(input)?;
    let printed = by_reader(zpurun, reader);
    drop(writer);
    printed
}

fn by_ended_stream(zpurun: &str, input: &[u8]) -> Printed {
    let (writer, reader) = stream(input)?;
    drop(writer);
    by_reader(zpurun, reader)
}

/// The two ends of a stream that holds the input. A read past it fails while the writer is there.
fn stream(input: &[u8]) -> io::Result<(UnixStream, UnixStream)> {
    let (mut writer, reader) = UnixStream::pair()?;
    reader.set_nonblocking(true)?;
    writer.write_all(input)?;
    Ok((writer, reader))
}

fn by_reader(zpurun: &str, reader: UnixStream) -> Printed {
    let mut command = Command::new(zpurun);
    command.stdin(OwnedFd::from(reader)).stderr(Stdio::inherit());
    command.output().map(text_and_status)
}

fn text_and_status(output: Output) -> (String, ExitStatus) {
    (String::from_utf8_lossy(&output.stdout).into_owned(), output.status)
}

fn example(bench: &mut Bench, zpurun: &str) {
    let input = example_image(4096);
    let printed = || by_pipe(zpurun, &input);
    compare(bench, &input, "the example", printed, |_| EXAMPLE_LINES.to_string());
}

fn example_image(length: usize) -> Vec<u8> {
    let mut image = vec![0; length];
    image[PAGE..PAGE + EXAMPLE.len()].copy_from_slice(&EXAMPLE);
    image
}

fn refused(bench: &mut Bench, zpurun: &str) {
    for length in [
        0, 1, 3, 4, 2044, 2047, 2048, 2049, 2050, 2051, 2053, 2054, 2055, 4094, 4097, 16_383,
        16_385, 16_386, 16_388, 20_000, 65_536, 65_540, 200_000,
    ] {
        let input = vec![11; length];
        refusal(bench, &input, &format!("{length} bytes"), || by_pipe(zpurun, &input));
    }
}

/// By their size alone all but the first would run.
fn failed_reads(bench: &mut Bench, zpurun: &str) {
    let image = example_image(LONGEST);
    for length in [0, 2560, 4096, LONGEST] {
        let input = &image[..length];
        let name = format!("{length} bytes whose writer is still there");
        refusal(bench, input, &name, || by_open_stream(zpurun, input));
    }
}

fn ended_stream(bench: &mut Bench, zpurun: &str) {
    let input = example_image(4096);
    let printed = || by_ended_stream(zpurun, &input);
    let name = "the example, whose writer has gone";
    compare(bench, &input, name, printed, |_| EXAMPLE_LINES.to_string());
}

fn refusal(bench: &mut Bench, input: &[u8], name: &str, printed: impl FnOnce() -> Printed) {
    compare(bench, input, name, printed, |_| "input\n".to_string());
}

fn lines(bench: &Bench, input: &[u8]) -> String {
    let mut laid = input.to_vec();
    bench.subject.lay_page(&mut laid);
    let start = State { pc: PAGE as u32, sp: words(&laid), flag: false };
    let line = |name: &str, core: Core, limit: u32| {
        let mut image = laid.clone();
        let end = machine::run(&mut image, start, core, limit);
        let State { pc, sp, .. } = end.state;
        let top = match sp < words(&image) {
            true => word(&image, sp).to_string(),
            false => "-".to_string(),
        };
        format!("{name} {} {pc} {sp} {top}\n", end.outcome)
    };
    line("wide", Core::Wide, 1000) + &line("narrow", Core::Narrow, 200_000)
}

/// A program from 2048 on that starts with an empty stack, or any bytes at all.
fn random_input(rng: &mut Rng) -> Vec<u8> {
    let most = if rng.one_in(4) { 4096 } else { 640 };
    let length = 4 * rng.between(513, most) as usize;
    let mut input = vec![0; length];
    rng.fill(&mut input);
    if rng.one_in(4) {
        return input;
    }
    let end = length.min(PAGE + rng.between(4, 200) as usize);
    let stop = rng.pick(&[0, 11, 1]);
    input[end..].fill(stop);
    // A stack of some depth to begin with: IM and NOP by turns.
    let lead = (end - PAGE).min(24);
    for at in (PAGE..PAGE + lead).step_by(2) {
        set_pair(&mut input, at, rng.next() as u8 | 128);
    }
    Writer { image: &mut input, at: PAGE + lead, end, rng, repertoire: &ALL }.fill();
    input
}

fn set_pair(input: &mut [u8], at: usize, im: u8) {
    input[at] = im;
    if at + 1 < input.len() {
        input[at + 1] = 11;
    }
}
