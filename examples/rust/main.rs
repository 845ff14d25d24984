//! run FILE: lays the microcode page over the image in FILE and runs it on both cores.

use std::error::Error;
use std::fs::File;
use std::io::{self, Read, Write};
use std::process::ExitCode;

use zpu::{Core, State};

const LONGEST: usize = 65_536;

fn main() -> ExitCode {
    match run_both() {
        Ok(()) => ExitCode::SUCCESS,
        Err(error) => {
            eprintln!("{error}");
            ExitCode::FAILURE
        }
    }
}

fn run_both() -> Result<(), Box<dyn Error>> {
    let mut words = std::env::args().skip(1);
    let (Some(name), None) = (words.next(), words.next()) else {
        return Err("give the name of one image file".into());
    };
    let mut image = load(&name)?;
    if !zpu::lay_page(&mut image) {
        return Err(format!("{name}: under 2,048 bytes").into());
    }
    let mut out = io::stdout();
    writeln!(out, "wide {}", run(image.clone(), Core::Wide, 1_000))?;
    writeln!(out, "narrow {}", run(image, Core::Narrow, 200_000))?;
    Ok(out.flush()?)
}

fn load(name: &str) -> Result<Vec<u8>, Box<dyn Error>> {
    let mut image = Vec::new();
    let file = File::open(name).map_err(|error| format!("{name}: {error}"))?;
    file.take(LONGEST as u64 + 1).read_to_end(&mut image)?;
    if image.len() > LONGEST {
        return Err(format!("{name}: over 65,536 bytes").into());
    }
    Ok(image)
}

/// The line without the core: outcome, steps, counter, sp and top.
fn run(mut image: Vec<u8>, core: Core, limit: u32) -> String {
    let words = (image.len() / 4) as u32;
    let start = State { pc: zpu::PAGE_LENGTH, sp: words, flag: false };
    let end = zpu::run(&mut image, start, core, limit);
    let State { pc, sp, .. } = end.state;
    let top = if sp == words { "-".to_string() } else { word(&image, sp).to_string() };
    format!("{} {} {pc} {sp} {top}", end.outcome as u32, end.steps)
}

fn word(image: &[u8], index: u32) -> u32 {
    let at = index as usize * 4;
    u32::from_be_bytes([image[at], image[at + 1], image[at + 2], image[at + 3]])
}
