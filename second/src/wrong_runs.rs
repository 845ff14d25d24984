//! Wrong machines whose fault lies in the run.

use crate::machine::{
    run, words, Core, End, State, BREAK, FETCH, IMAGE, LIMIT, LONGEST_IMAGE, STACK, START,
};
use crate::wrong::run_on_old_code;

type Run = fn(&mut [u8], State, Core, u32) -> End;

pub const RUNS: &[(&str, Run)] = &[
    ("refuses everything", |_, start, _, _| End { outcome: STACK, steps: 0, state: start }),
    ("a constant reply", |_, _, _, _| {
        let state = State { pc: 0, sp: 0, flag: false };
        End { outcome: LIMIT, steps: 1, state }
    }),
    ("hands its start back", |_, start, _, limit| End {
        outcome: LIMIT,
        steps: limit,
        state: start,
    }),
    ("does the first step and then counts", |image, start, core, limit| {
        let end = run(image, start, core, limit.min(1));
        let steps = if end.outcome == LIMIT { limit } else { end.steps };
        End { steps, ..end }
    }),
    ("a made-up step count", |image, start, core, limit| End {
        steps: limit,
        ..run(image, start, core, limit)
    }),
    ("leaves the image untouched", |image, start, core, limit| {
        run(&mut image.to_vec(), start, core, limit)
    }),
    ("BREAK on the last allowed step gives 0", |image, start, core, limit| {
        let end = run(image, start, core, limit);
        let last = end.outcome == BREAK && end.steps == limit;
        End { outcome: if last { LIMIT } else { end.outcome }, ..end }
    }),
    ("FETCH before LIMIT", |image, start, core, limit| {
        let end = run(image, start, core, limit);
        let outside = end.outcome == LIMIT && end.state.pc as usize >= image.len();
        End { outcome: if outside { FETCH } else { end.outcome }, ..end }
    }),
    ("LIMIT before IMAGE", |image, start, core, limit| match limit {
        0 => End { outcome: LIMIT, steps: 0, state: start },
        _ => run(image, start, core, limit),
    }),
    ("START before IMAGE", |image, start, core, limit| {
        let end = run(image, start, core, limit);
        let both = end.outcome == IMAGE && start.sp > words(image);
        End { outcome: if both { START } else { end.outcome }, ..end }
    }),
    ("one step over the limit", |image, start, core, limit| {
        run(image, start, core, limit.saturating_add(1))
    }),
    ("a limit of 16 bits", |image, start, core, limit| run(image, start, core, limit & 0xFFFF)),
    ("a signed limit", |image, start, core, limit| {
        run(image, start, core, (limit as i32).max(0) as u32)
    }),
    ("takes any image length", |image, start, core, limit| {
        let whole = image.len() & !3;
        run(&mut image[..whole], start, core, limit)
    }),
    ("takes an image over 65,536", |image, start, core, limit| {
        let inside = if image.len().is_multiple_of(4) { LONGEST_IMAGE } else { image.len() };
        let inside = inside.min(image.len());
        run(&mut image[..inside], start, core, limit)
    }),
    ("refuses an image of 65,536", |image, start, core, limit| {
        if image.len() == LONGEST_IMAGE {
            return End { outcome: IMAGE, steps: 0, state: start };
        }
        run(image, start, core, limit)
    }),
    ("takes W + 1 for an empty stack", |image, start, core, limit| {
        let sp = if start.sp == words(image) + 1 { start.sp - 1 } else { start.sp };
        run(image, State { sp, ..start }, core, limit)
    }),
    ("refuses sp = W", |image, start, core, limit| {
        if start.sp == words(image) {
            return run(image, State { sp: start.sp + 1, ..start }, core, limit);
        }
        run(image, start, core, limit)
    }),
    ("sp modulo 2^30", |image, start, core, limit| {
        run(image, State { sp: start.sp & 0x3FFF_FFFF, ..start }, core, limit)
    }),
    ("clears the flag at the start", |image, start, core, limit| {
        run(image, State { flag: false, ..start }, core, limit)
    }),
    ("does not see stores into code", run_on_old_code),
    ("always wide", |image, start, _, limit| run(image, start, Core::Wide, limit)),
];
