//! Demand 3: along a wide run of core instructions and short ones, the narrow core over the page
//! comes to the same counter, sp, flag and clean bytes, within 200 narrow steps for a wide one.

use crate::dirt::{is_short_one, touched, Dirt, PAGE};
use crate::machine::{self, Core, State, LIMIT};

pub const NARROW_STEPS: u32 = 200;

/// The same image run on both cores.
pub struct Pair {
    wide: Vec<u8>,
    narrow: Vec<u8>,
    wide_state: State,
    narrow_state: State,
    dirt: Dirt,
    pub wide_steps: u32,
    pub narrow_steps: u32,
    pub short_ones: u32,
}

impl Pair {
    pub fn new(image: &[u8], start: State) -> Pair {
        Pair {
            wide: image.to_vec(),
            narrow: image.to_vec(),
            wide_state: start,
            narrow_state: start,
            dirt: Dirt::none(image.len()),
            wide_steps: 0,
            narrow_steps: 0,
            short_ones: 0,
        }
    }

    /// Follows at most so many wide steps, up to the first that breaks a condition.
    pub fn follow(&mut self, steps: u32) -> Result<(), String> {
        while self.wide_steps < steps {
            let Some(byte) = self.wide_step() else {
                return Ok(());
            };
            self.catch_up().map_err(|wrong| {
                format!("after {} wide steps, byte {byte:02X}: {wrong}", self.wide_steps)
            })?;
        }
        Ok(())
    }

    /// The byte carried out, or none before a step that breaks a condition.
    fn wide_step(&mut self) -> Option<u8> {
        let before = self.wide_state;
        let byte = *self.wide.get(before.pc as usize)?;
        let touched = touched(&self.wide, before, byte)?;
        if !self.dirt.allows(before, byte, &touched) {
            return None;
        }
        let end = machine::step(&mut self.wide, before, Core::Wide);
        if end.outcome != LIMIT {
            return None;
        }
        self.dirt.after(byte, before.sp, end.state.sp, &touched);
        self.wide_state = end.state;
        self.wide_steps += 1;
        self.short_ones += u32::from(is_short_one(byte));
        Some(byte)
    }

    fn catch_up(&mut self) -> Result<(), String> {
        let mut first_gap = None;
        for _ in 0..NARROW_STEPS {
            let end = machine::step(&mut self.narrow, self.narrow_state, Core::Narrow);
            if end.outcome != LIMIT {
                let stop = format!("the narrow core ends with {}, {:?}", end.outcome, end.state);
                return Err(first_gap.unwrap_or(stop));
            }
            self.narrow_state = end.state;
            self.narrow_steps += 1;
            if self.is_level() {
                return Ok(());
            }
            if first_gap.is_none() && end.state.pc >= PAGE as u32 {
                first_gap = Some(self.gap());
            }
        }
        Err(first_gap.unwrap_or_else(|| self.gap()))
    }

    fn is_level(&self) -> bool {
        self.narrow_state == self.wide_state && self.dirt.same_where_clean(&self.wide, &self.narrow)
    }

    fn gap(&self) -> String {
        let (wide, narrow) = (self.wide_state, self.narrow_state);
        let byte = match self.dirt.first_difference(&self.wide, &self.narrow) {
            Some(at) => format!("clean byte {at} differs"),
            None => "all clean bytes agree".to_string(),
        };
        format!("the narrow core comes to {narrow:?} where {wide:?} is due, {byte}")
    }
}
