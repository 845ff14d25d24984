//! One instruction carried out or refused, and the core instructions.
//!
//! Every method tests all that may refuse before it writes, STACK first, then ADDRESS, then
//! DIVIDE, so that a refused instruction leaves state and memory as they were.

use crate::machine::{set_word, word, words, Core, State, ADDRESS, ILLEGAL, STACK};

/// The next state, or the outcome that refuses.
pub type Answer = Result<State, u32>;

pub struct Instruction<'a> {
    pub image: &'a mut [u8],
    pub state: State,
    pub byte: u8,
}

/// The offset n of STORESP and LOADSP.
pub fn offset(byte: u8) -> u32 {
    u32::from((byte & 31) ^ 16)
}

impl Instruction<'_> {
    pub fn carry_out(&mut self, core: Core) -> Answer {
        match self.byte {
            0..=15 => self.plain(),
            16..=31 => self.addsp(),
            32..=63 if core == Core::Narrow => self.emulate(),
            32..=63 => self.wide(),
            64..=95 => self.storesp(),
            96..=127 => self.push_word(offset(self.byte)),
            128..=255 => self.im(),
        }
    }

    fn plain(&mut self) -> Answer {
        let sp = self.state.sp;
        match self.byte {
            0 | 11 => Ok(self.on(sp)),
            2 => self.push(4 * sp),
            4 => Ok(self.to(self.stack(0)?, sp + 1)),
            5 => self.two_to_one(|a, b| a.wrapping_add(b)),
            6 => self.two_to_one(|a, b| a & b),
            7 => self.two_to_one(|a, b| a | b),
            8 => self.load(),
            9 => self.change_top(|a| !a),
            10 => self.change_top(u32::reverse_bits),
            12 => self.store(),
            13 => self.popsp(),
            _ => Err(ILLEGAL),
        }
    }

    fn im(&mut self) -> Answer {
        let bits = u32::from(self.byte & 127);
        let next = if self.state.flag {
            self.change_top(|a| a.wrapping_mul(128).wrapping_add(bits))
        } else {
            self.push(if bits < 64 { bits } else { bits | 0xFFFF_FF80 })
        };
        Ok(State { flag: true, ..next? })
    }

    fn emulate(&mut self) -> Answer {
        let State { pc, .. } = self.state;
        let pushed = self.push(pc + 1)?;
        Ok(self.to(32 * u32::from(self.byte - 32), pushed.sp))
    }

    fn addsp(&mut self) -> Answer {
        let added = self.stack(u32::from(self.byte & 15))?;
        self.change_top(|a| a.wrapping_add(added))
    }

    fn storesp(&mut self) -> Answer {
        let sp = self.state.sp;
        let depth = offset(self.byte);
        let top = self.stack(0)?;
        self.stack(depth)?;
        set_word(self.image, sp + depth, top);
        Ok(self.on(sp + 1))
    }

    fn popsp(&mut self) -> Answer {
        let sp = self.stack(0)? / 4;
        if sp > words(self.image) {
            return Err(STACK);
        }
        Ok(self.on(sp))
    }

    fn load(&mut self) -> Answer {
        let address = self.data(self.stack(0)?)?;
        let loaded = word(self.image, address / 4);
        self.change_top(|_| loaded)
    }

    fn store(&mut self) -> Answer {
        let (address, value) = (self.stack(0)?, self.stack(1)?);
        let address = self.data(address)?;
        set_word(self.image, address / 4, value);
        Ok(self.on(self.state.sp + 2))
    }

    fn push_word(&mut self, depth: u32) -> Answer {
        let value = self.stack(depth)?;
        self.push(value)
    }

    /// The state after an instruction that goes on by 1.
    pub fn on(&self, sp: u32) -> State {
        self.to(self.state.pc + 1, sp)
    }

    /// The state after a jump.
    pub fn to(&self, pc: u32, sp: u32) -> State {
        State { pc, sp, flag: false }
    }

    /// Word sp + depth.
    pub fn stack(&self, depth: u32) -> Result<u32, u32> {
        let index = self.state.sp + depth;
        if index >= words(self.image) {
            return Err(STACK);
        }
        Ok(word(self.image, index))
    }

    /// A data address that has been tested.
    pub fn data(&self, address: u32) -> Result<u32, u32> {
        if address as usize >= self.image.len() {
            return Err(ADDRESS);
        }
        Ok(address)
    }

    pub fn push(&mut self, value: u32) -> Answer {
        let sp = self.state.sp.checked_sub(1).ok_or(STACK)?;
        set_word(self.image, sp, value);
        Ok(self.on(sp))
    }

    pub fn change_top(&mut self, work: impl Fn(u32) -> u32) -> Answer {
        let value = work(self.stack(0)?);
        set_word(self.image, self.state.sp, value);
        Ok(self.on(self.state.sp))
    }

    /// Pops A and B and pushes what `work` makes of them.
    pub fn two_to_one(&mut self, work: impl Fn(u32, u32) -> u32) -> Answer {
        let value = work(self.stack(0)?, self.stack(1)?);
        set_word(self.image, self.state.sp + 1, value);
        Ok(self.on(self.state.sp + 1))
    }
}
