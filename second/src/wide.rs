//! The 26 instructions that the wide core runs itself. Top is A, second is B.

use crate::instruction::{Answer, Instruction};
use crate::machine::{set_word, State, DIVIDE, ILLEGAL};

impl Instruction<'_> {
    pub fn wide(&mut self) -> Answer {
        match self.byte {
            36..=39 | 46 | 47 => self.comparison(),
            42..=44 => self.shift(),
            41 => self.two_to_one(|a, b| a.wrapping_mul(b)),
            48 => self.change_top(|a| 0u32.wrapping_sub(a)),
            49 => self.two_to_one(|a, b| b.wrapping_sub(a)),
            50 => self.two_to_one(|a, b| a ^ b),
            53 => self.division(i32::wrapping_div),
            54 => self.division(i32::wrapping_rem),
            61 => {
                let sp = self.state.sp;
                self.change_top(|a| a.wrapping_add(sp).wrapping_mul(4))
            }
            34 | 35 | 51 | 52 => self.bytes(),
            45 | 57 | 59 | 63 => self.jump(),
            55 | 56 => self.branch(),
            _ => Err(ILLEGAL),
        }
    }

    fn comparison(&mut self) -> Answer {
        let holds: fn(u32, u32) -> bool = match self.byte {
            36 => |a, b| (a as i32) < (b as i32),
            37 => |a, b| (a as i32) <= (b as i32),
            38 => |a, b| a < b,
            39 => |a, b| a <= b,
            46 => |a, b| a == b,
            _ => |a, b| a != b,
        };
        self.two_to_one(|a, b| u32::from(holds(a, b)))
    }

    fn shift(&mut self) -> Answer {
        match self.byte {
            42 => self.two_to_one(|a, b| b.checked_shr(a).unwrap_or(0)),
            43 => self.two_to_one(|a, b| b.checked_shl(a).unwrap_or(0)),
            _ => self.two_to_one(|a, b| ((b as i32) >> a.min(31)) as u32),
        }
    }

    fn division(&mut self, work: fn(i32, i32) -> i32) -> Answer {
        let (a, _) = (self.stack(0)?, self.stack(1)?);
        if a == 0 {
            return Err(DIVIDE);
        }
        self.two_to_one(|a, b| work(b as i32, a as i32) as u32)
    }

    /// LOADB, LOADH, STOREB and STOREH.
    fn bytes(&mut self) -> Answer {
        let top = self.stack(0)?;
        let stores = matches!(self.byte, 35 | 52);
        let value = if stores { self.stack(1)? } else { 0 };
        let address = self.data(top)? as usize;
        let even = address & !1;
        let [.., high, low] = value.to_be_bytes();
        match self.byte {
            34 => {
                let half = u16::from_be_bytes([self.image[even], self.image[even + 1]]);
                return self.change_top(|_| u32::from(half));
            }
            51 => {
                let byte = self.image[address];
                return self.change_top(|_| u32::from(byte));
            }
            35 => self.image[even..even + 2].copy_from_slice(&[high, low]),
            _ => self.image[address] = low,
        }
        Ok(self.on(self.state.sp + 2))
    }

    /// CALL, CALLPCREL, POPPCREL and PUSHPC.
    fn jump(&mut self) -> Answer {
        let State { pc, sp, .. } = self.state;
        if self.byte == 59 {
            return self.push(pc);
        }
        let a = self.stack(0)?;
        let relative = pc.wrapping_add(a);
        if self.byte == 57 {
            return Ok(self.to(relative, sp + 1));
        }
        set_word(self.image, sp, pc + 1);
        Ok(self.to(if self.byte == 45 { a } else { relative }, sp))
    }

    /// NEQBRANCH and EQBRANCH.
    fn branch(&mut self) -> Answer {
        let State { pc, sp, .. } = self.state;
        let (a, b) = (self.stack(0)?, self.stack(1)?);
        let equal = self.byte == 55;
        Ok(match (b == 0) == equal {
            true => self.to(pc.wrapping_add(a), sp + 2),
            false if equal => self.on(sp),
            false => self.on(sp + 2),
        })
    }
}
