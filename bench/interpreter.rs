//! The machine of document 01, plainly written in safe Rust: what the library is timed against.

const LIMIT: u32 = 0;
const BREAK: u32 = 1;
const IMAGE: u32 = 2;
const START: u32 = 3;
const FETCH: u32 = 4;
const ILLEGAL: u32 = 5;
const STACK: u32 = 6;
const ADDRESS: u32 = 7;
const DIVIDE: u32 = 8;

#[repr(C)]
pub struct State {
    pc: u32,
    sp: u32,
    flag: u32,
}

#[repr(C)]
pub struct End {
    outcome: u32,
    steps: u32,
    state: State,
}

struct Machine<'a> {
    image: &'a mut [u8],
    pc: u32,
    sp: u32,
    flag: bool,
}

/// An error is the number of the outcome that ends the run.
type Step<T = ()> = Result<T, u32>;

impl Machine<'_> {
    fn word(&self, index: u32) -> Step<u32> {
        let at = index as usize * 4;
        let bytes = self.image.get(at..at + 4).ok_or(STACK)?;
        Ok(u32::from_be_bytes([bytes[0], bytes[1], bytes[2], bytes[3]]))
    }

    fn put(&mut self, index: u32, value: u32) -> Step {
        let at = index as usize * 4;
        let bytes = self.image.get_mut(at..at + 4).ok_or(STACK)?;
        bytes.copy_from_slice(&value.to_be_bytes());
        Ok(())
    }

    fn jump(&mut self, pc: u32, sp: u32) -> Step {
        self.pc = pc;
        self.sp = sp;
        self.flag = false;
        Ok(())
    }

    fn next(&mut self, sp: u32) -> Step {
        self.jump(self.pc + 1, sp)
    }

    /// Puts the value into a word, which becomes the top.
    fn result(&mut self, index: u32, value: u32) -> Step {
        self.put(index, value)?;
        self.next(index)
    }

    fn push(&mut self, value: u32) -> Step {
        let sp = self.sp.checked_sub(1).ok_or(STACK)?;
        self.result(sp, value)
    }

    fn one(&mut self, f: impl Fn(u32) -> u32) -> Step {
        let a = self.word(self.sp)?;
        self.result(self.sp, f(a))
    }

    /// The top and the second.
    fn pair(&self) -> Step<(u32, u32)> {
        Ok((self.word(self.sp)?, self.word(self.sp + 1)?))
    }

    fn two(&mut self, f: impl Fn(u32, u32) -> u32) -> Step {
        let (a, b) = self.pair()?;
        self.result(self.sp + 1, f(a, b))
    }

    fn immediate(&mut self, byte: u8) -> Step {
        let v = u32::from(byte & 127);
        if self.flag {
            self.one(|a| a << 7 | v)?;
        } else {
            self.push((v ^ 64).wrapping_sub(64))?;
        }
        self.flag = true;
        Ok(())
    }

    fn storesp(&mut self, byte: u8) -> Step {
        let a = self.word(self.sp)?;
        self.put(self.sp + offset(byte), a)?;
        self.next(self.sp + 1)
    }

    fn loadsp(&mut self, byte: u8) -> Step {
        let value = self.word(self.sp + offset(byte))?;
        self.push(value)
    }

    fn addsp(&mut self, byte: u8) -> Step {
        let other = self.word(self.sp + u32::from(byte & 15))?;
        self.one(|a| a.wrapping_add(other))
    }

    fn emulate(&mut self, byte: u8) -> Step {
        self.push(self.pc + 1)?;
        self.pc = 32 * (u32::from(byte) - 32);
        Ok(())
    }

    /// The address, if it is in the image.
    fn address(&self, a: u32) -> Step<usize> {
        let at = a as usize;
        if at < self.image.len() {
            Ok(at)
        } else {
            Err(ADDRESS)
        }
    }

    fn load(&mut self, f: impl Fn(&[u8], usize) -> u32) -> Step {
        let at = self.address(self.word(self.sp)?)?;
        self.result(self.sp, f(self.image, at))
    }

    fn store(&mut self, f: impl Fn(&mut [u8], usize, u32)) -> Step {
        let (a, b) = self.pair()?;
        let at = self.address(a)?;
        f(self.image, at, b);
        self.next(self.sp + 2)
    }

    fn popsp(&mut self) -> Step {
        let sp = self.word(self.sp)? / 4;
        if sp as usize > self.image.len() / 4 {
            return Err(STACK);
        }
        self.next(sp)
    }

    fn poppc(&mut self, base: u32) -> Step {
        let a = self.word(self.sp)?;
        self.jump(base.wrapping_add(a), self.sp + 1)
    }

    fn call(&mut self, base: u32) -> Step {
        let a = self.word(self.sp)?;
        self.put(self.sp, self.pc + 1)?;
        self.jump(base.wrapping_add(a), self.sp)
    }

    fn eqbranch(&mut self) -> Step {
        let (a, b) = self.pair()?;
        if b == 0 {
            self.jump(self.pc.wrapping_add(a), self.sp + 2)
        } else {
            self.next(self.sp)
        }
    }

    fn neqbranch(&mut self) -> Step {
        let (a, b) = self.pair()?;
        let pc = if b == 0 { self.pc + 1 } else { self.pc.wrapping_add(a) };
        self.jump(pc, self.sp + 2)
    }

    fn divide(&mut self, f: impl Fn(i32, i32) -> i32) -> Step {
        let (a, b) = self.pair()?;
        if a == 0 {
            return Err(DIVIDE);
        }
        self.result(self.sp + 1, f(b as i32, a as i32) as u32)
    }

    fn pushspadd(&mut self) -> Step {
        let sp = self.sp;
        self.one(|a| a.wrapping_add(sp).wrapping_mul(4))
    }

    fn wide(&mut self, byte: u8) -> Step {
        match byte {
            34 => self.load(half),
            35 => self.store(put_half),
            36 => self.two(|a, b| ((a as i32) < b as i32).into()),
            37 => self.two(|a, b| (a as i32 <= b as i32).into()),
            38 => self.two(|a, b| (a < b).into()),
            39 => self.two(|a, b| (a <= b).into()),
            41 => self.two(|a, b| a.wrapping_mul(b)),
            42 => self.two(|a, b| b.checked_shr(a).unwrap_or(0)),
            43 => self.two(|a, b| b.checked_shl(a).unwrap_or(0)),
            44 => self.two(|a, b| (b as i32 >> a.min(31)) as u32),
            45 => self.call(0),
            46 => self.two(|a, b| (a == b).into()),
            47 => self.two(|a, b| (a != b).into()),
            48 => self.one(u32::wrapping_neg),
            49 => self.two(|a, b| b.wrapping_sub(a)),
            50 => self.two(|a, b| a ^ b),
            51 => self.load(|image, at| image[at].into()),
            52 => self.store(|image, at, b| image[at] = b as u8),
            53 => self.divide(i32::wrapping_div),
            54 => self.divide(i32::wrapping_rem),
            55 => self.eqbranch(),
            56 => self.neqbranch(),
            57 => self.poppc(self.pc),
            59 => self.push(self.pc),
            61 => self.pushspadd(),
            63 => self.call(self.pc),
            _ => Err(ILLEGAL),
        }
    }

    fn step(&mut self, is_wide: bool) -> Step {
        let byte = *self.image.get(self.pc as usize).ok_or(FETCH)?;
        match byte {
            0 => self.next(self.sp).and(Err(BREAK)),
            2 => self.push(4 * self.sp),
            4 => self.poppc(0),
            5 => self.two(|a, b| a.wrapping_add(b)),
            6 => self.two(|a, b| a & b),
            7 => self.two(|a, b| a | b),
            8 => self.load(whole),
            9 => self.one(|a| !a),
            10 => self.one(u32::reverse_bits),
            11 => self.next(self.sp),
            12 => self.store(put_whole),
            13 => self.popsp(),
            1 | 3 | 14 | 15 => Err(ILLEGAL),
            16..=31 => self.addsp(byte),
            32..=63 if is_wide => self.wide(byte),
            32..=63 => self.emulate(byte),
            64..=95 => self.storesp(byte),
            96..=127 => self.loadsp(byte),
            128..=255 => self.immediate(byte),
        }
    }

    /// The outcome and the steps.
    fn run(&mut self, is_wide: bool, limit: u32) -> (u32, u32) {
        let length = self.image.len();
        if length == 0 || length > 65_536 || length % 4 != 0 {
            return (IMAGE, 0);
        }
        if self.sp as usize > length / 4 {
            return (START, 0);
        }
        for steps in 0..limit {
            if let Err(outcome) = self.step(is_wide) {
                return (outcome, steps + u32::from(outcome == BREAK));
            }
        }
        (LIMIT, limit)
    }
}

fn offset(byte: u8) -> u32 {
    u32::from(byte & 31 ^ 16)
}

fn whole(image: &[u8], at: usize) -> u32 {
    let at = at & !3;
    u32::from_be_bytes([image[at], image[at + 1], image[at + 2], image[at + 3]])
}

fn put_whole(image: &mut [u8], at: usize, value: u32) {
    let at = at & !3;
    image[at..at + 4].copy_from_slice(&value.to_be_bytes());
}

fn half(image: &[u8], at: usize) -> u32 {
    let at = at & !1;
    u16::from_be_bytes([image[at], image[at + 1]]).into()
}

fn put_half(image: &mut [u8], at: usize, value: u32) {
    let at = at & !1;
    image[at..at + 2].copy_from_slice(&(value as u16).to_be_bytes());
}

/// # Safety
/// As for `zpu_run` in include/zpu.h.
#[no_mangle]
pub unsafe extern "C" fn rust_run(
    image: *mut u8,
    length: usize,
    start: State,
    core: u32,
    limit: u32,
) -> End {
    let image = if length == 0 { &mut [] } else { std::slice::from_raw_parts_mut(image, length) };
    let mut machine = Machine { image, pc: start.pc, sp: start.sp, flag: start.flag != 0 };
    let (outcome, steps) = machine.run(core == 1, limit);
    let state = State { pc: machine.pc, sp: machine.sp, flag: machine.flag.into() };
    End { outcome, steps, state }
}
