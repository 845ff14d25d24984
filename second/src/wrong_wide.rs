//! Wrong machines whose fault lies in one of the 26 instructions of the wide core.

use crate::machine::{Core, ADDRESS, DIVIDE, STACK};
use crate::wrong::{if_wide, truth, Bend};

pub const WIDE: &[(&str, Bend)] = &[
    ("LESSTHAN takes B on the left", |s| if_wide(s, 36, |a, b| truth((b as i32) < a as i32))),
    ("LESSTHAN is unsigned", |s| if_wide(s, 36, |a, b| truth(a < b))),
    ("LESSTHANOREQUAL leaves equal out", |s| if_wide(s, 37, |a, b| truth((a as i32) < b as i32))),
    ("ULESSTHAN is signed", |s| if_wide(s, 38, |a, b| truth((a as i32) < b as i32))),
    ("ULESSTHANOREQUAL takes B on the left", |s| if_wide(s, 39, |a, b| truth(b <= a))),
    ("EQ is NEQ", |s| if_wide(s, 46, |a, b| truth(a != b))),
    ("NEQ gives A - B", |s| if_wide(s, 47, u32::wrapping_sub)),
    ("SUB is A - B", |s| if_wide(s, 49, u32::wrapping_sub)),
    ("XOR is OR", |s| if_wide(s, 50, |a, b| a | b)),
    ("NEG is NOT", |s| if_wide(s, 48, |a, _| !a)),
    ("MULT gives the high 32 bits", |s| {
        if_wide(s, 41, |a, b| ((u64::from(a) * u64::from(b)) >> 32) as u32)
    }),
    ("DIV rounds down", |s| {
        if_wide(s, 53, |a, b| i64::from(b as i32).div_euclid(i64::from(a as i32)) as u32)
    }),
    ("DIV is unsigned", |s| if_wide(s, 53, |a, b| b / a)),
    ("MOD is never negative", |s| {
        if_wide(s, 54, |a, b| i64::from(b as i32).rem_euclid(i64::from(a as i32)) as u32)
    }),
    ("DIV of 80000000 by -1 is refused", |s| {
        if s.did_wide(53) && (s.a, s.b) == (0xFFFF_FFFF, 0x8000_0000) {
            s.refuse(DIVIDE);
        }
    }),
    ("MOD by 0 gives B", |s| {
        if s.refused_with(DIVIDE, 54) {
            s.accept(s.before.pc + 1, s.before.sp + 1);
        }
    }),
    ("DIVIDE before STACK", |s| {
        let one_word = s.refused_with(STACK, 53) && s.before.sp + 1 == s.w();
        if one_word && s.core == Core::Wide && s.a == 0 {
            s.refuse(DIVIDE);
        }
    }),
    ("LSHIFTRIGHT modulo 32", |s| if_wide(s, 42, |a, b| b >> (a % 32))),
    ("ASHIFTLEFT modulo 32", |s| if_wide(s, 43, |a, b| b << (a % 32))),
    ("ASHIFTRIGHT modulo 32", |s| if_wide(s, 44, |a, b| (b as i32 >> (a % 32)) as u32)),
    ("ASHIFTRIGHT fills with 0", |s| if_wide(s, 44, |a, b| b.checked_shr(a).unwrap_or(0))),
    ("ASHIFTRIGHT gives 0 from 32 up", |s| {
        if_wide(s, 44, |a, b| (b as i32).checked_shr(a).unwrap_or(0) as u32)
    }),
    ("ASHIFTRIGHT takes 8 bits of A", |s| {
        if_wide(s, 44, |a, b| (b as i32 >> (a & 255).min(31)) as u32)
    }),
    ("PUSHSPADD gives a word index", |s| {
        if s.did_wide(61) {
            s.top_becomes(s.before.sp.wrapping_add(s.a));
        }
    }),
    ("PUSHSPADD adds A itself", |s| {
        if s.did_wide(61) {
            s.top_becomes((4 * s.before.sp).wrapping_add(s.a));
        }
    }),
    ("LOADB extends the sign", |s| {
        if s.did_wide(51) {
            s.top_becomes(s.old[s.a as usize] as i8 as u32);
        }
    }),
    ("LOADH low byte first", |s| {
        if s.did_wide(34) {
            let even = (s.a & !1) as usize;
            s.top_becomes(u32::from(u16::from_le_bytes([s.old[even], s.old[even + 1]])));
        }
    }),
    ("LOADH drops two address bits", |s| {
        if s.did_wide(34) {
            s.top_becomes(s.old_word(s.a / 4) >> 16);
        }
    }),
    ("STOREB writes the high byte", |s| {
        if s.did_wide(52) {
            s.image[s.a as usize] = (s.b >> 24) as u8;
        }
    }),
    ("STOREH low byte first", |s| {
        if s.did_wide(35) {
            let even = (s.a & !1) as usize;
            s.image[even..even + 2].reverse();
        }
    }),
    ("STOREH refuses an odd address", |s| {
        if s.did_wide(35) && s.a % 2 == 1 {
            s.refuse(ADDRESS);
        }
    }),
    ("CALL pushes", |s| {
        if s.did_wide(45) && s.before.sp > 0 {
            let (pc, sp) = (s.before.pc, s.before.sp);
            s.accept(s.a, sp - 1);
            s.top_becomes(pc + 1);
        }
    }),
    ("CALL returns to itself", |s| {
        if s.did_wide(45) {
            s.top_becomes(s.before.pc);
        }
    }),
    ("CALLPCREL is absolute", |s| {
        if s.did_wide(63) {
            s.end.state.pc = s.a;
        }
    }),
    ("POPPCREL keeps A", |s| s.end.state.sp -= truth(s.did_wide(57))),
    ("PUSHPC pushes counter + 1", |s| {
        if s.did_wide(59) {
            s.top_becomes(s.before.pc + 1);
        }
    }),
    ("NEQBRANCH pops four", |s| {
        if s.did_wide(56) {
            s.end.state.sp = s.w().min(s.end.state.sp + 2);
        }
    }),
    ("NEQBRANCH that is not taken pops nothing", |s| {
        s.end.state.sp -= 2 * truth(s.did_wide(56) && s.b == 0);
    }),
    ("EQBRANCH always pops two", |s| {
        s.end.state.sp += 2 * truth(s.did_wide(55) && s.b != 0);
    }),
    ("EQBRANCH does with one word", |s| {
        if s.refused_with(STACK, 55) && s.core == Core::Wide && s.before.sp < s.w() {
            s.accept(s.before.pc + 1, s.before.sp);
        }
    }),
    ("a store takes its operands last", |s| {
        if s.did_wide(52) && s.a / 4 == s.before.sp + 1 {
            s.undo();
            s.image[s.a as usize] = 0;
        }
    }),
];
