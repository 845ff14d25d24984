//! Wrong machines whose fault lies in a single step: those that look right, and the core
//! instructions.

use crate::machine::{set_word, Core, State, ADDRESS, BREAK, FETCH, ILLEGAL, STACK};
use crate::wrong::{if_wide, truth, Bend, Bent};

fn is_six(byte: u8) -> bool {
    matches!(byte, 32 | 33 | 40 | 58 | 60 | 62)
}

fn stores(byte: u8) -> bool {
    matches!(byte, 12 | 35 | 52)
}

fn bits(s: &Bent) -> u32 {
    u32::from(s.byte & 127)
}

/// Document 01's "Programs that look right".
pub const LOOK_RIGHT: &[(&str, Bend)] = &[
    ("LESSTHAN by the sign of A - B", |s| {
        if_wide(s, 36, |a, b| truth((a.wrapping_sub(b) as i32) < 0))
    }),
    ("LESSTHANOREQUAL by the sign of A - B", |s| {
        if_wide(s, 37, |a, b| truth((a.wrapping_sub(b) as i32) <= 0))
    }),
    ("constants parted by NOP run together", |s| {
        if s.did(11) {
            s.end.state.flag = s.before.flag;
        }
    }),
    ("LOADSP offset counted after the push", |s| {
        if s.done() && (96..128).contains(&s.byte) {
            s.top_becomes(s.old_word(s.before.sp + s.n() - 1));
        }
    }),
    ("STORESP offset counted after the pop", |s| {
        if (64..96).contains(&s.byte) && s.n() < 31 {
            s.again_as(64 | ((s.n() + 1) as u8 ^ 16));
        }
    }),
    ("bit 4 not inverted", |s| {
        if (64..128).contains(&s.byte) {
            s.again_as(s.byte ^ 16);
        }
    }),
    ("PUSHSP gives the word index", |s| {
        if s.did(2) {
            s.top_becomes(s.before.sp);
        }
    }),
    ("a refused STORE has already moved sp", |s| {
        if s.refused_with(ADDRESS, 12) {
            s.end.state.sp += 2;
        }
    }),
    ("relative jump from counter + 1", |s| {
        if s.jumped_relative() {
            s.end.state.pc = s.end.state.pc.wrapping_add(1);
        }
    }),
];

pub const CORE: &[(&str, Bend)] = &[
    ("a refused instruction clears the flag", |s| {
        s.end.state.flag &= s.end.steps > 0;
    }),
    ("a refused instruction moves the counter on", |s| {
        s.end.state.pc = s.end.state.pc.wrapping_add(truth(s.end.steps == 0));
    }),
    ("a refused instruction counts a step", |s| s.end.steps = 1),
    ("BREAK stays on its byte", |s| {
        if s.end.outcome == BREAK {
            s.end.state.pc = s.before.pc;
        }
    }),
    ("BREAK counts no step", |s| s.end.steps -= truth(s.end.outcome == BREAK)),
    ("BREAK keeps the flag", |s| {
        s.end.state.flag |= s.end.outcome == BREAK && s.before.flag;
    }),
    ("every IM pushes", |s| {
        if s.byte >= 128 {
            s.again_from(State { flag: false, ..s.before });
        }
    }),
    ("a second IM replaces 7 bits", |s| {
        if s.done() && s.byte >= 128 && s.before.flag {
            s.top_becomes(s.a & !127 | bits(s));
        }
    }),
    ("a second IM adds signed bits", |s| {
        if s.done() && s.byte >= 192 && s.before.flag {
            s.top_becomes(s.a.wrapping_mul(128).wrapping_add(bits(s) | 0xFFFF_FF80));
        }
    }),
    ("a first IM is not sign-extended", |s| {
        if s.done() && s.byte >= 128 && !s.before.flag {
            s.top_becomes(bits(s));
        }
    }),
    ("IM leaves the flag clear", |s| s.end.state.flag &= s.byte < 128 || s.end.steps == 0),
    ("EMULATE pushes the counter", |s| {
        if s.emulated() {
            s.top_becomes(s.before.pc);
        }
    }),
    ("EMULATE goes to 32 times the byte", |s| {
        if s.emulated() {
            s.end.state.pc = 32 * u32::from(s.byte);
        }
    }),
    ("the narrow core runs the 26 itself", |s| {
        if s.core == Core::Narrow && !is_six(s.byte) {
            s.again_on(Core::Wide);
        }
    }),
    ("the narrow core refuses the six bytes", |s| {
        if s.emulated() && is_six(s.byte) {
            s.refuse(ILLEGAL);
        }
    }),
    ("the wide core emulates the six bytes", |s| {
        if is_six(s.byte) {
            s.again_on(Core::Narrow);
        }
    }),
    ("the wide core emulates all", |s| s.again_on(Core::Narrow)),
    ("byte 1 is a NOP", |s| {
        if s.refused_with(ILLEGAL, 1) {
            s.accept(s.before.pc + 1, s.before.sp);
        }
    }),
    ("ADDSP offset counted from the second", |s| {
        if s.done() && (16..32).contains(&s.byte) {
            let other = s.before.sp + u32::from(s.byte & 15) + 1;
            s.top_becomes(s.a.wrapping_add(s.old_word(other)));
        }
    }),
    ("ADDSP pops", |s| {
        s.end.state.sp += truth(s.done() && (16..32).contains(&s.byte));
    }),
    ("POPSP takes a word index", |s| match s.byte {
        13 if s.before.sp < s.w() && s.a <= s.w() => s.accept(s.before.pc + 1, s.a),
        13 => s.refuse(STACK),
        _ => {}
    }),
    ("POPSP to W is refused", |s| {
        if s.did(13) && s.end.state.sp == s.w() {
            s.refuse(STACK);
        }
    }),
    ("POPSP over W goes to W", |s| {
        if s.refused_with(STACK, 13) && s.before.sp < s.w() {
            s.accept(s.before.pc + 1, s.w());
        }
    }),
    ("STORESP 0 does not read the top", |s| {
        if s.refused_with(STACK, 0x50) {
            s.accept(s.before.pc + 1, s.w());
        }
    }),
    ("STORESP past the end is dropped", |s| {
        if s.end.outcome == STACK && (64..96).contains(&s.byte) && s.before.sp < s.w() {
            s.accept(s.before.pc + 1, s.before.sp + 1);
        }
    }),
    ("a push from sp = 0 is dropped", |s| {
        if s.refused_with(STACK, 2) {
            s.accept(s.before.pc + 1, 0);
        }
    }),
    ("ADD of one word", |s| {
        if s.refused_with(STACK, 5) && s.before.sp < s.w() {
            s.accept(s.before.pc + 1, s.w());
        }
    }),
    ("popped words are cleared", |s| {
        if s.done() && s.byte != 13 {
            for index in s.before.sp..s.end.state.sp {
                set_word(s.image, index, 0);
            }
        }
    }),
    ("NOT is NEG", |s| {
        if s.did(9) {
            s.top_becomes(s.a.wrapping_neg());
        }
    }),
    ("FLIP turns the bytes round", |s| {
        if s.did(10) {
            s.top_becomes(s.a.swap_bytes());
        }
    }),
    ("LOAD refuses a crooked address", |s| {
        if s.did(8) && s.a % 4 != 0 {
            s.refuse(ADDRESS);
        }
    }),
    ("LOAD takes a word index", |s| {
        if s.did(8) {
            s.top_becomes(s.old_word(s.a));
        }
    }),
    ("LOAD low byte first", |s| {
        if s.did(8) {
            s.top_becomes(s.old_word(s.a / 4).swap_bytes());
        }
    }),
    ("LOAD lets L pass", |s| {
        if s.refused_with(ADDRESS, 8) && s.a as usize == s.old.len() {
            s.accept(s.before.pc + 1, s.before.sp);
        }
    }),
    ("LOAD grows the stack", |s| {
        if s.did(8) && s.before.sp > 0 {
            let loaded = s.old_word(s.a / 4);
            s.accept(s.before.pc + 1, s.before.sp - 1);
            s.top_becomes(loaded);
        }
    }),
    ("STORE takes the value off the top", |s| {
        if s.did(12) && (s.b as usize) < s.old.len() {
            s.undo();
            set_word(s.image, s.b / 4, s.a);
        }
    }),
    ("ADDRESS before STACK", |s| {
        let one_word = s.end.outcome == STACK && s.before.sp + 1 == s.w();
        if one_word && stores(s.byte) && s.a as usize >= s.old.len() {
            s.refuse(ADDRESS);
        }
    }),
    ("a jump past the end is refused", |s| {
        if s.jumped() && s.end.state.pc as usize >= s.old.len() {
            s.refuse(FETCH);
        }
    }),
    ("the counter goes from L - 1 to 0", |s| {
        if s.end.state.pc as usize == s.old.len() && !s.jumped() {
            s.end.state.pc = 0;
        }
    }),
];
