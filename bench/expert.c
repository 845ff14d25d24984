/* The machine of document 01, written for speed in GNU C: threaded code, a handler a byte, the state in locals. Build as
 * interpreter.c. The locals, all offsets in the image being in bytes:
 *
 *   sp       four times the word index; sp = length is the empty stack
 *   last     the last word: a word at `at` is in the image if at <= last
 *   top      the word at sp, if there is one, as it lies in memory: a copy that saves reading it, memory is always current
 *   due      the pc at which the limit is reached if no jump comes before: due - pc steps are left
 *   stop     due or length, the lesser: what pc is tested against after each step
 *   flagged  the one pc at which the flag is set: behind the last IM, or NOWHERE
 */
#include <endian.h>
#include <string.h>

#include "ended.h"

#define NOWHERE UINT64_MAX

static inline uint32_t raw(const uint8_t *at)
{
    uint32_t big_endian;

    memcpy(&big_endian, at, 4);
    return big_endian;
}

static inline uint32_t word(const uint8_t *at)
{
    return be32toh(raw(at));
}

static inline void put_raw(uint8_t *at, uint32_t big_endian)
{
    memcpy(at, &big_endian, 4);
}

static inline uint32_t flip(uint32_t a)
{
    a = (a >> 1 & 0x55555555) | (a & 0x55555555) << 1;
    a = (a >> 2 & 0x33333333) | (a & 0x33333333) << 2;
    a = (a >> 4 & 0x0f0f0f0f) | (a & 0x0f0f0f0f) << 4;
    return __builtin_bswap32(a);
}

/* Dividing the lowest number by -1 has no defined result in C. */
static inline uint32_t quotient(uint32_t b, uint32_t a)
{
    return a == UINT32_MAX ? 0 - b : (uint32_t)((int32_t)b / (int32_t)a);
}

/* A handler's tests, all before it changes anything: that there is a top, read into a; a top and a second, read into a and
 * b; room for a push; a word in the image; a data address in the image. */
#define ONE if (last < sp) goto stack; a = be32toh(top)
#define TWO if (last <= sp) goto stack; a = be32toh(top); b = word(image + sp + 4)
#define ROOM if (sp == 0) goto stack
#define WORD(offset) at = sp + 4 * (offset); if (last < at) goto stack
#define ADDRESS if (length <= a) goto address

/* Its work on the stack: a value is put into a word, which becomes the top; words are left behind and the top read. */
#define SET(index, value) top = htobe32(value); sp = (index); put_raw(image + sp, top)
#define LEAVE(index) sp = (index); if (sp <= last) top = raw(image + sp)

/* Its end: on to the next byte, or to another. Only the table that an IM goes on by takes an IM for a following one. */
#define DISPATCH(flag) goto *handlers[flag][image[pc]]
#define NEXT if (++pc == stop) goto stopped; DISPATCH(0)
#define NEXT_OF_IM flagged = ++pc; if (pc == stop) goto stopped; DISPATCH(1)
#define START(target, left) \
    due = (left); \
    pc = (target); \
    due += pc; \
    stop = due < length ? due : length; \
    if (stop <= pc) \
        goto stopped
#define JUMP(target) flagged = NOWHERE; START((target), due - pc - 1); DISPATCH(0)

#define PUSH(value) ROOM; SET(sp - 4, (value))
#define UNARY(value) ONE; SET(sp, (value)); NEXT
#define BINARY(value) TWO; SET(sp + 4, (value)); NEXT

/* The handlers of the families; x is the byte, two hexadecimal digits. */
#define IM(x) at_##x: PUSH(((0x##x & 127) ^ 64) - 64); NEXT_OF_IM;
#define IM_MORE(x) more_##x: ONE; SET(sp, a << 7 | (0x##x & 127)); NEXT_OF_IM;
#define STORESP(x) at_##x: WORD((0x##x & 31) ^ 16); put_raw(image + at, top); LEAVE(sp + 4); NEXT;
#define LOADSP(x) at_##x: WORD((0x##x & 31) ^ 16); PUSH(word(image + at)); NEXT;
#define ADDSP(x) at_##x: WORD(0x##x & 15); SET(sp, be32toh(top) + word(image + at)); NEXT;
#define EMULATE(x) at_##x: PUSH((uint32_t)pc + 1); JUMP(32 * (0x##x - 32));

#define ROW(make, digit) \
    make(digit##0) make(digit##1) make(digit##2) make(digit##3) make(digit##4) make(digit##5) make(digit##6) make(digit##7) \
    make(digit##8) make(digit##9) make(digit##a) make(digit##b) make(digit##c) make(digit##d) make(digit##e) make(digit##f)
#define IM_ROWS(make) \
    ROW(make, 8) ROW(make, 9) ROW(make, a) ROW(make, b) ROW(make, c) ROW(make, d) ROW(make, e) ROW(make, f)

/* The tables' entries. */
#define AT(x) [0x##x] = &&at_##x,
#define MORE(x) [0x##x] = &&more_##x,
#define BOTH \
    [0] = &&break_, [1] = &&illegal, [2] = &&pushsp, [3] = &&illegal, [4] = &&poppc, [5] = &&add, [6] = &&and, [7] = &&or, \
    [8] = &&load, [9] = &&not, [10] = &&flip, [11] = &&nop, [12] = &&store, [13] = &&popsp, [14 ... 15] = &&illegal, \
    ROW(AT, 1) ROW(AT, 4) ROW(AT, 5) ROW(AT, 6) ROW(AT, 7)
#define NARROW ROW(AT, 2) ROW(AT, 3)
#define WIDE \
    [32 ... 33] = &&illegal, [34] = &&loadh, [35] = &&storeh, [36] = &&lessthan, [37] = &&lessthanorequal, \
    [38] = &&ulessthan, [39] = &&ulessthanorequal, [40] = &&illegal, [41] = &&mult, [42] = &&lshiftright, \
    [43] = &&ashiftleft, [44] = &&ashiftright, [45] = &&call, [46] = &&eq, [47] = &&neq, [48] = &&neg, [49] = &&sub, \
    [50] = &&xor, [51] = &&loadb, [52] = &&storeb, [53] = &&div, [54] = &&mod, [55] = &&eqbranch, [56] = &&neqbranch, \
    [57] = &&poppcrel, [58] = &&illegal, [59] = &&pushpc, [60] = &&illegal, [61] = &&pushspadd, [62] = &&illegal, \
    [63] = &&callpcrel,

zpu_end RUN(uint8_t *image, size_t image_length, zpu_state start, uint32_t core, uint32_t limit)
{
    static const void *const tables[2][2][256] = {
        {{BOTH NARROW IM_ROWS(AT)}, {BOTH NARROW IM_ROWS(MORE)}},
        {{BOTH WIDE IM_ROWS(AT)}, {BOTH WIDE IM_ROWS(MORE)}},
    };
    const void *const (*handlers)[256] = tables[core == ZPU_WIDE];
    uint64_t length = image_length, last = length - 4, pc, sp, due, stop, flagged, at;
    uint32_t top = 0, a, b, to, outcome;

    if (length == 0 || length > ZPU_IMAGE_MAX || length % 4 != 0)
        return ended(ZPU_IMAGE, 0, start);
    if (start.sp > length / 4)
        return ended(ZPU_START, 0, start);
    LEAVE(4 * start.sp);
    flagged = start.flag ? start.pc : NOWHERE;
    START(start.pc, limit);
    DISPATCH(start.flag != 0);

    IM_ROWS(IM)
    IM_ROWS(IM_MORE)
    ROW(STORESP, 4) ROW(STORESP, 5)
    ROW(LOADSP, 6) ROW(LOADSP, 7)
    ROW(ADDSP, 1)
    ROW(EMULATE, 2) ROW(EMULATE, 3)

nop: NEXT;
not: UNARY(~a);
neg: UNARY(0 - a);
flip: UNARY(flip(a));
add: BINARY(a + b);
sub: BINARY(b - a);
mult: BINARY(a * b);
and: BINARY(a & b);
or: BINARY(a | b);
xor: BINARY(a ^ b);
eq: BINARY(a == b);
neq: BINARY(a != b);
lessthan: BINARY((int32_t)a < (int32_t)b);
lessthanorequal: BINARY((int32_t)a <= (int32_t)b);
ulessthan: BINARY(a < b);
ulessthanorequal: BINARY(a <= b);
lshiftright: BINARY(a < 32 ? b >> a : 0);
ashiftleft: BINARY(a < 32 ? b << a : 0);
ashiftright: BINARY((uint32_t)((int32_t)b >> (a < 32 ? a : 31)));
div: TWO; if (a == 0) goto divide; SET(sp + 4, quotient(b, a)); NEXT;
mod: TWO; if (a == 0) goto divide; SET(sp + 4, b - quotient(b, a) * a); NEXT;

load: ONE; ADDRESS; SET(sp, word(image + (a & ~3u))); NEXT;
loadh: ONE; ADDRESS; at = a & ~1u; SET(sp, (uint32_t)image[at] << 8 | image[at + 1]); NEXT;
loadb: ONE; ADDRESS; SET(sp, image[a]); NEXT;
store: TWO; ADDRESS; put_raw(image + (a & ~3u), htobe32(b)); LEAVE(sp + 8); NEXT;
storeh: TWO; ADDRESS; at = a & ~1u; image[at] = (uint8_t)(b >> 8); image[at + 1] = (uint8_t)b; LEAVE(sp + 8); NEXT;
storeb: TWO; ADDRESS; image[a] = (uint8_t)b; LEAVE(sp + 8); NEXT;

pushsp: PUSH((uint32_t)sp); NEXT;
pushspadd: UNARY((uint32_t)sp + 4 * a);
popsp: ONE; at = a & ~3u; if (length < at) goto stack; LEAVE(at); NEXT;

pushpc: PUSH((uint32_t)pc); NEXT;
poppc: ONE; to = a; LEAVE(sp + 4); JUMP(to);
poppcrel: ONE; to = (uint32_t)pc + a; LEAVE(sp + 4); JUMP(to);
call: ONE; to = a; SET(sp, (uint32_t)pc + 1); JUMP(to);
callpcrel: ONE; to = (uint32_t)pc + a; SET(sp, (uint32_t)pc + 1); JUMP(to);
eqbranch: TWO; if (b != 0) { NEXT; } to = (uint32_t)pc + a; LEAVE(sp + 8); JUMP(to);
neqbranch: TWO; to = (uint32_t)pc + a; LEAVE(sp + 8); if (b == 0) { NEXT; } JUMP(to);

break_: outcome = ZPU_BREAK; pc++; goto out;
stopped: outcome = pc == due ? ZPU_LIMIT : ZPU_FETCH; goto out;
illegal: outcome = ZPU_ILLEGAL; goto out;
stack: outcome = ZPU_STACK; goto out;
address: outcome = ZPU_ADDRESS; goto out;
divide: outcome = ZPU_DIVIDE;
out:
    return ended(outcome, limit - (uint32_t)(due - pc), (zpu_state){(uint32_t)pc, (uint32_t)sp / 4, flagged == pc});
}
