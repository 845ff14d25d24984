/* The machine of document 01, plainly written: what the library is timed against. Build with -DRUN=the name of its one call. */
#include <endian.h>
#include <string.h>

#include "ended.h"

enum { STEP = 100 }; /* an instruction was carried out; no outcome has this number */

typedef struct {
    uint8_t *image;
    uint32_t length;
    uint32_t words;
    uint32_t pc;
    uint32_t sp;
    uint32_t flag;
} machine;

static inline uint32_t word(const machine *m, uint32_t index)
{
    uint32_t big_endian;

    memcpy(&big_endian, m->image + 4 * (size_t)index, 4);
    return be32toh(big_endian);
}

static inline void put(machine *m, uint32_t index, uint32_t value)
{
    uint32_t big_endian = htobe32(value);

    memcpy(m->image + 4 * (size_t)index, &big_endian, 4);
}

static inline uint32_t jump(machine *m, uint32_t pc, uint32_t sp)
{
    m->pc = pc;
    m->sp = sp;
    m->flag = 0;
    return STEP;
}

static inline uint32_t next(machine *m, uint32_t sp)
{
    return jump(m, m->pc + 1, sp);
}

/* Puts the value into a word that has been tested, which becomes the top. */
static inline uint32_t result(machine *m, uint32_t index, uint32_t value)
{
    put(m, index, value);
    return next(m, index);
}

static inline uint32_t push(machine *m, uint32_t value)
{
    return m->sp == 0 ? ZPU_STACK : result(m, m->sp - 1, value);
}

/* Whether there is a top; it is read into a. */
static inline int one(const machine *m, uint32_t *a)
{
    if (m->words <= m->sp)
        return 0;
    *a = word(m, m->sp);
    return 1;
}

/* Whether there are a top and a second; they are read into a and b. */
static inline int two(const machine *m, uint32_t *a, uint32_t *b)
{
    if (m->words <= m->sp + 1)
        return 0;
    *a = word(m, m->sp);
    *b = word(m, m->sp + 1);
    return 1;
}

static inline uint32_t immediate(machine *m, uint32_t byte)
{
    uint32_t a, v = byte & 127, done;

    if (!m->flag)
        done = push(m, (v ^ 64) - 64);
    else if (one(m, &a))
        done = result(m, m->sp, a << 7 | v);
    else
        return ZPU_STACK;
    m->flag = done == STEP;
    return done;
}

static inline uint32_t storesp(machine *m, uint32_t byte)
{
    uint32_t index = m->sp + ((byte & 31) ^ 16);

    if (m->words <= index)
        return ZPU_STACK;
    put(m, index, word(m, m->sp));
    return next(m, m->sp + 1);
}

static inline uint32_t loadsp(machine *m, uint32_t byte)
{
    uint32_t index = m->sp + ((byte & 31) ^ 16);
    return m->words <= index ? ZPU_STACK : push(m, word(m, index));
}

static inline uint32_t addsp(machine *m, uint32_t byte)
{
    uint32_t index = m->sp + (byte & 15);
    return m->words <= index ? ZPU_STACK : result(m, m->sp, word(m, m->sp) + word(m, index));
}

static inline uint32_t emulate(machine *m, uint32_t byte)
{
    uint32_t done = push(m, m->pc + 1);

    if (done == STEP)
        m->pc = 32 * (byte - 32);
    return done;
}

static inline uint32_t flip(uint32_t a)
{
    a = (a >> 1 & 0x55555555) | (a & 0x55555555) << 1;
    a = (a >> 2 & 0x33333333) | (a & 0x33333333) << 2;
    a = (a >> 4 & 0x0f0f0f0f) | (a & 0x0f0f0f0f) << 4;
    a = (a >> 8 & 0x00ff00ff) | (a & 0x00ff00ff) << 8;
    return a >> 16 | a << 16;
}

/* LOAD, LOADH and LOADB: 4, 2 and 1 bytes. */
static inline uint32_t load(machine *m, uint32_t bytes)
{
    uint32_t a, at;

    if (!one(m, &a))
        return ZPU_STACK;
    if (m->length <= a)
        return ZPU_ADDRESS;
    at = a & ~(bytes - 1);
    if (bytes == 4)
        return result(m, m->sp, word(m, at / 4));
    return result(m, m->sp, bytes == 1 ? m->image[at] : (uint32_t)m->image[at] << 8 | m->image[at + 1]);
}

static inline uint32_t store(machine *m, uint32_t bytes)
{
    uint32_t a, b, at;

    if (!two(m, &a, &b))
        return ZPU_STACK;
    if (m->length <= a)
        return ZPU_ADDRESS;
    at = a & ~(bytes - 1);
    if (bytes == 4) {
        put(m, at / 4, b);
        return next(m, m->sp + 2);
    }
    if (bytes == 2)
        m->image[at++] = (uint8_t)(b >> 8);
    m->image[at] = (uint8_t)b;
    return next(m, m->sp + 2);
}

static inline uint32_t popsp(machine *m)
{
    uint32_t a;
    return one(m, &a) && a / 4 <= m->words ? next(m, a / 4) : ZPU_STACK;
}

static inline uint32_t poppc(machine *m, uint32_t base)
{
    uint32_t a;
    return one(m, &a) ? jump(m, base + a, m->sp + 1) : ZPU_STACK;
}

static inline uint32_t call(machine *m, uint32_t base)
{
    uint32_t a;

    if (!one(m, &a))
        return ZPU_STACK;
    put(m, m->sp, m->pc + 1);
    return jump(m, base + a, m->sp);
}

static inline uint32_t eqbranch(machine *m)
{
    uint32_t a, b;

    if (!two(m, &a, &b))
        return ZPU_STACK;
    return b == 0 ? jump(m, m->pc + a, m->sp + 2) : next(m, m->sp);
}

static inline uint32_t neqbranch(machine *m)
{
    uint32_t a, b;

    if (!two(m, &a, &b))
        return ZPU_STACK;
    return b != 0 ? jump(m, m->pc + a, m->sp + 2) : next(m, m->sp + 2);
}

/* DIV and MOD; dividing the lowest number by -1 has no defined result in C. */
static inline uint32_t divide(machine *m, int wants_quotient)
{
    uint32_t a, b, quotient;

    if (!two(m, &a, &b))
        return ZPU_STACK;
    if (a == 0)
        return ZPU_DIVIDE;
    quotient = a == UINT32_MAX ? 0 - b : (uint32_t)((int32_t)b / (int32_t)a);
    return result(m, m->sp + 1, wants_quotient ? quotient : b - quotient * a);
}

static inline uint32_t shift_right(uint32_t a, uint32_t b, uint32_t fill)
{
    if (a >= 32)
        return fill;
    return a == 0 ? b : b >> a | fill << (32 - a);
}

#define ONE(value) (one(m, &a) ? result(m, m->sp, (value)) : ZPU_STACK)
#define TWO(value) (two(m, &a, &b) ? result(m, m->sp + 1, (value)) : ZPU_STACK)

static inline uint32_t wide(machine *m, uint32_t byte)
{
    uint32_t a, b;

    switch (byte) {
    case 34: return load(m, 2);
    case 35: return store(m, 2);
    case 36: return TWO((int32_t)a < (int32_t)b);
    case 37: return TWO((int32_t)a <= (int32_t)b);
    case 38: return TWO(a < b);
    case 39: return TWO(a <= b);
    case 41: return TWO(a * b);
    case 42: return TWO(shift_right(a, b, 0));
    case 43: return TWO(a < 32 ? b << a : 0);
    case 44: return TWO(shift_right(a, b, 0 - (b >> 31)));
    case 45: return call(m, 0);
    case 46: return TWO(a == b);
    case 47: return TWO(a != b);
    case 48: return ONE(0 - a);
    case 49: return TWO(b - a);
    case 50: return TWO(a ^ b);
    case 51: return load(m, 1);
    case 52: return store(m, 1);
    case 53: return divide(m, 1);
    case 54: return divide(m, 0);
    case 55: return eqbranch(m);
    case 56: return neqbranch(m);
    case 57: return poppc(m, m->pc);
    case 59: return push(m, m->pc);
    case 61: return ONE(4 * m->sp + 4 * a);
    case 63: return call(m, m->pc);
    default: return ZPU_ILLEGAL;
    }
}

static inline uint32_t step(machine *m, uint32_t core)
{
    uint32_t a, b, byte;

    if (m->length <= m->pc)
        return ZPU_FETCH;
    byte = m->image[m->pc];
    switch (byte) {
    case 0: next(m, m->sp); return ZPU_BREAK;
    case 2: return push(m, 4 * m->sp);
    case 4: return poppc(m, 0);
    case 5: return TWO(a + b);
    case 6: return TWO(a & b);
    case 7: return TWO(a | b);
    case 8: return load(m, 4);
    case 9: return ONE(~a);
    case 10: return ONE(flip(a));
    case 11: return next(m, m->sp);
    case 12: return store(m, 4);
    case 13: return popsp(m);
    case 1: case 3: case 14: case 15: return ZPU_ILLEGAL;
    case 16 ... 31: return addsp(m, byte);
    case 32 ... 63: return core == ZPU_WIDE ? wide(m, byte) : emulate(m, byte);
    case 64 ... 95: return storesp(m, byte);
    case 96 ... 127: return loadsp(m, byte);
    default: return immediate(m, byte);
    }
}

zpu_end RUN(uint8_t *image, size_t length, zpu_state start, uint32_t core, uint32_t limit)
{
    uint32_t steps, outcome = ZPU_LIMIT;
    machine m;

    if (length == 0 || length > ZPU_IMAGE_MAX || length % 4 != 0)
        return ended(ZPU_IMAGE, 0, start);
    if (start.sp > length / 4)
        return ended(ZPU_START, 0, start);
    m = (machine){image, (uint32_t)length, (uint32_t)length / 4, start.pc, start.sp, start.flag};
    for (steps = 0; steps < limit; steps++) {
        outcome = step(&m, core);
        if (outcome != STEP)
            break;
        outcome = ZPU_LIMIT;
    }
    return ended(outcome, steps + (outcome == ZPU_BREAK), (zpu_state){m.pc, m.sp, m.flag});
}
