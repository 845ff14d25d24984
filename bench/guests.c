#include "guests.h"

#include <string.h>

/* Both cores do the same with these: besides core instructions they hold only those that the microcode page serves. */
#define IM(v) (0x80 | ((v) & 0x7f))
#define STORESP(n) (0x40 | ((n) ^ 16))
#define LOADSP(n) (0x60 | ((n) ^ 16))
#define ADDSP(n) (0x10 | (n))
enum {
    BREAK = 0, POPPC = 4, ADD = 5, AND = 6, OR = 7, LOAD = 8, NOT = 9, FLIP = 10, STORE = 12,
    ULESSTHAN = 38, CALL = 45, SUB = 49, XOR = 50, NEQBRANCH = 56
};

enum { ENTRY = 2048, DATA = 4096 };

/* The end of each loop, whose start is `back` bytes before its NEQBRANCH. */
#define COUNT_DOWN(back) IM(1), SUB, LOADSP(0), IM(-(back)), NEQBRANCH, BREAK

/* In the comments the stack's top is on the left, n the count and x the second word. */

static const uint8_t arithmetic[] = {
    LOADSP(1), LOADSP(1), ADD, /* x+n n x */
    IM(13), XOR, ADDSP(2), NOT, FLIP,
    LOADSP(0), LOADSP(3), ULESSTHAN, ADD,
    STORESP(2), /* n x */
    COUNT_DOWN(17)
};

static const uint8_t memory[] = {
    LOADSP(1), LOAD, LOADSP(1), ADD, /* [x]+n n x */
    LOADSP(2), STORE, /* n x */
    LOADSP(1), IM(4), ADD, IM(7), IM(124), AND, IM(DATA >> 7), IM(DATA), OR, /* the next of 256 words, n x */
    STORESP(2), /* n x */
    COUNT_DOWN(20)
};

enum { OUTER = ENTRY + 11, INNER = OUTER + 7 };

static const uint8_t calls[] = {
    LOADSP(1), IM(OUTER >> 7), IM(OUTER), CALL, STORESP(2), /* n x */
    COUNT_DOWN(9),
    /* OUTER: return argument n x */
    LOADSP(1), IM(INNER >> 7), IM(INNER), CALL, /* result return argument n x */
    ADDSP(3), STORESP(2), POPPC,
    /* INNER: return argument */
    LOADSP(1), NOT, STORESP(2), POPPC
};

const guest guests[GUESTS] = {
    {"arithmetic", arithmetic, sizeof arithmetic},
    {"memory", memory, sizeof memory},
    {"calls", calls, sizeof calls},
};

static void put(uint8_t *image, uint32_t index, uint32_t value)
{
    uint32_t k;

    for (k = 0; k < 4; k++)
        image[4 * index + k] = (uint8_t)(value >> (24 - 8 * k));
}

zpu_state guest_load(const guest *program, uint8_t *image, uint32_t count)
{
    zpu_state start = {ENTRY, ZPU_IMAGE_MAX / 4 - 2, 0};

    memset(image, 0, ZPU_IMAGE_MAX);
    zpu_page(image, ZPU_IMAGE_MAX);
    memcpy(image + ENTRY, program->code, program->length);
    put(image, start.sp, count);
    put(image, start.sp + 1, DATA);
    return start;
}
