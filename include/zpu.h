/*
 * The ZPU, both cores, on a byte image that the caller lends.
 *
 * Image. `image` points at `length` bytes that the caller owns and that may be
 * read and written; it needs no alignment. The call writes them in place and
 * keeps no pointer to them once it returns. While it runs nothing else may read
 * or write them. Where `length` is 0 the pointer is not followed and may be
 * null. The machine's words are big-endian, whatever the host is.
 *
 * State. Passed and returned by value. `pc` is a byte address, `sp` a word
 * index: word w is bytes 4w to 4w + 3, and sp = length / 4 is an empty stack.
 *
 * Threads. There is no static state: calls on images that share no byte may run
 * at once. Calls on one image must follow one another.
 *
 * Any `length`, `start`, `core` and `limit` is allowed, and every call returns: a
 * run ends after at most `limit` steps.
 *
 * The narrow core. It takes each byte from 32 to 63 for EMULATE, so a program for
 * it needs the microcode page in bytes 0 to 2047 (`zpu_page`), which serves twelve
 * of those bytes: 36 to 39, 45 to 50, 56 and 61. Each of these needs 16 words free
 * below its sp and above the page: sp at least 528. Afterwards those 16 words, and
 * the words that it popped off, may hold something else than on the wide core, and
 * must be written before they are read again. For one step of the wide core count
 * at most 200 of the narrow one. docs/PAGE.md has the rest.
 *
 * To build: `.ci/build zpu_c` makes target/staticlib/libzpu_c.a, for x86-64, and
 *     cc -Iinclude -o program program.c target/staticlib/libzpu_c.a
 */
#ifndef ZPU_H
#define ZPU_H

#include <stddef.h>
#include <stdint.h>

#ifdef __cplusplus
extern "C" {
#endif

/* The longest image, and the microcode page, in bytes. */
#define ZPU_IMAGE_MAX 65536
#define ZPU_PAGE_LENGTH 2048

/* Any other number than ZPU_WIDE is the narrow core. */
enum {
    ZPU_NARROW = 0,
    ZPU_WIDE = 1
};

/* What ended a call. From ZPU_IMAGE on they are refusals. */
enum {
    ZPU_LIMIT = 0,   /* the steps done equal the limit */
    ZPU_BREAK = 1,   /* byte 0 was carried out; it counts as a step */
    ZPU_IMAGE = 2,   /* length is 0, over 65,536 or not a multiple of 4 */
    ZPU_START = 3,   /* the given sp exceeds length / 4 */
    ZPU_FETCH = 4,   /* the program counter is length or more */
    ZPU_ILLEGAL = 5, /* the byte is no instruction of this core */
    ZPU_STACK = 6,   /* a stack word outside the image, or a new sp over length / 4 */
    ZPU_ADDRESS = 7, /* a data address is length or more */
    ZPU_DIVIDE = 8   /* DIV or MOD by 0 */
};

typedef struct {
    uint32_t pc;
    uint32_t sp;
    uint32_t flag; /* given: 0 is clear, any other number set; returned: 0 or 1 */
} zpu_state;

typedef struct {
    uint32_t outcome;
    uint32_t steps; /* carried out, the refused instruction not among them */
    zpu_state state;
} zpu_end;

/*
 * Runs from `start` until `limit` steps are done, a BREAK, or a refusal.
 *
 * After ZPU_IMAGE or ZPU_START the image is untouched, the steps are 0 and the
 * state is the given one, its flag as 0 or 1. After any other refusal the image
 * and the state are those before the refused instruction, whose address is in
 * `pc`. After ZPU_BREAK `pc` is past the byte 0.
 */
zpu_end zpu_run(uint8_t *image, size_t length, zpu_state start, uint32_t core,
                uint32_t limit);

/* A run with limit 1: a step that is carried out gives ZPU_LIMIT or ZPU_BREAK. */
zpu_end zpu_step(uint8_t *image, size_t length, zpu_state start, uint32_t core);

/* What zpu_page returns. */
enum {
    ZPU_PAGE_IN_PLACE = 0,
    ZPU_PAGE_TOO_SHORT = 2 /* length is under 2,048; the image is untouched */
};

/*
 * Lays the microcode page over bytes 0 to 2047 and leaves the others. No length
 * from 2,048 on is refused here.
 */
uint32_t zpu_page(uint8_t *image, size_t length);

#ifdef __cplusplus
}
#endif

#endif
