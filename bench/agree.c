#include "agree.h"

#include <stdio.h>
#include <stdlib.h>
#include <string.h>

enum { MARGIN = 256, LONGEST = ZPU_IMAGE_MAX + 4, OUTCOMES = 9, SMALL = 64, CORNERS = 10 };

typedef struct {
    uint32_t length;
    zpu_state start;
    uint32_t core;
    uint32_t limit;
} parameters;

/* An image with bytes on both sides that no run may touch: before the run, after the first machine's and after another's. */
static uint8_t given[MARGIN + LONGEST + MARGIN];
static uint8_t first[sizeof given];
static uint8_t other[sizeof given];

/* Operands at which something changes, SMALL being the length of the image. */
static const uint32_t corners[CORNERS] = {0, 1, 2, 31, 32, SMALL - 1, SMALL, 0x7fffffff, 0x80000000, 0xffffffff};

static uint32_t outcomes[OUTCOMES];
static uint64_t steps;
static uint64_t chance = 1;

static uint32_t any(void)
{
    chance = chance * 6364136223846793005u + 1442695040888963407u;
    return (uint32_t)(chance >> 32);
}

static uint32_t below(uint32_t bound)
{
    return any() % bound;
}

/* Mostly instructions after which a run goes on. */
static uint8_t random_byte(void)
{
    static const uint8_t calm[] = {2, 5, 6, 7, 9, 10, 11, 36, 37, 38, 39, 41, 42, 43, 44, 46, 47, 48, 49, 50, 59, 61};
    static const uint8_t data[] = {2, 2, 2, 8, 12, 13, 34, 35, 51, 52, 53, 54};
    static const uint8_t jumps[] = {4, 45, 55, 56, 57, 63};

    switch (below(32)) {
    case 0: return (uint8_t)any();
    case 1: return (uint8_t)below(64);
    case 2 ... 3: return (uint8_t)(64 + below(64));
    case 4 ... 5: return (uint8_t)(128 + below(128));
    case 6 ... 11: return (uint8_t)(128 + below(64));
    case 12 ... 15: return (uint8_t)(112 + below(4));
    case 16 ... 18: return (uint8_t)(80 + below(4));
    case 19 ... 20: return (uint8_t)(16 + below(4));
    case 21 ... 23: return data[below(sizeof data)];
    case 24: return jumps[below(sizeof jumps)];
    default: return calm[below(sizeof calm)];
    }
}

/* A number that means something as an address, an offset, a count or an operand. */
static uint32_t random_word(uint32_t length)
{
    switch (below(8)) {
    case 0: return any();
    case 1: return corners[below(CORNERS)];
    case 2: return 0 - below(40);
    case 3: return below(40);
    default: return below(length + 2);
    }
}

static uint32_t random_length(void)
{
    static const uint32_t refused[] = {0, 1, 2, 3, 6, 255, ZPU_IMAGE_MAX - 1, ZPU_IMAGE_MAX + 1, LONGEST};

    if (below(128) == 0)
        return refused[below(sizeof refused / sizeof refused[0])];
    if (below(128) == 0)
        return ZPU_IMAGE_MAX;
    return 4 * (1 + below(below(4) == 0 ? 512 : 64));
}

static uint32_t random_sp(uint32_t words)
{
    switch (below(64)) {
    case 0: return any();
    case 1: return words + 1;
    case 2 ... 4: return words;
    case 5 ... 8: return below(3);
    case 9 ... 16: return words - below(4);
    default: return below(words + 1);
    }
}

static parameters random_parameters(void)
{
    parameters p;

    p.length = random_length();
    p.start.sp = random_sp(p.length / 4);
    p.start.pc = below(32) == 0 ? random_word(p.length + 1) : below(p.length + 1);
    p.start.flag = below(3) == 0 ? any() : below(2);
    p.core = below(8) == 0 ? any() : below(2);
    p.limit = below(4) == 0 ? below(4) : below(1000);
    return p;
}

static void put(uint8_t *at, uint32_t value)
{
    at[0] = (uint8_t)(value >> 24);
    at[1] = (uint8_t)(value >> 16);
    at[2] = (uint8_t)(value >> 8);
    at[3] = (uint8_t)value;
}

/* Instructions with words among them; a whole image often has the page. */
static void random_image(uint32_t length)
{
    uint8_t *image = given + MARGIN;
    uint32_t k;

    memset(given, 0x55, MARGIN);
    for (k = 0; k < length; k++)
        image[k] = random_byte();
    memset(image + length, 0x55, MARGIN);
    for (k = 0; k + 4 <= length; k += 4)
        if (below(8) == 0)
            put(image + k, random_word(length));
    if (length == ZPU_IMAGE_MAX && below(4) != 0)
        zpu_page(image, length);
}

static zpu_end run_one(const machine *one, const parameters *p, uint8_t *bytes)
{
    memcpy(bytes, given, MARGIN + p->length + MARGIN);
    return one->run(bytes + MARGIN, p->length, p->start, p->core, p->limit);
}

static void print_end(const machine *one, zpu_end end)
{
    fprintf(stderr, "%s: outcome %u, steps %u, pc %u, sp %u, flag %u\n", one->name, end.outcome, end.steps, end.state.pc,
            end.state.sp, end.state.flag);
}

static void differ(const machine *a, const machine *b, const parameters *p, zpu_end first_end, zpu_end other_end)
{
    uint32_t k = 0;

    fprintf(stderr, "agree: length %u, pc %u, sp %u, flag %u, core %u, limit %u\n", p->length, p->start.pc, p->start.sp,
            p->start.flag, p->core, p->limit);
    print_end(a, first_end);
    print_end(b, other_end);
    while (k < MARGIN + p->length + MARGIN && first[k] == other[k])
        k++;
    if (k < MARGIN + p->length + MARGIN)
        fprintf(stderr, "byte %d: before %u, then %u and %u\n", (int)k - MARGIN, given[k], first[k], other[k]);
    exit(1);
}

int same_end(zpu_end a, zpu_end b)
{
    return a.outcome == b.outcome && a.steps == b.steps && a.state.pc == b.state.pc && a.state.sp == b.state.sp
        && a.state.flag == b.state.flag;
}

static void compare(const machine *machines, int count, const parameters *p)
{
    zpu_end end = run_one(&machines[0], p, first);
    int k;

    for (k = 1; k < count; k++) {
        zpu_end other_end = run_one(&machines[k], p, other);

        if (!same_end(end, other_end) || memcmp(first, other, MARGIN + p->length + MARGIN) != 0)
            differ(&machines[0], &machines[k], p, end, other_end);
    }
    if (end.outcome < OUTCOMES)
        outcomes[end.outcome]++;
    steps += end.steps;
}

/* A run that ends before its limit has another one: the greatest, or where it ends. */
static void change_limit(const machine *one, parameters *p)
{
    zpu_end end = run_one(one, p, first);

    if (end.outcome != ZPU_LIMIT)
        p->limit = below(2) == 0 ? UINT32_MAX : end.steps + below(2);
}

/* Every byte on every pair of corners, on both cores and with the flag clear and set. */
static uint32_t compare_bytes(const machine *machines, int count)
{
    uint32_t runs = 2 * 2 * 256 * CORNERS * CORNERS, run;

    for (run = 0; run < runs; run++) {
        parameters p = {SMALL, {9, 10, run & 1}, run >> 1 & 1, 1};
        uint8_t *image = given + MARGIN;

        random_image(p.length);
        image[p.start.pc] = (uint8_t)(run >> 2);
        put(image + 4 * p.start.sp, corners[(run >> 10) % CORNERS]);
        put(image + 4 * p.start.sp + 4, corners[(run >> 10) / CORNERS]);
        compare(machines, count, &p);
    }
    return runs;
}

void agree(const machine *machines, int count, uint32_t runs)
{
    uint32_t k;

    for (k = 0; k < runs; k++) {
        parameters p = random_parameters();

        random_image(p.length);
        if (below(2) == 0)
            change_limit(&machines[0], &p);
        compare(machines, count, &p);
    }
    runs += compare_bytes(machines, count);
    for (k = 0; k < OUTCOMES; k++)
        if (outcomes[k] == 0) {
            fprintf(stderr, "agree: no run ends with outcome %u\n", k);
            exit(1);
        }
    printf("All builds did the same in %u runs of %llu steps.\n", runs, (unsigned long long)steps);
}
