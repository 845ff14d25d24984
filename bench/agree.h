/* Whether several builds are one machine. */
#ifndef AGREE_H
#define AGREE_H

#include "zpu.h"

typedef zpu_end run_call(uint8_t *image, size_t length, zpu_state start, uint32_t core, uint32_t limit);

typedef struct {
    const char *name;
    run_call *run;
} machine;

int same_end(zpu_end a, zpu_end b);

/*
 * Makes so many random runs, the same ones each time, and a step of every byte on
 * corner operands. On each machine the outcome, the steps, the state and every
 * byte, in the image and beside it, must be those of the first, and each outcome
 * must come up. Where not, says so and exits.
 */
void agree(const machine *machines, int count, uint32_t runs);

#endif
