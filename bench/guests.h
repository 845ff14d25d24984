/* The guest programs: loops that count down in the top word and BREAK at 0. */
#ifndef GUESTS_H
#define GUESTS_H

#include "zpu.h"

typedef struct {
    const char *name;
    const uint8_t *code;
    size_t length;
} guest;

enum { GUESTS = 3 };

extern const guest guests[GUESTS];

/*
 * Makes the image, of ZPU_IMAGE_MAX bytes with the microcode page laid, for a
 * loop done `count` times. Gives its start.
 */
zpu_state guest_load(const guest *program, uint8_t *image, uint32_t count);

#endif
