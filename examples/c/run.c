/* run FILE: lays the microcode page over the image in FILE and runs it on both cores. */
#include <stdio.h>
#include <string.h>

#include "zpu.h"

static uint8_t loaded[ZPU_IMAGE_MAX];
static uint8_t image[ZPU_IMAGE_MAX];

static int fail(const char *name, const char *why)
{
    fprintf(stderr, "%s: %s\n", name, why);
    return 1;
}

/* Gives what is wrong with the file, or a null pointer. */
static const char *load(const char *name, size_t *length)
{
    int longer, failed;
    FILE *file = fopen(name, "rb");

    if (file == NULL)
        return "cannot be opened";
    *length = fread(loaded, 1, sizeof loaded, file);
    longer = fgetc(file) != EOF;
    failed = ferror(file);
    if (fclose(file) != 0 || failed)
        return "cannot be read";
    return longer ? "over 65,536 bytes" : NULL;
}

static unsigned long word(size_t index)
{
    const uint8_t *at = image + 4 * index;
    return (unsigned long)at[0] << 24 | (unsigned long)at[1] << 16 | (unsigned long)at[2] << 8 | at[3];
}

/* Returns 0 where a line could not be printed. */
static int run(const char *core, uint32_t number, size_t length, uint32_t limit)
{
    zpu_state start;
    zpu_end end;

    start.pc = ZPU_PAGE_LENGTH;
    start.sp = (uint32_t)(length / 4);
    start.flag = 0;
    memcpy(image, loaded, length);
    end = zpu_run(image, length, start, number, limit);
    if (printf("%s %lu %lu %lu %lu ", core, (unsigned long)end.outcome, (unsigned long)end.steps,
               (unsigned long)end.state.pc, (unsigned long)end.state.sp) < 0)
        return 0;
    if (end.state.sp == length / 4)
        return puts("-") >= 0;
    return printf("%lu\n", word(end.state.sp)) >= 0;
}

int main(int count, char **words)
{
    size_t length;
    const char *wrong;

    if (count != 2)
        return fail("run", "give the name of one image file");
    wrong = load(words[1], &length);
    if (wrong != NULL)
        return fail(words[1], wrong);
    if (zpu_page(loaded, length) != ZPU_PAGE_IN_PLACE)
        return fail(words[1], "under 2,048 bytes");
    if (!run("wide", ZPU_WIDE, length, 1000) || !run("narrow", ZPU_NARROW, length, 200000) || fflush(stdout) != 0)
        return fail("run", "cannot print");
    return 0;
}
