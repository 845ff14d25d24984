/* bench REPETITIONS STEPS FOLDER BUILD...: sees that all builds are one machine, times them on every guest and core and in
 * short calls, and prints tables in Markdown. FOLDER has each build at each place, as BUILD.PLACE.so with the call BUILD_run,
 * ours as zpu_run. Ours is the first; the name of each other begins with its kind. */
#include <dlfcn.h>
#include <math.h>
#include <stdio.h>
#include <stdlib.h>
#include <string.h>
#include <time.h>

#include "agree.h"
#include "guests.h"

enum { OURS, MOST_BUILDS = 6, KINDS = 3, PLACES = 4, MOST_REPETITIONS = 101, TRIES = 5 };
enum { RANDOM_RUNS = 100000, FOREVER = 0x7fffffff };

/* Calls one after another, each starting where the last ended. */
typedef struct {
    const guest *program;
    uint32_t core;
    uint32_t limit;
    uint32_t calls;
} task;

static struct {
    const char *name;
    run_call *run[PLACES];
    double seconds[PLACES][MOST_REPETITIONS];
} builds[MOST_BUILDS];

static const struct {
    const char *prefix;
    const char *title;
} kinds[KINDS] = {{"plain", "faster plain C"}, {"expert", "expert C"}, {"rust", "safe Rust"}};

static const char *const core_names[] = {"narrow", "wide"};

static uint8_t image[ZPU_IMAGE_MAX];
static uint8_t first_image[ZPU_IMAGE_MAX];
static int build_count, repetitions;
static uint32_t steps;

static void stop(const char *what, const char *name)
{
    fprintf(stderr, "bench: %s: %s\n", name, what);
    exit(1);
}

static double now(void)
{
    struct timespec time;

    if (clock_gettime(CLOCK_PROCESS_CPUTIME_ID, &time) != 0)
        stop("no clock", "CPU time");
    return (double)time.tv_sec + 1e-9 * (double)time.tv_nsec;
}

static int ascending(const void *a, const void *b)
{
    double x = *(const double *)a, y = *(const double *)b;
    return (x > y) - (x < y);
}

/* Sorts the values, one to a repetition. */
static double median(double *values)
{
    qsort(values, (size_t)repetitions, sizeof values[0], ascending);
    return values[repetitions / 2];
}

static void load(int build, const char *folder, const char *name)
{
    char path[256], symbol[32];
    int place;

    snprintf(symbol, sizeof symbol, "%s_run", build == OURS ? "zpu" : name);
    builds[build].name = name;
    for (place = 0; place < PLACES; place++) {
        void *library;

        snprintf(path, sizeof path, "%s/%s.%d.so", folder, name, place);
        library = dlopen(path, RTLD_NOW | RTLD_LOCAL);
        builds[build].run[place] = library == NULL ? NULL : (run_call *)dlsym(library, symbol);
        if (builds[build].run[place] == NULL)
            stop("no such build", path);
    }
}

static int is_of(int build, int kind)
{
    return strncmp(builds[build].name, kinds[kind].prefix, strlen(kinds[kind].prefix)) == 0;
}

static int has_build(int kind)
{
    int build = OURS + 1;

    while (build < build_count && !is_of(build, kind))
        build++;
    return build < build_count;
}

/* A short run of a guest comes to its BREAK, and both cores leave the same two words. */
static void check(const guest *program)
{
    uint8_t words[2][8];
    int core;

    for (core = ZPU_NARROW; core <= ZPU_WIDE; core++) {
        zpu_state start = guest_load(program, image, 1000);
        zpu_end end = zpu_run(image, sizeof image, start, (uint32_t)core, FOREVER);

        if (end.outcome != ZPU_BREAK || end.state.sp != start.sp)
            stop("does not come to its end", program->name);
        memcpy(words[core], image + 4 * start.sp, sizeof words[core]);
    }
    if (memcmp(words[ZPU_NARROW], words[ZPU_WIDE], sizeof words[0]) != 0)
        stop("differs between the cores", program->name);
}

static void check_all(void)
{
    machine machines[MOST_BUILDS];
    int k;

    for (k = 0; k < GUESTS; k++)
        check(&guests[k]);
    for (k = 0; k < build_count; k++)
        machines[k] = (machine){builds[k].name, builds[k].run[0]};
    agree(machines, build_count, RANDOM_RUNS);
}

/* Gives the seconds, and the end of the last call. */
static double carry_out(const task *work, run_call *run, zpu_end *end)
{
    zpu_state state = guest_load(work->program, image, FOREVER);
    double from = now();
    uint32_t k;

    for (k = 0; k < work->calls; k++) {
        *end = run(image, sizeof image, state, work->core, work->limit);
        state = end->state;
    }
    return now() - from;
}

/* The builds take turns at every place, another one beginning each time; all must end alike. */
static void time_all(const task *work)
{
    int turns = build_count * PLACES, repetition, k;
    zpu_end first, end;

    carry_out(work, builds[OURS].run[0], &first);
    memcpy(first_image, image, sizeof image);
    for (repetition = 0; repetition < repetitions; repetition++)
        for (k = 0; k < turns; k++) {
            int turn = (repetition + k) % turns, build = turn % build_count, place = turn / build_count;

            builds[build].seconds[place][repetition] = carry_out(work, builds[build].run[place], &end);
            if (!same_end(end, first) || memcmp(image, first_image, sizeof image) != 0)
                stop("ends differently from ours", builds[build].name);
        }
}

/* A build's time in one repetition: the geometric mean over its places. */
static double mean(int build, int repetition)
{
    double sum = 0;
    int place;

    for (place = 0; place < PLACES; place++)
        sum += log(builds[build].seconds[place][repetition]);
    return exp(sum / PLACES);
}

/* Our time over that of a kind's fastest build, by repetition: prints the median and the extremes, gives the median. */
static double print_ratio(int kind)
{
    double ratios[MOST_REPETITIONS], middle = 0, least = 0, most = 0;
    int build, k;

    for (build = OURS + 1; build < build_count; build++) {
        if (!is_of(build, kind))
            continue;
        for (k = 0; k < repetitions; k++)
            ratios[k] = mean(OURS, k) / mean(build, k);
        if (median(ratios) > middle) {
            middle = median(ratios);
            least = ratios[0];
            most = ratios[repetitions - 1];
        }
    }
    printf(" %.2f (%.2f to %.2f) |", middle, least, most);
    return middle;
}

/* Nanoseconds a step at a build's fastest place and at its slowest. */
static void print_step(int build)
{
    double fastest = INFINITY, slowest = 0;
    int place;

    for (place = 0; place < PLACES; place++) {
        double nanoseconds = 1e9 * median(builds[build].seconds[place]) / steps;

        fastest = fmin(fastest, nanoseconds);
        slowest = fmax(slowest, nanoseconds);
    }
    printf(" %.2f to %.2f |", fastest, slowest);
}

static void print_head(void)
{
    int k;

    printf("\nMedians of %d runs of %u steps: our time over the others', with the extremes; ns a step of each build, at its "
           "fastest and its slowest place.\n\n| loop | core |", repetitions, steps);
    for (k = 0; k < KINDS; k++)
        printf(" ours/%s |", kinds[k].title);
    for (k = OURS; k < build_count; k++)
        printf(" %s |", builds[k].name);
    printf("\n|---|---|");
    for (k = 0; k < KINDS + build_count; k++)
        printf("---|");
    printf("\n");
}

/* Adds the logarithm of our ratio to each kind to its sum. */
static void print_row(const task *work, double *sums)
{
    int k;

    printf("| %s | %s |", work->program->name, core_names[work->core]);
    for (k = 0; k < KINDS; k++)
        sums[k] += log(print_ratio(k));
    for (k = OURS; k < build_count; k++)
        print_step(k);
    printf("\n");
    fflush(stdout);
}

static void compare_loops(void)
{
    double sums[KINDS] = {0};
    int k, rows = 2 * GUESTS;

    print_head();
    for (k = 0; k < rows; k++) {
        task work = {&guests[k / 2], k % 2 == 0 ? ZPU_WIDE : ZPU_NARROW, steps, 1};

        time_all(&work);
        print_row(&work, sums);
    }
    printf("| geometric mean | |");
    for (k = 0; k < KINDS; k++)
        printf(" %.2f |", exp(sums[k] / rows));
    for (k = OURS; k < build_count; k++)
        printf(" |");
    printf("\n");
}

/* Nanoseconds a call. */
static void print_call(const task *work, int build)
{
    double times[MOST_REPETITIONS];
    int k;

    for (k = 0; k < repetitions; k++)
        times[k] = mean(build, k);
    printf(" %.1f |", 1e9 * median(times) / work->calls);
}

/* The memory guest on the wide core in as many short calls as make the steps. */
static void compare_calls(void)
{
    static const uint32_t limits[] = {1, 10};
    int row, k;

    printf("\nns a call, in the memory loop on the wide core:\n\n| limit |");
    for (k = OURS; k < build_count; k++)
        printf(" %s |", builds[k].name);
    printf("\n|---|");
    for (k = OURS; k < build_count; k++)
        printf("---|");
    for (row = 0; row < 2; row++) {
        task work = {&guests[1], ZPU_WIDE, limits[row], 1 + (steps - 1) / limits[row]};

        time_all(&work);
        printf("\n| %u |", work.limit);
        for (k = OURS; k < build_count; k++)
            print_call(&work, k);
        fflush(stdout);
    }
    printf("\n");
}

/* Our millions of steps a second, the fastest of some tries, in as many calls as make 100 times the steps, at least one. */
static double fastest_rate(uint32_t core, uint32_t limit)
{
    uint64_t calls = 100 * (uint64_t)steps / limit;
    task work = {&guests[0], core, limit, calls == 0 ? 1 : (uint32_t)calls};
    double fastest = 0;
    zpu_end end;
    int k;

    for (k = 0; k < TRIES; k++) {
        fastest = fmax(fastest, 1e-6 * work.calls * limit / carry_out(&work, zpu_run, &end));
        if (end.outcome != ZPU_LIMIT)
            stop("ends before its limit", work.program->name);
    }
    return fastest;
}

static void scale(void)
{
    uint32_t limit = 1000;
    int power;

    printf("\n| limit | ours, wide, million steps a second, the fastest of %d tries | narrow |\n|---|---|---|\n", TRIES);
    for (power = 3; power <= 9 && limit / 1000 <= steps; power++, limit *= 10) {
        printf("| 10^%d | %.0f |", power, fastest_rate(ZPU_WIDE, limit));
        printf(" %.0f |\n", fastest_rate(ZPU_NARROW, limit));
        fflush(stdout);
    }
}

int main(int count, char **words)
{
    int k;

    build_count = count - 4;
    repetitions = build_count <= KINDS || build_count > MOST_BUILDS ? 0 : atoi(words[1]);
    steps = repetitions == 0 ? 0 : (uint32_t)strtoul(words[2], NULL, 10);
    if (repetitions < 1 || repetitions > MOST_REPETITIONS || steps < 1)
        stop("give repetitions, 1 to 101, steps, a folder and 4 to 6 builds", "usage");
    for (k = 0; k < build_count; k++)
        load(k, words[3], words[4 + k]);
    for (k = 0; k < KINDS; k++)
        if (!has_build(k))
            stop("no build of this kind", kinds[k].prefix);
    check_all();
    compare_loops();
    compare_calls();
    scale();
    return 0;
}
