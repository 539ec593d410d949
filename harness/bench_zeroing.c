/* What harness/bench_zeroing.py measures: the shortest of many runs, in nanoseconds, of a match with the largest budget, of one with no
   budget, and of C's memset on the work area that the largest budget asks for. Usage: bench_zeroing RUNS */
#define _POSIX_C_SOURCE 199309L
#include <stdio.h>
#include <stdlib.h>
#include <string.h>
#include <time.h>

#include "terravisco.h"

enum { BUDGET = 100000, WORK_AREA = BUDGET * TERRAVISCO_WORK_PER_STEP };

static uint32_t rule_area[TERRAVISCO_RULE_AREA], work_area[WORK_AREA], result[TERRAVISCO_ROW], answer[6];
static uint8_t names[TERRAVISCO_NAME_INDEX];

/* Called through a pointer that can change, so that the compiler keeps each call. */
static void *(*volatile fill)(void *, int, size_t) = memset;

static double nanoseconds(void)
{
    struct timespec t;
    clock_gettime(CLOCK_MONOTONIC, &t);
    return t.tv_sec * 1e9 + t.tv_nsec;
}

/* The empty rule on the empty subject: one step where there is a budget, none where there is not. */
static void match(uint32_t budget)
{
    terravisco_match((const uint8_t *)"", 0, 0, (const uint8_t *)"", 0, budget, rule_area, TERRAVISCO_RULE_AREA, work_area, WORK_AREA,
                     result, TERRAVISCO_ROW, names, TERRAVISCO_NAME_INDEX, answer);
}

static void with_budget(void) { match(BUDGET); }

static void without_budget(void) { match(0); }

static void with_memset(void) { fill(work_area, 0, sizeof work_area); }

/* One run, begun with an area that was just written, so that each finds the same caches. `last` is the area's last number afterwards. */
static double timed(void (*run)(void), uint32_t last)
{
    fill(work_area, 1, sizeof work_area);
    double began = nanoseconds();
    run();
    double took = nanoseconds() - began;
    if (work_area[WORK_AREA - 1] != last) {
        fputs("bench_zeroing: the work area is not as it must be\n", stderr);
        exit(1);
    }
    return took;
}

int main(int argc, char **argv)
{
    void (*const runs[3])(void) = {with_budget, without_budget, with_memset};
    const uint32_t left[3] = {0, 0x01010101, 0};
    double best[3] = {1e18, 1e18, 1e18};
    for (long n = argc > 1 ? atol(argv[1]) : 1000; n > 0; n--)
        for (int i = 0; i < 3; i++) {
            double took = timed(runs[i], left[i]);
            if (took < best[i])
                best[i] = took;
        }
    printf("%.0f %.0f %.0f\n", best[0], best[1], best[2]);
    return 0;
}
