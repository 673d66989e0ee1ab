/* Times two functions in turns on the same bytes and prints the ratio of their best times. */
#ifndef TIMING_H
#define TIMING_H
#include <stddef.h>
#include <stdint.h>
#include <stdio.h>
#include <time.h>

typedef uint64_t (*work)(const uint8_t *bytes, size_t length);

static volatile uint64_t kept; /* what the work answered, so that no compiler drops it */

static double nanoseconds(work f, const uint8_t *bytes, size_t length, int times) {
    struct timespec a, b;
    uint64_t sum = 0;
    clock_gettime(CLOCK_MONOTONIC, &a);
    for (int i = 0; i < times; i++) {
        sum += f(bytes, length);
        __asm__ volatile("" ::: "memory");
    }
    clock_gettime(CLOCK_MONOTONIC, &b);
    kept += sum;
    return ((double)(b.tv_sec - a.tv_sec) * 1e9 + (double)(b.tv_nsec - a.tv_nsec)) / times;
}

/* How many calls last about two milliseconds. */
static int calls(work f, const uint8_t *bytes, size_t length) {
    double once = nanoseconds(f, bytes, length, 3);
    return (int)(2e6 / (once + 1)) + 1;
}

/* The best of 15 rounds each, in turns; each round lasts about two milliseconds. */
static void compare(const char *name, work ours, work theirs, const uint8_t *bytes, size_t length) {
    int our_calls = calls(ours, bytes, length), their_calls = calls(theirs, bytes, length);
    double best_ours = 1e18, best_theirs = 1e18;
    for (int round = 0; round < 15; round++) {
        double o = nanoseconds(ours, bytes, length, our_calls);
        double t = nanoseconds(theirs, bytes, length, their_calls);
        if (o < best_ours) best_ours = o;
        if (t < best_theirs) best_theirs = t;
    }
    printf("%-32s %7zu bytes  ours %8.3f ns/byte  C %8.3f ns/byte  ratio %8.2f\n", name, length,
           best_ours / (double)length, best_theirs / (double)length, best_ours / best_theirs);
}
#endif
