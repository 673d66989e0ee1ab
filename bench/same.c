/* Two names of one length: what it takes to see that they differ, where they differ in their last two bytes alone, or that they do not. Beside C's memcmp
   after the lengths, and beside a C loop from the first byte on. */
#include <stdbool.h>
#include <string.h>
#include "timing.h"

enum { NAMES = 64, LONGEST = 200 };

extern bool bench_same(const uint8_t *a, size_t a_length, const uint8_t *b, size_t b_length);

__attribute__((noinline)) static bool by_memcmp(const uint8_t *a, size_t n, const uint8_t *b, size_t m) { return n == m && !memcmp(a, b, n); }

__attribute__((noinline)) static bool from_the_first(const uint8_t *a, size_t n, const uint8_t *b, size_t m) {
    if (n != m) return false;
    for (size_t i = 0; i < n; i++)
        if (a[i] != b[i]) return false;
    return true;
}

/* Each name with the first one. */
#define EACH(call) \
    uint64_t found = 0; \
    for (size_t k = 1; k <= NAMES; k++) found += call(names, length, names + k * length, length); \
    return found;

static uint64_t ours(const uint8_t *names, size_t length) { EACH(bench_same) }
static uint64_t memcmps(const uint8_t *names, size_t length) { EACH(by_memcmp) }
static uint64_t loops(const uint8_t *names, size_t length) { EACH(from_the_first) }

/* 65 names with one beginning; where they are to differ, their last two bytes are a letter and a digit that no other name has. */
static void fill(uint8_t *names, size_t length, bool differ) {
    memset(names, 'n', (NAMES + 1) * length);
    for (size_t k = 0; differ && k <= NAMES; k++) {
        uint8_t *end = names + (k + 1) * length;
        end[-2] = (uint8_t)('a' + k / 10);
        end[-1] = (uint8_t)('0' + k % 10);
    }
}

static void measure(const char *what, size_t length, bool differ) {
    static uint8_t names[(NAMES + 1) * LONGEST];
    uint64_t equal = differ ? 0 : NAMES;
    work each[] = {ours, memcmps, loops};
    int times[3];
    double best[] = {1e18, 1e18, 1e18};
    fill(names, length, differ);
    for (int k = 0; k < 3; k++) {
        if (each[k](names, length) != equal) puts("another answer");
        times[k] = calls(each[k], names, length);
    }
    for (int round = 0; round < 15; round++)
        for (int k = 0; k < 3; k++) {
            double t = nanoseconds(each[k], names, length, times[k]) / NAMES;
            if (t < best[k]) best[k] = t;
        }
    printf("%-6s %4zu bytes  ours %7.2f ns  memcmp %7.2f ns  ratio %6.2f  from the first %7.2f ns  ratio %6.2f\n", what, length, best[0], best[1],
           best[0] / best[1], best[2], best[0] / best[2]);
}

int main(void) {
    measure("misses", 60, true);
    measure("misses", 200, true);
    measure("hits", 60, false);
    measure("hits", 200, false);
    return 0;
}
