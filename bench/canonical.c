/* The canonical text of a full set's largest declaration beside the copying of as many bytes. The check of the memory is part of the call, and is timed
   alone as well. */
#include <string.h>
#include "timing.h"
#include "sets.h"
#include <stdbool.h>

extern bool bench_well_formed(const uint8_t *memory, size_t length);
extern uint64_t bench_canonical(const uint8_t *memory, size_t length, size_t place, uint8_t *buffer, size_t room);

static uint8_t buffer[131072], other[131072];
static size_t text_length;

static uint64_t ours(const uint8_t *memory, size_t length) { return bench_canonical(memory, length, 0, buffer, sizeof buffer); }

static uint64_t copied(const uint8_t *memory, size_t length) {
    (void)memory, (void)length;
    memcpy(other, buffer, text_length);
    return other[text_length - 1];
}

static uint64_t check(const uint8_t *memory, size_t length) { return bench_well_formed(memory, length); }

static void measure(const char *name, const struct set *s) {
    text_length = ours(s->bytes, LENGTH);
    if (!text_length) {
        printf("%s is refused\n", name);
        return;
    }
    double best = 1e18, alone = 1e18, copy = 1e18;
    int a = calls(ours, s->bytes, LENGTH), b = calls(check, s->bytes, LENGTH), c = calls(copied, s->bytes, LENGTH);
    for (int round = 0; round < 15; round++) {
        double x = nanoseconds(ours, s->bytes, LENGTH, a), y = nanoseconds(check, s->bytes, LENGTH, b), z = nanoseconds(copied, s->bytes, LENGTH, c);
        if (x < best) best = x;
        if (y < alone) alone = y;
        if (z < copy) copy = z;
    }
    printf("canonical, %-20s %6zu bytes of text  %8.1f us (the check alone %8.1f us)  copying %7.3f us  ratio %9.1f\n", name, text_length, best / 1000,
           alone / 1000, copy / 1000, best / copy);
}

int main(void) {
    static struct set full, small;
    record(&full, "a.Summary", 511, "field_");
    measure("1,023 rows in one", &full);
    record(&small, "a.Summary", 5, "field_");
    measure("11 rows", &small);
    return 0;
}
