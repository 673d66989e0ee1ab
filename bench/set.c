/* put on empty, small and full sets, beside the sum of what it cannot do without: the walk of the text, which scans it, and one check of the
   memory. */
#include <string.h>
#include "texts.h"
#include "timing.h"
#include "sets.h"
#include <stdbool.h>

extern uint64_t bench_declare(const uint8_t *text, size_t length, uint8_t *draft, size_t room);
extern bool bench_well_formed(const uint8_t *memory, size_t length);
extern uint64_t bench_put(uint8_t *memory, size_t length, size_t place, const uint8_t *text, size_t text_length);

static struct set before, work_set;
static size_t at_place;

/* Each call begins with the same set; the copy is timed with both sides. */
static uint64_t put_text(const uint8_t *text, size_t length) {
    memcpy(work_set.bytes, before.bytes, LENGTH);
    return bench_put(work_set.bytes, LENGTH, at_place, text, length);
}

static uint64_t parts(const uint8_t *text, size_t length) {
    static uint8_t draft[LENGTH];
    memcpy(work_set.bytes, before.bytes, LENGTH);
    return bench_declare(text, length, draft, LENGTH) + bench_well_formed(work_set.bytes, LENGTH);
}

static void measure(const char *name, size_t place, const uint8_t *text, size_t length) {
    at_place = place;
    if (!put_text(text, length)) {
        printf("%s is refused\n", name);
        return;
    }
    compare(name, put_text, parts, text, length);
}

int main(void) {
    static uint8_t text[32768];
    char name[64];
    size_t n = record_of(text, sizeof text, 5);
    measure("put at the count, empty set", 0, text, n);
    record(&before, "a.Summary", 5, "field_");
    measure("put at the count, small set", 1, text, n);
    measure("put at 0, small set", 0, text, n);
    memset(&before, 0, sizeof before);
    for (unsigned k = 0; k < 31; k++) {
        sprintf(name, "a.Summary%u", k);
        record(&before, name, 15, "field_");
    }
    measure("put at the count, 31 declarations", 31, text, n);
    measure("put at 0, 31 declarations", 0, text, n);
    measure("put at 30, 31 declarations", 30, text, n);
    return 0;
}
