/* The check of a set's memory beside a C loop that reads the memory once, eight bytes a turn. */
#include <stdbool.h>
#include "timing.h"
#include "sets.h"

extern bool bench_well_formed(const uint8_t *memory, size_t length);

static uint64_t ours(const uint8_t *memory, size_t length) { return bench_well_formed(memory, length); }

static uint64_t read_once(const uint8_t *memory, size_t length) {
    uint64_t all = 0;
    for (size_t i = 0; i + 8 <= length; i += 8) {
        uint64_t word;
        memcpy(&word, memory + i, 8);
        all |= word;
    }
    return all;
}

static void measure(const char *name, const struct set *s) {
    if (!ours(s->bytes, LENGTH)) {
        printf("%s is refused\n", name);
        return;
    }
    compare(name, ours, read_once, s->bytes, LENGTH);
}

/* ---- growth: rows in one record, one enum, one union of fixeds */

/* A row, and n - 1 under it with names of their own. */
static void rows_under(struct set *s, unsigned n, unsigned kind, const char *name, unsigned part, const char *prefix) {
    char own[64];
    declaration(s);
    row(s, kind, 0, name);
    for (unsigned i = 1; i < n; i++) {
        sprintf(own, "%s%u", prefix, i);
        row(s, part, 1, own);
    }
}

static void enum_rows(struct set *s, unsigned n) { rows_under(s, n, ENUM, "a.Opcode", SYMBOL, "OPCODE_"); }
static void union_rows(struct set *s, unsigned n) { rows_under(s, n, UNION, "", FIXED, "a.Fixed"); }
static void record_rows(struct set *s, unsigned n) { record(s, "a.Summary", (n - 1) / 2, "field_"); }

static double best_of(const struct set *s) {
    double best = 1e18;
    int times = calls(ours, s->bytes, LENGTH);
    for (int round = 0; round < 15; round++) {
        double t = nanoseconds(ours, s->bytes, LENGTH, times);
        if (t < best) best = t;
    }
    return best;
}

/* 256, 512 and 1,023 rows, and how much longer each takes than the one before. */
static void growth(const char *name, void (*fill)(struct set *, unsigned)) {
    static struct set s;
    unsigned rows[] = {256, 512, 1023};
    double before = 0;
    for (int i = 0; i < 3; i++) {
        memset(&s, 0, sizeof s);
        fill(&s, rows[i]);
        if (!ours(s.bytes, LENGTH)) {
            printf("%s is refused\n", name);
            return;
        }
        double t = best_of(&s);
        printf("growth, %-16s %5u rows  %8.2f us", name, s.rows, t / 1000);
        if (before > 0) printf("  %5.2f times the half", t / before);
        printf("\n");
        before = t;
    }
}

int main(void) {
    static struct set empty, small, flat, many, alike;
    measure("check, empty set", &empty);
    record(&small, "a.Summary", 5, "field_");
    measure("check, one small", &small);
    record(&flat, "a.Summary", 511, "field_");
    measure("check, 1,023 rows in one", &flat);
    char name[64];
    for (unsigned k = 0; k < 32; k++) {
        sprintf(name, "a.Summary%u", k);
        record(&many, name, 15, "field_");
    }
    measure("check, 32 declarations", &many);
    record(&alike, "a.Summary", 160, "a_long_equal_beginning_of_sixty_letters_or_so_that_names_share_");
    measure("check, 160 long names", &alike);
    growth("one record", record_rows);
    growth("one enum", enum_rows);
    growth("one union", union_rows);
    return 0;
}
