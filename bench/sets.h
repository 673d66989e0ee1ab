/* Sets written by hand, from docs/LAYOUT.md. */
#ifndef SETS_H
#define SETS_H
#include <stdint.h>
#include <stdio.h>
#include <string.h>

enum { LENGTH = 51266, ROWS = 66, ROW = 34, STRINGS = 34882 };
enum { INT = 3, REFERENCE = 16, ARRAY = 24, UNION = 26, RECORD = 32, ENUM = 33, FIXED = 34, FIELD = 40, SYMBOL = 41, FIELD_ALIAS = 49 };

struct set {
    uint8_t bytes[LENGTH];
    unsigned declarations, rows, strings;
};

static void two(uint8_t *at, unsigned n) {
    at[0] = (uint8_t)n;
    at[1] = (uint8_t)(n >> 8);
}

/* One row more, of the declaration that was begun last. */
static void row(struct set *s, unsigned kind, unsigned depth, const char *text) {
    uint8_t *at = s->bytes + ROWS + ROW * s->rows++;
    unsigned n = (unsigned)strlen(text);
    at[0] = (uint8_t)kind;
    two(at + 2, depth);
    two(at + 6, n);
    two(at + 8, s->strings);
    memcpy(s->bytes + STRINGS + s->strings, text, n);
    s->strings += n;
    uint8_t *count = s->bytes + 2 * s->declarations;
    two(count, count[0] + 256u * count[1] + 1);
}

static void declaration(struct set *s) {
    s->declarations++;
    two(s->bytes, s->declarations);
}

/* A record of n int fields: 1 + 2n rows. */
static void record(struct set *s, const char *name, unsigned n, const char *prefix) {
    char field[300];
    declaration(s);
    row(s, RECORD, 0, name);
    for (unsigned i = 0; i < n; i++) {
        sprintf(field, "%s%u", prefix, i);
        row(s, FIELD, 1, field);
        row(s, INT, 2, "");
    }
}
#endif
