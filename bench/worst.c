/* The slowest inputs that were found: texts for the walk to rows, memories for the check, and calls on full sets. Each is made, timed and listed,
   the slowest first. */
#include <stdbool.h>
#include <stdlib.h>
#include <string.h>
#include <time.h>
#include "texts.h"
#include "sets.h"

extern uint64_t bench_declare(const uint8_t *text, size_t length, uint8_t *draft, size_t room);
extern bool bench_well_formed(const uint8_t *memory, size_t length);
extern uint64_t bench_put(uint8_t *memory, size_t length, size_t place, const uint8_t *text, size_t text_length);
extern uint64_t bench_canonical(const uint8_t *memory, size_t length, size_t place, uint8_t *buffer, size_t room);

enum { LONGEST = 32768, NAMES = 9000, ALIKE = 16 };

/* ---- the calls, all on these inputs */

static uint8_t text[LONGEST], buffer[131072];
static size_t text_length;
static struct set before, after;

static uint64_t declare(void) { return bench_declare(text, text_length, after.bytes, LENGTH); }
static uint64_t check(void) { return bench_well_formed(after.bytes, LENGTH); }
static uint64_t put_last(void) { return bench_put(after.bytes, LENGTH, after.declarations, text, text_length); }
static uint64_t put_first(void) { return bench_put(after.bytes, LENGTH, 0, text, text_length); }
static uint64_t canonical(void) { return bench_canonical(after.bytes, LENGTH, 0, buffer, sizeof buffer); }

/* ---- times */

struct line {
    const char *name;
    size_t bytes;
    double milliseconds;
    uint64_t answer;
};

static struct line lines[64];
static size_t line_count;

static double milliseconds(uint64_t (*call)(void), uint64_t *answer) {
    struct timespec a, b;
    clock_gettime(CLOCK_MONOTONIC, &a);
    *answer = call();
    clock_gettime(CLOCK_MONOTONIC, &b);
    return (double)(b.tv_sec - a.tv_sec) * 1e3 + (double)(b.tv_nsec - a.tv_nsec) / 1e6;
}

/* The best of five rounds; fewer where they last long. Each begins with the same set. */
static void measure(const char *name, size_t bytes, uint64_t (*call)(void)) {
    struct line line = {name, bytes, 1e18, 0};
    double sum = 0;
    for (int round = 0; round < 5 && sum < 1000; round++) {
        after = before;
        double t = milliseconds(call, &line.answer);
        if (t < line.milliseconds) line.milliseconds = t;
        sum += t;
    }
    lines[line_count++] = line;
}

static int slower(const void *a, const void *b) {
    double x = ((const struct line *)a)->milliseconds, y = ((const struct line *)b)->milliseconds;
    return (x < y) - (x > y);
}

static void print_lines(void) {
    qsort(lines, line_count, sizeof lines[0], slower);
    for (size_t i = 0; i < line_count; i++)
        printf("%-58s %6zu bytes %9.2f ms  answer %llu\n", lines[i].name, lines[i].bytes, lines[i].milliseconds, (unsigned long long)lines[i].answer);
    printf("slowest: %s, %.2f ms: %s\n", lines[0].name, lines[0].milliseconds,
           lines[0].milliseconds <= 20 ? "all are at most 20 ms" : "not all are at most 20 ms");
}

/* ---- lists of names, as they are written in a text */

static char names[NAMES][32];
static unsigned name_count;

/* 63 letters of names; the first 53 may begin one. */
static const char LETTERS[] = "abcdefghijklmnopqrstuvwxyzABCDEFGHIJKLMNOPQRSTUVWXYZ_0123456789";

static void keep(const char *name) {
    if (name_count < NAMES) strcpy(names[name_count++], name);
}

/* The i-th name of n letters, the first letter changing first; 0 behind the last. */
static int name_of(char *out, unsigned n, unsigned i) {
    out[0] = LETTERS[i % 53];
    i /= 53;
    for (unsigned k = 1; k < n; k++) {
        out[k] = LETTERS[i % 63];
        i /= 63;
    }
    out[n] = 0;
    return i == 0;
}

/* Names from n letters on, the shortest first. */
static void short_names(unsigned n) {
    char name[32];
    name_count = 0;
    for (; name_count < NAMES; n++)
        for (unsigned i = 0; name_count < NAMES && name_of(name, n, i); i++)
            if (strcmp(name, "int")) keep(name);
}

/* The marks of crates/view: three bytes a step, and how many are left in the last. */
static uint64_t step(uint64_t h, uint64_t w) { return h % 4294967296 * (2654435769 + w) + h / 4294967296 + w; }

static uint64_t mark(const char *s) {
    uint64_t h = 1442695040888963407, w = 0, n = 0;
    for (; *s; s++) {
        w += (uint64_t)(uint8_t)*s << 8 * n;
        if (++n == 3) {
            h = step(h, w);
            w = n = 0;
        }
    }
    return step(h, w + 16777216 * n);
}

/* Where the largest table of crates/seen looks for a string first. */
static unsigned first_place(const char *s) { return (unsigned)(mark(s) / 4294967296 * 8192 / 4294967296); }

/* Names of four letters, and then of five, that have one first place. */
static void names_of_one_place(void) {
    char name[32];
    name_count = 0;
    for (unsigned n = 4; n <= 5; n++)
        for (unsigned i = 0; name_count < 4400 && name_of(name, n, i); i++)
            if (first_place(name) == 0) keep(name);
}

/* The same of strings of a control character and two others, which are no names; the character is written as an escape. */
static void strings_with_an_escape(void) {
    static const char letters[] = "tnrbf";
    char written[8];
    name_count = 0;
    for (unsigned i = 0; i < 94 * 94 * 5; i++) {
        char x = (char)(33 + i / 5 % 94), y = (char)(33 + i / 470);
        if (strchr("\"\\", x) || strchr("\"\\", y)) continue;
        sprintf(written, "\\%c%c%c", letters[i % 5], x, y);
        keep(written);
    }
}

/* The first letter of each becomes an escape. */
static void escape_first(void) {
    for (unsigned i = 0; i < name_count; i++) {
        char rest[32];
        strcpy(rest, names[i] + 1);
        sprintf(names[i], "\\u%04x%s", (unsigned)(uint8_t)names[i][0], rest);
    }
}

/* ---- texts */

static char namespace[247], first[LONGEST];

/* n times the piece, behind what `first` holds. */
static void more(const char *piece, unsigned n) {
    char *at = first + strlen(first);
    for (unsigned i = 0; i < n; i++) at += sprintf(at, "%s", piece);
}

/* A list: `first`, and then the names in this form, as many as fit. */
static void list(const char *head, const char *form, const char *tail) {
    struct text t = {(char *)text, 0, LONGEST};
    char piece[2048] = ",";
    put(&t, head, 0);
    put(&t, first, 0);
    for (unsigned i = 0; i < name_count; i++) {
        sprintf(piece + 1, form, names[i]);
        if (!put(&t, piece + (i == 0 && !*first), strlen(tail))) break;
    }
    put(&t, tail, 0);
    text_length = t.length;
    *first = 0;
}

static void time_text(const char *name) { measure(name, text_length, declare); }

/* A union in a record whose namespace has 246 bytes. */
static void time_union(const char *name, const char *form) {
    char head[512];
    sprintf(head, "{\"type\":\"record\",\"name\":\"%s.R\",\"fields\":[{\"name\":\"u\",\"type\":[", namespace);
    list(head, form, "]}]}");
    time_text(name);
}

static void time_enum(const char *name, const char *tail) {
    list("{\"type\":\"enum\",\"name\":\"E\",\"symbols\":[", "\"%s\"", tail);
    time_text(name);
}

static void time_fields(const char *name, const char *form) {
    list("{\"type\":\"record\",\"name\":\"R\",\"fields\":[", form, "]}");
    time_text(name);
}

static const char REFERENCE_FORM[] = "\"%s\"", FIELD_FORM[] = "{\"name\":\"%s\",\"type\":[]}";

/* A fixed with a dotted name, for which a namespace has no meaning, and a namespace of n escapes. */
static void first_fixed(const char *space, const char *name, unsigned n) {
    sprintf(first, "{\"type\":\"fixed\",\"size\":1,\"name\":\"%s.%s\",\"namespace\":\"", space, name);
    more("\\uffff", n);
    more("\"}", 1);
}

/* Fields whose types are unions of as many references as are still compared one by one. */
static void small_unions(void) {
    char form[256] = "{\"name\":\"%s\",\"type\":[", head[512];
    short_names(1);
    for (unsigned i = 0; i < 11; i++) sprintf(form + strlen(form), "%s\"%s\"", i ? "," : "", names[i]);
    strcat(form, "]}");
    sprintf(head, "{\"type\":\"record\",\"name\":\"%s.R\",\"fields\":[", namespace);
    list(head, form, "]}");
    time_text("fields, each a union of 11 references");
}

static void unions(void) {
    char deep[2048] = "";
    short_names(1);
    time_union("union, short references", REFERENCE_FORM);
    time_union("union, references in objects", "{\"type\":\"%s\"}");
    for (int d = 0; d < 60; d++) strcat(deep, "{\"type\":");
    strcat(deep, "\"%s\"");
    for (int d = 0; d < 60; d++) strcat(deep, "}");
    time_union("union, references in 60 objects", deep);
    time_union("union, fixeds", "{\"type\":\"fixed\",\"name\":\"%s\",\"size\":1}");
    time_union("union, fixeds with a namespace", "{\"type\":\"fixed\",\"name\":\"%s\",\"namespace\":\"a\",\"size\":1}");
    first_fixed("a", "b", 2300);
    time_union("union, first member has a namespace of escapes", REFERENCE_FORM);
    more("{\"type\":\"fixed\",\"name\":\"a.b\",\"size\":1", 1);
    more(",\"\\n\":0", 2000);
    more("}", 1);
    time_union("union, first member has 2,000 keys with an escape", REFERENCE_FORM);
    escape_first();
    time_union("union, references with an escape", REFERENCE_FORM);
    names_of_one_place();
    time_union("union, references of one place", REFERENCE_FORM);
    first_fixed(namespace, names[--name_count], 2300);
    time_union("union, one place, first has a namespace of escapes", REFERENCE_FORM);
    short_names(1);
    strcpy(names[5900], "a");
    time_union("union, the last reference twice", REFERENCE_FORM);
    small_unions();
}

static void symbols(void) {
    char tail[64];
    short_names(1);
    time_enum("enum, short names, the last symbol twice", ",\"a\"]}");
    escape_first();
    time_enum("enum, names with an escape, the last twice", ",\"a\"]}");
    names_of_one_place();
    time_enum("enum, names of one place", "]}");
    escape_first();
    sprintf(tail, ",\"%s\"]}", names[0]);
    time_enum("enum, names of one place with an escape, the last twice", tail);
    strings_with_an_escape();
    time_enum("enum, strings with an escape that are no names", "]}");
    more("\"", 1);
    more("\\uffff", 1500);
    more("\"", 1);
    time_enum("enum, first symbol of 1,500 escapes", "]}");
}

/* A field with n aliases, each with an escape. */
static void first_field(unsigned n) {
    char name[32], alias[64];
    more("{\"name\":\"a\",\"type\":[],\"aliases\":[", 1);
    for (unsigned i = 0; i < n; i++) {
        name_of(name, 3, i);
        sprintf(alias, "%s\"\\u%04x%s\"", i ? "," : "", (unsigned)name[0], name + 1);
        more(alias, 1);
    }
    more("]}", 1);
}

/* A field with as many aliases as fit beside n fields, so that the table is as full as it can be. */
static void full_field(unsigned n) {
    char alias[64];
    more("{\"name\":\"aaaaaa\",\"type\":[],\"aliases\":[", 1);
    for (unsigned i = 0; i < n; i++) {
        sprintf(alias, "%s\"%s\"", i ? "," : "", names[i]);
        more(alias, 1);
    }
    more("]}", 1);
    for (unsigned i = n; i < name_count; i++) strcpy(names[i - n], names[i]);
    name_count -= n;
}

static void fields(void) {
    first_field(1200);
    names_of_one_place();
    time_fields("fields, first has 1,200 aliases with an escape", FIELD_FORM);
    time_fields("fields of one place", FIELD_FORM);
    short_names(1);
    full_field(4000);
    time_fields("fields, first has 4,000 aliases", FIELD_FORM);
    names_of_one_place();
    more("{\"name\":\"a\",\"type\":[]", 1);
    more(",\"\\n\\n\\n\\n\":0", 1100);
    more("}", 1);
    time_fields("fields of one place, first has 1,100 keys of escapes", FIELD_FORM);
    escape_first();
    time_fields("fields of one place, names and keys with an escape", "{\"n\\u0061me\":\"%s\",\"typ\\u0065\":[]}");
}

/* Texts that are read in one pass. */
static void others(void) {
    char head[512];
    name_count = 0;
    sprintf(head, "{\"type\":\"record\",\"name\":\"%s.R\",\"fields\":[],\"aliases\":[\"a\"", namespace);
    more(",\"a\"", 8000);
    list(head, "", "]}");
    time_text("record, 8,001 aliases");
    more(",\"\\u0074ype\":\"int\"", 1800);
    list("{\"type\":\"int\"", "", "}");
    time_text("object, one key 1,801 times");
}

/* ---- memories */

static void fresh(void) { memset(&before, 0, sizeof before); }

/* The i-th of names of n bytes that differ in their first two alone. */
static const char *alike(unsigned i, unsigned n) {
    static char name[256];
    name_of(name, 2, i);
    memset(name + 2, 'x', n - 2);
    name[n] = 0;
    return name;
}

static void time_memory(const char *name) { measure(name, LENGTH, check); }

/* n rows of a kind under one, in a declaration of their own. */
static void rows_under(unsigned kind, const char *name, unsigned part, unsigned n) {
    declaration(&before);
    row(&before, kind, 0, name);
    for (unsigned i = 0; i < n; i++) row(&before, part, 1, alike(i, ALIKE));
}

/* The same with the names that are kept. */
static void names_under(unsigned kind, const char *name, unsigned part) {
    declaration(&before);
    row(&before, kind, 0, name);
    for (unsigned i = 0; i < name_count; i++) row(&before, part, 1, names[i]);
}

/* Names of 18 bytes that differ in their middle alone: one mark of crates/chains. */
static void names_with_one_middle(unsigned n) {
    char name[32] = "beginsab__ends_all";
    name_count = 0;
    for (unsigned i = 0; i < n; i++) {
        name[8] = LETTERS[i % 63];
        name[9] = LETTERS[i / 63];
        keep(name);
    }
}

/* A number of crates/chains' marks: the slot of eight bytes alone. */
static unsigned slot_of(const char *s) {
    uint64_t w;
    memcpy(&w, s, 8);
    return (unsigned)((w % 4294967296 * 2654435761 / 2097152 % 2048 + w / 4294967296 * 2246822519 / 2097152 % 2048) % 2048);
}

/* n names of 16 bytes, of other marks, that have one slot there and end alike. */
static void names_of_one_slot(unsigned n) {
    char name[32] = "....xxxxxxxxxxxx";
    name_count = 0;
    for (unsigned i = 0; name_count < n; i++) {
        name[0] = LETTERS[i % 53];
        name[1] = LETTERS[i / 53 % 63];
        name[2] = LETTERS[i / 3339 % 63];
        name[3] = LETTERS[i / 210357 % 63];
        if (slot_of(name) == 0) keep(name);
    }
}

/* A union of n records, enums and fixeds in no order. */
static void definitions(unsigned n) {
    static const unsigned kinds[] = {RECORD, ENUM, FIXED};
    uint32_t state = 1;
    declaration(&before);
    row(&before, UNION, 0, "");
    for (unsigned i = 0; i < n; i++) {
        state = state * 1103515245 + 12345;
        row(&before, kinds[(state >> 16) % 3], 1, alike(i, ALIKE));
    }
}

/* A record whose first field has n aliases, and m fields more. */
static void aliased(unsigned n, unsigned m) {
    declaration(&before);
    row(&before, RECORD, 0, "a");
    row(&before, FIELD, 1, "a");
    for (unsigned i = 0; i < n; i++) row(&before, FIELD_ALIAS, 2, alike(i, 24));
    row(&before, INT, 2, "");
    for (unsigned i = n; i < n + m; i++) {
        row(&before, FIELD, 1, alike(i, 24));
        row(&before, INT, 2, "");
    }
}

/* A chain of n rows, each under the one before, of two kinds in turn; records have names of their own. */
static void chain(unsigned n, unsigned even, unsigned odd) {
    declaration(&before);
    for (unsigned d = 0; d < n; d++) {
        unsigned kind = d % 2 ? odd : even;
        row(&before, kind, d, kind == RECORD ? alike(d, 28) : kind == FIELD ? "f" : "");
    }
    row(&before, INT, n, "");
}

static void memories(void) {
    fresh();
    rows_under(ENUM, "E", SYMBOL, 1022);
    time_memory("memory, 1,022 symbols");
    fresh();
    rows_under(UNION, "", REFERENCE, 1023);
    time_memory("memory, 1,023 references that are unknown");
    fresh();
    definitions(1023);
    time_memory("memory, union of 1,023 definitions");
    fresh();
    aliased(339, 340);
    time_memory("memory, 339 aliases and 341 fields");
    fresh();
    chain(1022, RECORD, FIELD);
    time_memory("memory, 511 records deep");
    fresh();
    chain(1022, UNION, ARRAY);
    time_memory("memory, 511 unions deep");
    measure("canonical, 511 unions deep", LENGTH, canonical);
    fresh();
    names_with_one_middle(905);
    names_under(UNION, "", FIXED);
    time_memory("memory, union of 905 fixeds of one mark");
    fresh();
    names_under(ENUM, "E", SYMBOL);
    time_memory("memory, 905 symbols of one mark");
    fresh();
    names_of_one_slot(1022);
    names_under(UNION, "", FIXED);
    time_memory("memory, union of 1,022 fixeds of one slot");
}

/* Calls that look names up in a full set. */
static void full_sets(void) {
    fresh();
    declaration(&before);
    row(&before, INT, 0, "");
    definitions(1022);
    text_length = (size_t)sprintf((char *)text, "\"int\"");
    measure("put, in front of 1,022 definitions", LENGTH, put_first);
    fresh();
    definitions(600);
    name_count = 0;
    for (unsigned i = 600; i < 1022; i++) keep(alike(i, ALIKE));
    list("[", "{\"type\":\"fixed\",\"name\":\"%s\",\"size\":1}", "]");
    measure("put, 422 definitions behind 600", text_length, put_last);
}

int main(void) {
    memset(namespace, 'n', 246);
    unions();
    symbols();
    fields();
    others();
    memories();
    full_sets();
    print_lines();
    return 0;
}
