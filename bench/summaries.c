/* Summaries: a datum walked by the declaration at a place, a whole summary, and the check of the set's memory that both begin with, beside avro-c, where it is installed, reading
   the same datum into its generic value. */
#include <stdbool.h>
#include <string.h>
#include "timing.h"
#include "sets.h"
#ifdef AVRO
#include <avro.h>
#endif

enum { OFFSETS = 4097, HEAD = 10, ROOM = 65536, WORKS = 4, ROUNDS = 25 };

extern bool bench_well_formed(const uint8_t *memory, size_t length);
extern uint64_t bench_put(uint8_t *memory, size_t length, size_t place, const uint8_t *text, size_t text_length);
extern uint64_t bench_canonical(const uint8_t *memory, size_t length, size_t place, uint8_t *buffer, size_t room);
extern int64_t bench_fingerprint(const uint8_t *bytes, size_t length);
extern uint64_t bench_summary(const uint8_t *memory, size_t length, const uint8_t *summary, size_t summary_length, size_t *list, size_t room);
extern uint64_t bench_datum(const uint8_t *memory, size_t length, size_t place, const uint8_t *datum, size_t datum_length, size_t *list, size_t room);

static struct set set;
static size_t at_place;
static size_t list[OFFSETS];

/* ---- a summary: its head, and a datum of one block */

static uint8_t summary[HEAD + ROOM];
static size_t end;

static void byte(unsigned b) { summary[end++] = (uint8_t)b; }

/* Avro's zig-zag number. */
static void number(int64_t v) {
    uint64_t z = (uint64_t)v << 1 ^ (uint64_t)(v >> 63);
    for (; z >= 128; z >>= 7) byte((unsigned)(z | 128));
    byte((unsigned)z);
}

static void letters(size_t n) {
    number((int64_t)n);
    for (size_t i = 0; i < n; i++) byte((unsigned)('a' + (end + i) % 26));
}

static const char RECORDS[] =
    "{\"type\":\"array\",\"items\":{\"type\":\"record\",\"name\":\"Symbol\",\"fields\":[{\"name\":\"name\",\"type\":\"string\"},{\"name\":\"line\",\"type\":\"int\"},"
    "{\"name\":\"guid\",\"type\":\"long\"},{\"name\":\"weight\",\"type\":\"double\"},{\"name\":\"section\",\"type\":[\"null\",\"int\"]}]}}";

/* Records of about 28 bytes: a string of 7 to 9 letters, an int, a long, a double, a union. */
static void records(int n) {
    number(n);
    for (int i = 0; i < n; i++) {
        double weight = i / 3.0;
        letters((size_t)(7 + i % 3));
        number(i * 37);
        number((int64_t)i * 123456789 - 5000000000);
        memcpy(summary + end, &weight, 8);
        end += 8;
        number(i % 2);
        if (i % 2) number(-i);
    }
    byte(0);
}

static const char STRINGS_TEXT[] = "{\"type\":\"array\",\"items\":\"string\"}";

/* Strings of 57 to 63 letters. */
static void strings(int n) {
    number(n);
    for (int i = 0; i < n; i++) letters((size_t)(57 + i % 7));
    byte(0);
}

/* ---- what is timed */

static uint64_t check(const uint8_t *datum, size_t length) {
    (void)datum;
    (void)length;
    return bench_well_formed(set.bytes, LENGTH);
}

static uint64_t walk(const uint8_t *datum, size_t length) { return bench_datum(set.bytes, LENGTH, at_place, datum, length, list, OFFSETS); }

static uint64_t whole(const uint8_t *datum, size_t length) { return bench_summary(set.bytes, LENGTH, datum - HEAD, HEAD + length, list, OFFSETS); }

#ifdef AVRO
static avro_value_t value;
static avro_reader_t reader;

/* Each call begins with a value that is reset, as avro-c's users do who read more than one. */
static uint64_t avro_c(const uint8_t *datum, size_t length) {
    size_t n = 0;
    avro_reader_memory_set_source(reader, (const char *)datum, (int64_t)length);
    avro_value_reset(&value);
    if (avro_value_read(reader, &value)) return 0;
    avro_value_get_size(&value, &n);
    return n;
}

static void schema(const char *text) {
    avro_schema_t s;
    if (avro_schema_from_json_length(text, strlen(text), &s)) {
        printf("avro-c refuses the declaration\n");
        return;
    }
    avro_value_iface_t *class = avro_generic_class_from_schema(s);
    avro_generic_value_new(class, &value);
    avro_value_iface_decref(class);
    avro_schema_decref(s);
    reader = avro_reader_memory("", 0);
}
#else
static uint64_t avro_c(const uint8_t *datum, size_t length) {
    (void)datum;
    (void)length;
    return 1;
}

static void schema(const char *text) { (void)text; }
#endif

/* Puts the declaration behind so many others and begins a summary of it. */
static void begin_summary(const char *text, unsigned others) {
    static uint8_t canonical[4096];
    char name[64];
    memset(&set, 0, sizeof set);
    for (unsigned k = 0; k < others; k++) {
        sprintf(name, "a.Summary%u", k);
        record(&set, name, 15, "field_");
    }
    at_place = others;
    bench_put(set.bytes, LENGTH, at_place, (const uint8_t *)text, strlen(text));
    uint64_t n = bench_canonical(set.bytes, LENGTH, at_place, canonical, sizeof canonical);
    uint64_t print = (uint64_t)bench_fingerprint(canonical, n);
    end = 0;
    byte(0xc3);
    byte(1);
    for (int i = 0; i < 8; i++) byte((unsigned)(print >> 8 * i));
}

/* The best of 25 rounds each, in turns. */
static void measure(const char *name, const char *text, unsigned others, void (*fill)(int), int n) {
    static const work works[WORKS] = {walk, whole, check, avro_c};
    static const char *names[WORKS] = {"a datum at a place", "a whole summary", "the check alone", "avro-c"};
    double best[WORKS];
    int times[WORKS];
    begin_summary(text, others);
    fill(n);
    schema(text);
    const uint8_t *datum = summary + HEAD;
    size_t length = end - HEAD;
    uint64_t offsets = walk(datum, length);
    if (!offsets || whole(datum, length) != offsets || list[offsets - 1] != end || !avro_c(datum, length)) {
        printf("%s: refused\n", name);
        return;
    }
    for (int w = 0; w < WORKS; w++) {
        times[w] = calls(works[w], datum, length);
        best[w] = 1e18;
    }
    for (int round = 0; round < ROUNDS; round++)
        for (int w = 0; w < WORKS; w++) {
            double t = nanoseconds(works[w], datum, length, times[w]);
            if (t < best[w]) best[w] = t;
        }
    printf("%s: %zu bytes, %llu offsets\n", name, length, (unsigned long long)offsets);
#ifdef AVRO
    for (int w = 0; w < WORKS; w++) printf("  %-20s %10.0f ns  %6.3f of avro-c\n", names[w], best[w], best[w] / best[WORKS - 1]);
    avro_value_decref(&value);
    avro_reader_free(reader);
#else
    for (int w = 0; w < WORKS - 1; w++) printf("  %-20s %10.0f ns\n", names[w], best[w]);
#endif
}

int main(void) {
    measure("summary of 150 records", RECORDS, 0, records, 150);
    measure("the same behind 31 declarations", RECORDS, 31, records, 150);
    measure("summary of 1,075 strings", STRINGS_TEXT, 0, strings, 1075);
    return 0;
}
