/* Defaults: a put of fields with short ones beside a put of the same text in which the key is another, and the slowest defaults that were found: values of up to 255 bytes against
   records that hold unions of one another. */
#include <string.h>
#include "texts.h"
#include "timing.h"
#include "sets.h"

extern uint64_t bench_declare(const uint8_t *text, size_t length, uint8_t *draft, size_t room);
extern uint64_t bench_put(uint8_t *memory, size_t length, size_t place, const uint8_t *text, size_t text_length);

static struct set before, work_set;
static size_t at_place;

static uint64_t put_text(const uint8_t *text, size_t length) {
    memcpy(work_set.bytes, before.bytes, LENGTH);
    return bench_put(work_set.bytes, LENGTH, at_place, text, length);
}

/* ---- short defaults */

static uint8_t with[32768], without[32768];
static size_t both_length;

static uint64_t put_without(const uint8_t *text, size_t length) {
    (void)text;
    return put_text(without, length);
}

static uint64_t walk_text(const uint8_t *text, size_t length) {
    static uint8_t draft[LENGTH];
    return bench_declare(text, length, draft, LENGTH);
}

/* The best of 25 rounds each, in turns, in microseconds: what 47 adds to a put is what the defaults add to it, without what they add to the walk from text to rows, where
   they are found and kept. */
static void share(void) {
    const uint8_t *texts[2] = {with, without};
    double put_best[2] = {1e18, 1e18}, walk_best[2] = {1e18, 1e18};
    for (int round = 0; round < 25; round++)
        for (int i = 0; i < 2; i++) {
            double p = nanoseconds(put_text, texts[i], both_length, 30), w = nanoseconds(walk_text, texts[i], both_length, 30);
            if (p < put_best[i]) put_best[i] = p;
            if (w < walk_best[i]) walk_best[i] = w;
        }
    double kept_more = walk_best[0] - walk_best[1], asked = put_best[0] - put_best[1] - kept_more;
    printf("160 fields: put %.1f us without defaults, %.1f with; of the difference %.1f is the walk's, %.1f is 47's: %.3f of the put without 47\n", put_best[1] / 1e3, put_best[0] / 1e3,
           kept_more / 1e3, asked / 1e3, asked / (put_best[0] - asked));
}

/* A record of n fields of a few types, each with a value under a key of seven letters. */
static size_t fields(uint8_t *out, int n, const char *key) {
    static const char *kinds[] = {"\"int\"", "\"string\"", "[\"null\",\"long\"]", "{\"type\":\"array\",\"items\":\"bytes\"}", "\"boolean\""};
    static const char *values[] = {"0", "\"none\"", "null", "[]", "false"};
    struct text t = begin(out, sizeof with, RECORD_TEXT);
    for (int i = 0; i < n; i++) {
        char field[160];
        sprintf(field, "%s{\"name\":\"field_%d\",\"type\":%s,\"%s\":%s}", i ? "," : "", i, kinds[i % 5], key, values[i % 5]);
        put(&t, field, 2);
    }
    return finish(&t);
}

/* ---- slow ones */

/* A record of n records R0, R1 .., each with a field `a` that is a union of all before it and itself, up to k of them, and then fields with a default of the last of them or, in the end, of a
   record M that takes what they do not. */
static size_t mutual(uint8_t *out, size_t room, int n, int k, int defaults, const char *value) {
    struct text t = begin(out, room, "{\"type\":\"record\",\"name\":\"A\",\"fields\":["
        "{\"name\":\"m\",\"type\":{\"type\":\"record\",\"name\":\"M\",\"fields\":[{\"name\":\"a\",\"type\":[\"int\",\"M\"]}]}},");
    char piece[400];
    for (int i = 0; i < n; i++) {
        sprintf(piece, "{\"name\":\"f%d\",\"type\":{\"type\":\"record\",\"name\":\"R%d\",\"fields\":[{\"name\":\"a\",\"type\":[", i, i);
        put(&t, piece, 2);
        int first = i - k + 1 < 0 ? 0 : i - k + 1;
        for (int j = first; j <= i; j++) {
            sprintf(piece, "%s\"R%d\"", j > first ? "," : "", j);
            put(&t, piece, 2);
        }
        put(&t, "]}]}},", 2);
    }
    for (int i = 0; i < defaults; i++) {
        sprintf(piece, "%s{\"name\":\"d%d\",\"type\":[\"R%d\",\"M\"],\"default\":%s}", i ? "," : "", i, n - 1, value);
        put(&t, piece, 2);
    }
    return finish(&t);
}

/* The names of n records, as the members of a union. */
static void references(struct text *t, int n) {
    char piece[40];
    for (int i = 0; i < n; i++) {
        sprintf(piece, "%s\"R%d\"", i ? "," : "", i);
        put(t, piece, 2);
    }
}

/* An array of a union of n records, of which the last alone takes an empty object. */
static size_t listed(uint8_t *out, size_t room, int n, const char *value) {
    struct text t = begin(out, room, "{\"type\":\"record\",\"name\":\"A\",\"fields\":[");
    char piece[400];
    for (int i = 0; i < n; i++) {
        sprintf(piece, "{\"name\":\"f%d\",\"type\":{\"type\":\"record\",\"name\":\"R%d\",\"fields\":[{\"name\":\"a\",\"type\":\"int\"%s}]}},", i, i, i + 1 < n ? "" : ",\"default\":0");
        put(&t, piece, 2);
    }
    put(&t, "{\"name\":\"d\",\"type\":{\"type\":\"array\",\"items\":[", 2);
    references(&t, n);
    sprintf(piece, "]},\"default\":%s}", value);
    put(&t, piece, 2);
    return finish(&t);
}

/* A union of n records with a field `m` that is a map of ints, of which the last alone has a default for it. */
static size_t mapped(uint8_t *out, size_t room, int n, const char *value) {
    struct text t = begin(out, room, "{\"type\":\"record\",\"name\":\"A\",\"fields\":[");
    char piece[400];
    for (int i = 0; i < n; i++) {
        sprintf(piece, "{\"name\":\"f%d\",\"type\":{\"type\":\"record\",\"name\":\"R%d\",\"fields\":[{\"name\":\"%s\",\"type\":{\"type\":\"map\",\"values\":\"int\"}%s}]}},", i, i,
                i + 1 < n ? "m" : "o", i + 1 < n ? "" : ",\"default\":{}");
        put(&t, piece, 2);
    }
    put(&t, "{\"name\":\"d\",\"type\":[", 2);
    references(&t, n);
    sprintf(piece, "],\"default\":%s}", value);
    put(&t, piece, 2);
    return finish(&t);
}

/* {"m":{..}} with n members, the last of which is no number. */
static const char *members(int n) {
    static char s[400];
    strcpy(s, "{\"m\":{");
    for (int i = 0; i < n; i++) sprintf(s + strlen(s), "%s\"%c\":%s", i ? "," : "", i < 26 ? 'a' + i : 'A' + i - 26, i + 1 < n ? "1" : "\"\"");
    strcat(s, "}}");
    return s;
}

static const char *nested(int levels, const char *inmost) {
    static char s[400];
    s[0] = 0;
    for (int i = 0; i < levels; i++) strcat(s, "{\"a\":");
    strcat(s, inmost);
    for (int i = 0; i < levels; i++) strcat(s, "}");
    return s;
}

static const char *many(int n, const char *one) {
    static char s[400];
    strcpy(s, "[");
    for (int i = 0; i < n; i++) {
        if (i) strcat(s, ",");
        strcat(s, one);
    }
    strcat(s, "]");
    return s;
}

static void slow(const char *name, size_t length) {
    double best = 1e18;
    uint64_t answer = put_text(with, length);
    for (int round = 0; round < 5; round++) {
        double t = nanoseconds(put_text, with, length, 1);
        if (t < best) best = t;
    }
    printf("%-66s %6zu bytes  %8.3f ms  %s\n", name, length, best / 1e6, answer ? "accepted" : "refused");
}

int main(void) {
    both_length = fields(with, 160, "default");
    fields(without, 160, "another");
    compare("160 fields, short defaults; C: no defaults", put_text, put_without, with, both_length);
    share();
    slow("one default: 42 objects in one another, 40 records of unions", mutual(with, sizeof with, 40, 40, 1, nested(42, "1")));
    slow("one default: 42 objects in one another, 100 records of unions of 5", mutual(with, sizeof with, 100, 5, 1, nested(42, "1")));
    slow("one default: 84 empty objects, a union of 200 records", listed(with, sizeof with, 200, many(84, "{}")));
    slow("one default: an object of 40 members, a union of 160 records of maps", mapped(with, sizeof with, 160, members(40)));
    slow("50 defaults: 42 objects in one another, 34 records of unions", mutual(with, sizeof with, 34, 34, 50, nested(42, "1")));
    return 0;
}
