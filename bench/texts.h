/* Declarations of about a given length, as a compiler would write them. */
#ifndef TEXTS_H
#define TEXTS_H
#include <stdint.h>
#include <stdio.h>
#include <string.h>

/* Text behind text, as long as it fits. */
struct text {
    char *bytes;
    size_t length, room;
};

static int put(struct text *t, const char *piece, size_t behind) {
    size_t n = strlen(piece);
    if (t->length + n + behind > t->room) return 0;
    memcpy(t->bytes + t->length, piece, n);
    t->length += n;
    return 1;
}

static struct text begin(uint8_t *out, size_t room, const char *piece) {
    struct text t = {(char *)out, 0, room};
    put(&t, piece, 2);
    return t;
}

static size_t finish(struct text *t) {
    memcpy(t->bytes + t->length, "]}", 2);
    return t->length + 2;
}

static const char RECORD_TEXT[] = "{\"type\":\"record\",\"name\":\"Summary\",\"namespace\":\"link.module\",\"fields\":[";
static const char ENUM_TEXT[] = "{\"type\":\"enum\",\"name\":\"Opcode\",\"namespace\":\"link.module\",\"symbols\":[";

/* A record of up to n fields of a few types, as many as fit. Each answers the text's length, which is at most room. */
static size_t record_of(uint8_t *out, size_t room, int n) {
    static const char *types[] = {"\"int\"", "\"string\"", "[\"null\",\"long\"]", "{\"type\":\"array\",\"items\":\"bytes\"}"};
    struct text t = begin(out, room, RECORD_TEXT);
    for (int i = 0; i < n; i++) {
        char field[160];
        sprintf(field, "%s{\"name\":\"assembly_reference_%d\",\"type\":%s,\"doc\":\"the %dth reference\"}", i ? ",\n  " : "", i, types[i % 4], i);
        if (!put(&t, field, 2)) break;
    }
    return finish(&t);
}

/* A record of up to n int fields with short names. */
static size_t plain_record(uint8_t *out, size_t room, int n) {
    struct text t = begin(out, room, RECORD_TEXT);
    for (int i = 0; i < n; i++) {
        char field[64];
        sprintf(field, "%s{\"name\":\"field_%d\",\"type\":\"int\"}", i ? "," : "", i);
        if (!put(&t, field, 2)) break;
    }
    return finish(&t);
}

static size_t flat_record(uint8_t *out, size_t room) { return record_of(out, room, 1 << 30); }

/* A record whose fields are maps of arrays of maps, 28 deep. */
static size_t deep_record(uint8_t *out, size_t room) {
    struct text t = begin(out, room, RECORD_TEXT);
    for (int i = 0;; i++) {
        char field[1200];
        int n = sprintf(field, "%s{\"name\":\"nested_%d\",\"type\":", i ? "," : "", i);
        for (int d = 0; d < 28; d++) n += sprintf(field + n, d % 2 ? "{\"type\":\"array\",\"items\":" : "{\"type\":\"map\",\"values\":");
        n += sprintf(field + n, "\"int\"");
        for (int d = 0; d < 29; d++) field[n++] = '}';
        field[n] = 0;
        if (!put(&t, field, 2)) break;
    }
    return finish(&t);
}

/* An enum of up to n symbols. */
static size_t enum_of(uint8_t *out, size_t room, int n) {
    struct text t = begin(out, room, ENUM_TEXT);
    for (int i = 0; i < n; i++) {
        char symbol[64];
        sprintf(symbol, "%s\"OPCODE_%d\"", i ? "," : "", i);
        if (!put(&t, symbol, 2)) break;
    }
    return finish(&t);
}

static size_t large_enum(uint8_t *out, size_t room) { return enum_of(out, room, 1 << 30); }
#endif
