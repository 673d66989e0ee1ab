/* From a declaration's text to its rows, beside the C loop that only looks each byte up in a table of classes, and beside avro-c, where it is
   installed, reading the same text. */
#include "classes.h"
#include "texts.h"
#include "timing.h"
#ifdef AVRO
#include <avro.h>
#endif

/* How many rows, 0 where the text is refused. */
extern uint64_t bench_declare(const uint8_t *text, size_t length, uint8_t *draft, size_t room);

static uint64_t declare(const uint8_t *text, size_t length) {
    static uint8_t draft[51266];
    return bench_declare(text, length, draft, sizeof draft);
}

static int refused(const char *name, const uint8_t *text, size_t length) {
    if (declare(text, length)) return 0;
    printf("%s is refused\n", name);
    return 1;
}

#ifdef AVRO
static uint64_t avro_c(const uint8_t *text, size_t length) {
    avro_schema_t schema;
    if (avro_schema_from_json_length((const char *)text, length, &schema)) return 0;
    avro_schema_decref(schema);
    return 1;
}
#endif

static void measure(const char *name, const uint8_t *text, size_t length) {
    char line[64];
    if (refused(name, text, length)) return;
    sprintf(line, "rows, %s", name);
    compare(line, declare, classes, text, length);
#ifdef AVRO
    sprintf(line, "rows beside avro-c, %s", name);
    if (avro_c(text, length)) compare(line, declare, avro_c, text, length);
#endif
}

static void time_of(const char *name, const uint8_t *text, size_t length) {
    double best = 1e18;
    if (refused(name, text, length)) return;
    for (int round = 0; round < 5; round++) {
        double ours = nanoseconds(declare, text, length, calls(declare, text, length));
        if (ours < best) best = ours;
    }
    printf("rows, %-22s %7zu bytes  %9.1f microseconds\n", name, length, best / 1000);
}

int main(void) {
    static uint8_t text[65536];
    size_t rooms[] = {1024, 8192, 32768};
    set_classes();
    for (size_t i = 0; i < 3; i++) {
        measure("flat record", text, flat_record(text, rooms[i]));
        measure("deep nesting", text, deep_record(text, rooms[i]));
        measure("large enum", text, large_enum(text, rooms[i]));
    }
    measure("20 fields", text, plain_record(text, 32768, 20));
    measure("160 fields", text, plain_record(text, 32768, 160));
    measure("60 symbols", text, enum_of(text, 32768, 60));
    time_of("20 fields", text, plain_record(text, 32768, 20));
    time_of("160 fields", text, plain_record(text, 32768, 160));
    time_of("640 fields", text, plain_record(text, 32768, 640));
    time_of("60 symbols", text, enum_of(text, 32768, 60));
    time_of("500 symbols", text, enum_of(text, 32768, 500));
    return 0;
}
