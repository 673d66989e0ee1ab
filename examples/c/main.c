/* Puts two declarations at the end of a set, prints the canonical text and the fingerprint of each, shows a refusal, and puts another one in place of the
   second. */
#include "dhokyurai.h"
#include <inttypes.h>
#include <stdio.h>
#include <stdlib.h>
#include <string.h>

static const char *texts[] = {
    "{\"type\":\"record\",\"name\":\"Assembly\",\"namespace\":\"link\",\"fields\":[{\"name\":\"id\",\"type\":\"long\"}]}",
    "{\"type\":\"array\",\"items\":\"link.Assembly\"}",
    "{\"type\":\"array\",\"items\":\"Assembly\"}",
};

int main(void) {
    size_t length = dhokyurai_memory_length(), a, b, c;
    uint8_t *memory = malloc(length);
    if (!memory || dhokyurai_open(memory, length, &a, &b, &c)) return 1;
    size_t count = 0;
    for (size_t i = 0; i < sizeof texts / sizeof *texts; i++) {
        uint8_t refusal = dhokyurai_put(memory, length, count, (const uint8_t *)texts[i], strlen(texts[i]), &a, &b, &c);
        if (refusal) {
            printf("refusal %u: declaration %zu, byte %zu\n", refusal, a, b);
            continue;
        }
        size_t place = count, n;
        count = a;
        uint8_t text[1024];
        int64_t fingerprint;
        if (dhokyurai_canonical(memory, length, place, text, sizeof text, 0, &n, &b)) return 1;
        if (dhokyurai_fingerprint(memory, length, place, &fingerprint, &a, &b)) return 1;
        printf("%zu: %.*s %" PRId64 "\n", place, (int)n, (const char *)text, fingerprint);
    }
    uint8_t name[255];
    if (dhokyurai_full_name(memory, length, 1, 1, name, sizeof name, &a, &b)) return 1;
    printf("row 1 of declaration 1 is named %.*s\n", (int)a, (const char *)name);
    const char *other = "\"link.Assembly\"";
    if (dhokyurai_put(memory, length, 1, (const uint8_t *)other, strlen(other), &a, &b, &c)) return 1;
    printf("%zu declarations, %zu rows\n", a, b);
    free(memory);
    return 0;
}
