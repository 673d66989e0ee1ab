/* The fingerprint of a slice beside the same table loop in C. */
#include "timing.h"

extern int64_t bench_fingerprint(const uint8_t *bytes, size_t length);

static uint64_t table[256];

static void fill_table(void) {
    for (uint64_t i = 0; i < 256; i++) {
        uint64_t fp = i;
        for (int k = 0; k < 8; k++) fp = (fp >> 1) ^ (0xc15d213aa4d7a795u & -(fp & 1));
        table[i] = fp;
    }
}

static uint64_t ours(const uint8_t *bytes, size_t length) { return (uint64_t)bench_fingerprint(bytes, length); }

static uint64_t theirs(const uint8_t *bytes, size_t length) {
    uint64_t fp = 0xc15d213aa4d7a795u;
    for (size_t i = 0; i < length; i++) fp = (fp >> 8) ^ table[(fp ^ bytes[i]) & 0xff];
    return fp;
}

int main(void) {
    static uint8_t bytes[32768];
    for (size_t i = 0; i < sizeof bytes; i++) bytes[i] = (uint8_t)(i * 131 + (i >> 8));
    fill_table();
    size_t lengths[] = {100, 1024, 8192, 32768};
    for (size_t i = 0; i < 4; i++) {
        if (ours(bytes, lengths[i]) != theirs(bytes, lengths[i])) {
            puts("the two differ");
            return 1;
        }
        compare("fingerprint", ours, theirs, bytes, lengths[i]);
    }
    return 0;
}
