/* The scan of a declaration beside a C loop that only looks each byte up in a table of 256 classes. */
#include "classes.h"
#include "texts.h"
#include "timing.h"

/* The text's length where it is whole, else the position of its fault. */
extern uint64_t bench_scan(const uint8_t *text, size_t length);

int main(void) {
    static uint8_t text[32768];
    set_classes();
    size_t rooms[] = {1024, 8192, 32768};
    for (size_t i = 0; i < 3; i++) {
        size_t length = flat_record(text, rooms[i]);
        if (bench_scan(text, length) != length) {
            puts("the text is refused");
            return 1;
        }
        compare("scan", bench_scan, classes, text, length);
    }
    return 0;
}
