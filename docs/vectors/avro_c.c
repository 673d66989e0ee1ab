/* Reads texts, a line of hexadecimal digits each, and prints for each whether avro-c accepts it.
   gcc -O2 -o target/avro_c docs/vectors/avro_c.c -lavro && python3 docs/vectors/avro_c.py target/avro_c */
#include <avro.h>
#include <stdio.h>
#include <stdlib.h>
#include <string.h>

static int digit(int c) { return c <= '9' ? c - '0' : c - 'a' + 10; }

int main(void) {
    char *line = NULL;
    size_t room = 0;
    while (getline(&line, &room, stdin) > 0) {
        size_t n = strcspn(line, "\n") / 2;
        if (line[0] == '-') n = 0;
        char *text = malloc(n + 1);
        for (size_t i = 0; i < n; i++) text[i] = (char)(digit(line[2 * i]) * 16 + digit(line[2 * i + 1]));
        avro_schema_t schema;
        int refused = avro_schema_from_json_length(text, n, &schema);
        puts(refused ? "refused" : "ok");
        fflush(stdout);
        if (!refused) avro_schema_decref(schema);
        free(text);
    }
    return 0;
}
