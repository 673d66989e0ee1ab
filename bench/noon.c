/* Thirty declarations of 0.5 to 2 KB, six modules from each of five compilers, opened and put into one set and fingerprinted, beside avro-c, where it is
   installed, reading the same texts one by one. */
#include <string.h>
#include "texts.h"
#include "timing.h"
#include "sets.h"
#ifdef AVRO
#include <avro.h>
#endif

enum { COMPILERS = 5, MODULES = 6, TEXTS = COMPILERS * MODULES, SHORTEST = 512, LONGEST = 2048 };

extern uint64_t bench_put(uint8_t *memory, size_t length, size_t place, const uint8_t *text, size_t text_length);
extern uint64_t bench_canonical(const uint8_t *memory, size_t length, size_t place, uint8_t *buffer, size_t room);
extern int64_t bench_fingerprint(const uint8_t *bytes, size_t length);

/* ---- the texts: in a form $ stands for the module's number, and % for more fields, of which later modules have more */

static const char *forms[COMPILERS] = {
    /* everything in one line */
    "{\"type\":\"record\",\"name\":\"Module$\",\"namespace\":\"link.summary.clang\",\"fields\":[{\"name\":\"path\",\"type\":\"string\"},"
    "{\"name\":\"hash\",\"type\":{\"type\":\"fixed\",\"name\":\"Hash$\",\"size\":20}},"
    "{\"name\":\"functions\",\"type\":{\"type\":\"array\",\"items\":{\"type\":\"record\",\"name\":\"Function$\",\"fields\":["
    "{\"name\":\"guid\",\"type\":\"long\"},{\"name\":\"linkage\",\"type\":{\"type\":\"enum\",\"name\":\"Linkage$\","
    "\"symbols\":[\"EXTERNAL\",\"WEAK\",\"INTERNAL\"]}},{\"name\":\"calls\",\"type\":{\"type\":\"array\",\"items\":\"long\"}},"
    "{\"name\":\"inlined\",\"type\":[\"null\",\"Function$\"]},{\"name\":\"body\",\"type\":[\"null\",\"Hash$\"]}]}}}%]}",
    /* one member a line, with docs */
    "{\n  \"type\": \"record\",\n  \"name\": \"Crate$\",\n  \"namespace\": \"link.summary.rustc\",\n"
    "  \"doc\": \"what a crate gives to the linker\",\n  \"fields\": [\n"
    "    {\"name\": \"name\", \"type\": \"string\", \"doc\": \"as cargo knows it\"},\n"
    "    {\"name\": \"edition\", \"type\": {\"type\": \"enum\", \"name\": \"Edition$\", \"symbols\": [\"E2018\", \"E2021\", \"E2024\"]}},\n"
    "    {\"name\": \"items\", \"doc\": \"by their path\", \"type\": {\"type\": \"map\", \"values\": {\n"
    "      \"type\": \"record\", \"name\": \"Item$\", \"fields\": [\n"
    "        {\"name\": \"mangled\", \"type\": \"string\"},\n        {\"name\": \"size\", \"type\": \"int\", \"doc\": \"in instructions\"},\n"
    "        {\"name\": \"parent\", \"type\": [\"null\", \"Item$\"], \"doc\": \"the item that it stands in\"}\n      ]\n    }}},\n"
    "    {\"name\": \"features\", \"type\": {\"type\": \"array\", \"items\": \"string\"}}%\n  ]\n}\n",
    /* aliases, and full names */
    "{\"name\":\"link.summary.ghc.Interface$\",\"type\":\"record\",\"doc\":\"an interface file\","
    "\"aliases\":[\"Iface$\",\"link.summary.ghc.old.Interface$\"],\"fields\":["
    "{\"name\":\"exports\",\"type\":{\"type\":\"array\",\"items\":{\"name\":\"link.summary.ghc.Export$\",\"type\":\"record\",\"fields\":["
    "{\"name\":\"unique\",\"aliases\":[\"key\"],\"type\":\"long\"},{\"name\":\"arity\",\"type\":\"int\"},"
    "{\"name\":\"strict\",\"type\":{\"type\":\"array\",\"items\":\"boolean\"}}]}}},"
    "{\"name\":\"unfolding\",\"aliases\":[\"inline_body\"],\"type\":[\"null\",\"bytes\",\"link.summary.ghc.Export$\"]},"
    "{\"name\":\"orphans\",\"type\":{\"type\":\"map\",\"values\":\"link.summary.ghc.Export$\"}}%]}",
    /* namespaces inside, and unions */
    "{\"type\": \"record\", \"name\": \"Package$\", \"namespace\": \"link.summary.swiftc\", \"fields\": ["
    "{\"name\": \"module\", \"type\": \"string\"}, "
    "{\"name\": \"location\", \"type\": {\"type\": \"record\", \"name\": \"Location$\", \"namespace\": \"link.summary.swiftc.source\", \"fields\": ["
    "{\"name\": \"file\", \"type\": \"string\"}, {\"name\": \"line\", \"type\": \"int\"}, {\"name\": \"outer\", \"type\": [\"null\", \"Location$\"]}]}}, "
    "{\"name\": \"witness\", \"type\": [\"null\", \"long\", {\"type\": \"record\", \"name\": \"Table$\", \"fields\": ["
    "{\"name\": \"entries\", \"type\": {\"type\": \"array\", \"items\": [\"null\", \"string\"]}}, "
    "{\"name\": \"at\", \"type\": \"link.summary.swiftc.source.Location$\"}]}]}%]}",
    /* nested maps and arrays, a decimal, tabs */
    "{\n\t\"type\": \"record\", \"name\": \"Unit$\", \"namespace\": \"link.summary.gc\",\n"
    "\t\"doc\": \"one compiled package, as the archive keeps it\",\n\t\"fields\": [\n"
    "\t\t{\"name\": \"imports\", \"type\": {\"type\": \"map\", \"values\": {\"type\": \"array\", \"items\": \"string\"}}},\n"
    "\t\t{\"name\": \"weight\", \"type\": {\"type\": \"bytes\", \"logicalType\": \"decimal\", \"precision\": 9, \"scale\": 2}},\n"
    "\t\t{\"name\": \"symbols\", \"type\": {\"type\": \"array\", \"items\": {\"type\": \"record\", \"name\": \"Symbol$\", \"fields\": [\n"
    "\t\t\t{\"name\": \"name\", \"type\": \"string\"},\n\t\t\t{\"name\": \"kind\", \"type\": {\"type\": \"enum\", \"name\": \"Kind$\", \"symbols\": "
    "[\"TEXT\", \"DATA\", \"BSS\", \"UNDEFINED\"]}},\n\t\t\t{\"name\": \"relocations\", \"type\": {\"type\": \"array\", \"items\": \"int\"}}\n\t\t]}}},\n"
    "\t\t{\"name\": \"entry\", \"type\": [\"null\", \"Symbol$\"]}%\n\t]\n}\n",
};

static uint8_t texts[TEXTS * LONGEST];
static size_t starts[TEXTS + 1];

static void more_fields(struct text *t, unsigned n) {
    static const char *types[] = {"\"long\"", "[\"null\",\"string\"]", "\"double\"", "{\"type\":\"array\",\"items\":\"int\"}"};
    for (unsigned i = 0; i < n; i++) {
        char field[200];
        sprintf(field, ",{\"name\":\"instructions_after_pass_%u\",\"type\":%s,\"doc\":\"what is left behind pass %u, as the optimiser counts it\"}",
                i, types[i % 4], i);
        put(t, field, 0);
    }
}

/* The text of a module from a form. */
static size_t make(uint8_t *out, const char *form, unsigned module) {
    struct text t = {(char *)out, 0, LONGEST};
    for (; *form; form++) {
        char piece[8];
        if (*form == '%') {
            more_fields(&t, module + module / 4);
            continue;
        }
        if (*form == '$') sprintf(piece, "%u", module);
        else sprintf(piece, "%c", *form);
        put(&t, piece, 0);
    }
    return t.length;
}

/* All texts, one behind the other, the modules of the compilers in turn. */
static size_t make_all(void) {
    for (unsigned i = 0; i < TEXTS; i++) {
        size_t n = make(texts + starts[i], forms[i % COMPILERS], i / COMPILERS);
        if (n < SHORTEST || n >= LONGEST) printf("text %u has %zu bytes\n", i, n);
        starts[i + 1] = starts[i] + n;
    }
    return starts[TEXTS];
}

/* ---- the work */

static uint8_t memory[LENGTH];

/* The rows of the set, 0 where a text is refused. */
static uint64_t put_all(const uint8_t *bytes, size_t length) {
    uint64_t rows = 0;
    (void)length;
    memset(memory, 0, LENGTH);
    for (unsigned i = 0; i < TEXTS; i++) {
        rows = bench_put(memory, LENGTH, i, bytes + starts[i], starts[i + 1] - starts[i]);
        if (!rows) return 0;
    }
    return rows;
}

static uint64_t fingerprinted(const uint8_t *bytes, size_t length) {
    static uint8_t canonical[82000];
    uint64_t all = put_all(bytes, length);
    for (unsigned i = 0; i < TEXTS; i++) {
        size_t n = bench_canonical(memory, LENGTH, i, canonical, sizeof canonical);
        all ^= (uint64_t)bench_fingerprint(canonical, n);
    }
    return all;
}

#ifdef AVRO
/* How many texts it reads. */
static uint64_t avro_c(const uint8_t *bytes, size_t length) {
    uint64_t read = 0;
    (void)length;
    for (unsigned i = 0; i < TEXTS; i++) {
        avro_schema_t schema;
        if (avro_schema_from_json_length((const char *)bytes + starts[i], starts[i + 1] - starts[i], &schema)) continue;
        avro_schema_decref(schema);
        read++;
    }
    return read;
}
#endif

static void best_of(double *best, work f, size_t length, int times) {
    double t = nanoseconds(f, texts, length, times);
    if (t < *best) *best = t;
}

/* The best of 15 rounds, in turns. */
static void measure(const char *name, work ours, size_t length) {
    double best = 1e18;
    int times = calls(ours, texts, length);
#ifdef AVRO
    double theirs = 1e18;
    int their_times = calls(avro_c, texts, length);
#endif
    for (int round = 0; round < 15; round++) {
        best_of(&best, ours, length, times);
#ifdef AVRO
        best_of(&theirs, avro_c, length, their_times);
#endif
    }
    printf("%-40s ours %8.1f microseconds", name, best / 1000);
#ifdef AVRO
    printf("  avro-c %8.1f microseconds  ratio %6.2f", theirs / 1000, best / theirs);
#endif
    printf("\n");
}

int main(void) {
    size_t length = make_all();
    uint64_t rows = put_all(texts, length);
    printf("noon: %d texts, %zu bytes, %llu rows\n", TEXTS, length, (unsigned long long)rows);
    if (!rows) {
        printf("a text is refused\n");
        return 1;
    }
#ifdef AVRO
    if (avro_c(texts, length) != TEXTS) printf("avro-c refuses a text\n");
#endif
    measure("opened and put", put_all, length);
    measure("opened, put and fingerprinted", fingerprinted, length);
    return 0;
}
