/* Runs the check over the refusals and acceptances of document 01 and over many more, and compares. With a directory as its argument it
 * also writes each description to a file there, named NUMBER-REFUSAL-NODE, for the program to be run over. */
#include "block.h"
#include "rippleshrug.h"

#include <stdio.h>
#include <stdlib.h>
#include <string.h>

struct expected {
    const char *bytes; /* in hex */
    unsigned refusal, node;
};

/* Operands: a constant, the number bound by the k-th enclosing bind. */
#define CONSTANT "00 00 00 00 07 "
#define BOUND(k) "01 00 00 00 " k " "
/* A compute of 8 bits with the operand and a constant. */
#define COMPUTE(x) "0A 08 00 " x CONSTANT

static const struct expected cases[] = {
    /* 01's own */
    {"02 10 02 10 0A 10 01 01 00 00 00 00 01 00 00 00 01 05 01 02 05 00 03", 0, 0},
    {"02 08 08 00 00 00 00 00 00 2A 02 04 06 01 02", 0, 0},
    {"02 05 00 01 09 00 01 02 00 FF FF FF FF", 0, 0},
    {"02 08 08 00 00 00 00 00 00 2A 0C 01", 0, 0},
    {"03 08", 0, 0},
    {"02 20", 0, 0},
    {"02 21", 5, 0},
    {"00 00", 9, 0},
    {"00 04 00 00", 7, 1},
    {"0B 00", 6, 0},

    /* accepted: each kind, the ends of what is listed */
    {"00", 0, 0},
    {"01", 0, 0},
    {"02 01", 0, 0},
    {"03 10", 0, 0},
    {"03 20", 0, 0},
    {"00 01 04 00 01", 0, 0},
    {"00 01 04 01 00", 0, 0},
    {"02 01 00 05 00 01", 0, 0},
    {"00 00 06 00 01", 0, 0},
    {"00 00 07 00 01", 0, 0},
    {"02 08 08 00 05 " CONSTANT, 0, 0},
    {"02 08 08 00 00 " CONSTANT "08 01 01 " CONSTANT, 0, 0},
    {"00 00 00 09 02 01 00 " CONSTANT, 0, 0},
    {"0A 20 01 " CONSTANT CONSTANT, 0, 0},
    {"0A 01 00 00 FF FF FF FF 00 80 00 00 00", 0, 0},
    {"00 0B 00 0C 01", 0, 0},
    {COMPUTE(CONSTANT) "00 05 00 01", 0, 0},
    {"03 08 08 00 00 " CONSTANT "00 05 01 02", 0, 0},
    {"02 08 " COMPUTE(BOUND("00")) "05 00 01", 0, 0},
    {"02 08 00 00 00 09 01 02 03 " BOUND("00") "05 00 04", 0, 0},
    {"02 08 02 08 08 01 00 " BOUND("00") "05 00 02", 0, 0},

    /* 2: unknown kind */
    {"0D", 2, 0},
    {"FF", 2, 0},
    {"00 0D", 2, 1},
    {"02 08 80", 2, 1},
    {"00 0B 00 10 00", 2, 2},

    /* 3: body cut short, for each length of body */
    {"02", 3, 0},
    {"03", 3, 0},
    {"04", 3, 0},
    {"00 00 05 00", 3, 2},
    {"00 00 06", 3, 2},
    {"00 00 07 00", 3, 2},
    {"02 08 08 00 00 00 00 00 00", 3, 1},
    {"02 08 08", 3, 1},
    {"00 00 00 09 00 01 02 00 00 00 00", 3, 3},
    {"0A 08 00 00 00 00 00 00 00 00 00 00", 3, 0},
    {"0B", 3, 0},
    {"00 0C", 3, 1},

    /* 5: width, relation, operator, operand */
    {"02 00", 5, 0},
    {"02 FF", 5, 0},
    {"03 00", 5, 0},
    {"03 07", 5, 0},
    {"03 18", 5, 0},
    {"03 21", 5, 0},
    {"02 08 08 00 06 " CONSTANT, 5, 1},
    {"02 08 08 00 FF " CONSTANT, 5, 1},
    {"02 08 08 00 00 02 00 00 00 00", 5, 1},
    {"02 08 08 00 00 FF 00 00 00 00", 5, 1},
    {"02 08 08 00 00 01 01 00 00 00", 5, 1},
    {"02 08 08 00 00 01 00 01 00 00", 5, 1},
    {"02 08 08 00 00 01 00 00 01 00", 5, 1},
    {"00 00 00 09 00 01 02 01 80 00 00 00", 5, 3},
    {"00 00 00 09 00 01 02 03 00 00 00 00", 5, 3},
    {"0A 00 00 " CONSTANT CONSTANT, 5, 0},
    {"0A 21 00 " CONSTANT CONSTANT, 5, 0},
    {"0A 08 02 " CONSTANT CONSTANT, 5, 0},
    {"0A 08 00 04 00 00 00 00 " CONSTANT, 5, 0},
    {"0A 08 00 " CONSTANT "01 00 00 02 00", 5, 0},

    /* 6: child not smaller, the node itself among them */
    {"0C 00", 6, 0},
    {"04 00 00", 6, 0},
    {"00 04 00 01", 6, 1},
    {"00 04 01 00", 6, 1},
    {"00 00 06 00 FF", 6, 2},
    {"02 08 08 01 00 " CONSTANT, 6, 1},
    {"02 08 05 00 01", 6, 1},
    {"00 00 09 00 01 02 " CONSTANT, 6, 2},
    {"00 00 09 40 01 00 " CONSTANT, 6, 2},
    {"00 0B 02", 6, 1},

    /* 7: named before, and twice in one node */
    {"00 0B 00 0B 00", 7, 2},
    {"00 00 04 00 01 06 00 02", 7, 3},
    {"00 00 09 00 01 01 " CONSTANT, 7, 2},
    {"00 00 09 00 01 00 " CONSTANT, 7, 2},
    {"02 08 05 00 00", 7, 1},
    {"02 08 08 00 00 " CONSTANT "08 00 00 " CONSTANT, 7, 2},

    /* 8: a number node is wanted */
    {"00 00 05 00 01", 8, 2},
    {"01 02 08 05 00 01", 8, 2},
    {"00 00 04 00 01 00 05 02 03", 8, 4},
    {"00 08 00 00 " CONSTANT, 8, 1},
    {"02 08 0B 00 08 01 00 " CONSTANT, 8, 2},
    {"02 08 00 05 00 01 08 02 00 " CONSTANT, 8, 3},

    /* 9: never named, the lowest */
    {"00 00 0B 01", 9, 0},
    {"00 00 00 04 00 02", 9, 1},
    {"00 00 00 00 04 01 03", 9, 0},
    {"02 08 02 08 02 08 0B 01 04 00 03", 9, 2},

    /* 10: no enclosing bind */
    {COMPUTE(BOUND("00")), 10, 0},
    {"0A 08 00 " CONSTANT BOUND("00"), 10, 0},
    {COMPUTE(BOUND("FF")), 10, 0},
    {"02 08 08 00 00 " BOUND("00"), 10, 1},
    {"00 00 00 09 00 01 02 " BOUND("00"), 10, 3},
    {"02 08 " COMPUTE(BOUND("01")) "05 00 01", 10, 2},
    {COMPUTE(BOUND("00")) "00 05 00 01", 10, 2},
    {"02 08 08 00 00 " BOUND("00") "00 05 01 02", 10, 3},
    {"02 08 02 08 " COMPUTE(BOUND("01")) "05 01 02 05 00 03", 0, 0},
    {"02 08 02 08 " COMPUTE(BOUND("02")) "05 01 02 05 00 03", 10, 4},
    {"02 08 " COMPUTE(BOUND("00")) "00 05 01 02 05 00 03", 0, 0},
    {"02 08 " COMPUTE(BOUND("01")) "00 05 01 02 05 00 03", 10, 4},

    /* the order: the earlier node first, and at one node 2, 3, 5, 6, 7, 8; then 9 before 10 */
    {"00 0B 01 0D", 6, 1},
    {"0A 21", 3, 0},
    {"02 08 08 01", 3, 1},
    {"02 08 08 01 06 " CONSTANT, 5, 1},
    {"00 08 00 06 " CONSTANT, 5, 1},
    {"00 0B 00 04 00 02", 6, 2},
    {"00 05 01 01", 6, 1},
    {"00 0B 00 05 00 00", 7, 2},
    {"00 00 00 05 00 01", 8, 3},
    {"00 " COMPUTE(BOUND("00")), 9, 0},
};

static unsigned failures, compared;
static const char *directory;

static void write_file(const uint8_t *desc, size_t length, unsigned refusal, unsigned node) {
    char name[1000];
    FILE *file;
    snprintf(name, sizeof name, "%s/%03u-%u-%u", directory, compared, refusal, node);
    file = fopen(name, "wb");
    if (file == NULL || (length > 0 && fwrite(desc, 1, length, file) != length) || fclose(file) != 0) {
        perror(name);
        exit(2);
    }
}

static void compare(const char *what, const uint8_t *desc, size_t length, unsigned refusal, unsigned node) {
    uint8_t *block = desc == NULL ? NULL : (uint8_t *)block_of(desc, length);
    uint32_t answer = rippleshrug_check(block, length);
    free(block);
    compared++;
    if (directory != NULL) write_file(desc, desc == NULL ? 0 : length, refusal, node);
    if (answer == refusal + 256 * node) return;
    failures++;
    fprintf(stderr, "host: %s: %u with node %u was expected, and the answer is %u with node %u\n", what, refusal, node, (unsigned)rippleshrug_refusal_of(answer),
            rippleshrug_node_of(answer));
}

/* The bytes that stand in hex. */
static void compare_hex(const struct expected *e) {
    static uint8_t desc[2000];
    size_t length = 0;
    const char *at = e->bytes;
    unsigned byte;
    int used;
    while (sscanf(at, "%2x%n", &byte, &used) == 1) {
        if (length == sizeof desc) abort();
        desc[length++] = (uint8_t)byte;
        at += used;
    }
    compare(e->bytes, desc, length, e->refusal, e->node);
}

/* One byte over and over. */
static void compare_repeated(const char *what, uint8_t byte, size_t length, unsigned refusal, unsigned node) {
    static uint8_t desc[2000];
    memset(desc, byte, length);
    compare(what, desc, length, refusal, node);
}

static uint8_t built[2000];
static size_t built_length;

static void put(const char *bytes, size_t length) {
    memcpy(built + built_length, bytes, length);
    built_length += length;
}

/* 43 computes that 21 sequences join: 64 nodes and 748 bytes, the longest description that is accepted. */
static void build_longest(void) {
    uint8_t next = 43, child = 0;
    built_length = 0;
    while (child < 43) {
        put("\x0A\x20\x00\x00\x00\x00\x00\x01\x00\x00\x00\x00\x02", 13);
        child++;
    }
    for (child = 0; next < 64; next++, child = (uint8_t)(child + 3)) {
        char sequence[9] = {9, (char)child, (char)(child + 1), (char)(child + 2), 0, 0, 0, 0, 1};
        put(sequence, 9);
    }
}

/* As many nodes of 8 bits, a compute that takes the number of the bind that is k outward, and as many binds around it. */
static void build_binds(unsigned binds, uint8_t k) {
    char compute[13] = {10, 8, 0, 1, 0, 0, 0, (char)k, 0, 0, 0, 0, 0};
    unsigned n;
    built_length = 0;
    for (n = 0; n < binds; n++) put("\x02\x08", 2);
    put(compute, 13);
    for (n = 0; n < binds; n++) {
        char bind[3] = {5, (char)(binds - 1 - n), (char)(binds + n)};
        put(bind, 3);
    }
}

static void compare_built(void) {
    build_longest();
    compare("748 bytes, 64 nodes", built, built_length, 0, 0);
    compare("748 bytes, the last cut off", built, built_length - 1, 3, 63);
    put("\x00", 1);
    compare("64 nodes and a unit", built, built_length, 4, 64);
    built[built_length - 1] = 0x0D;
    compare("64 nodes and an unknown kind", built, built_length, 4, 64);
    build_binds(31, 30);
    compare("31 binds, the outermost named", built, built_length, 0, 0);
    put("\x0B\x3E", 2);
    compare("31 binds in an absorb, 64 nodes", built, built_length, 0, 0);
    build_binds(31, 31);
    compare("31 binds, one more named", built, built_length, 10, 62);
    build_binds(32, 0);
    compare("32 binds", built, built_length, 4, 64);
}

int main(int argc, char **argv) {
    size_t n;
    if (argc > 1) directory = argv[1];
    for (n = 0; n < sizeof cases / sizeof *cases; n++) compare_hex(&cases[n]);
    compare("a null pointer", NULL, 0, 1, 0);
    compare("a null pointer with a length", NULL, 2, 1, 0);
    compare_repeated("no bytes", 0, 0, 1, 0);
    compare_repeated("64 units", 0x00, 64, 9, 0);
    compare_repeated("65 units", 0x00, 65, 4, 64);
    compare_repeated("1,024 units", 0x00, 1024, 4, 64);
    compare_repeated("1,024 bytes of an unknown kind", 0xFF, 1024, 2, 0);
    compare_repeated("1,025 units", 0x00, 1025, 1, 0);
    compare_repeated("1,025 bytes of an unknown kind", 0xFF, 1025, 1, 0);
    compare_repeated("2,000 bytes", 0x02, 2000, 1, 0);
    compare_built();
    printf("host: %u descriptions checked, %u answered wrongly\n", compared, failures);
    return failures == 0 ? 0 : 1;
}
