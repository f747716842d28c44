/* Calls the writer as a host does: document 01's case A written back, numbers at the ends of their widths, each refusal over a buffer that held other
 * bytes, and null pointers for nothing.
 * `write_test beside 0|1|2` makes one call whose description, table or buffer is a block shorter than is said: what watches memory has to find
 * that. */
#include "block.h"
#include "rippleshrug.h"

#include <stdio.h>
#include <stdlib.h>
#include <string.h>

static unsigned made;

static void expect(int holds, const char *what) {
    made++;
    if (!holds) {
        fprintf(stderr, "write_test: not so: %s\n", what);
        exit(1);
    }
}

#define EXPECT(holds) expect(holds, #holds)

enum { MOST_SPACE = 8200 };

/* What the last call answered, and the buffer that it left: a block of its own, filled with rubbish before each call. */
static struct rippleshrug_written said;
static uint8_t *buffer;
static size_t space;

static void lend(size_t bytes) {
    static uint8_t rubbish[MOST_SPACE];
    memset(rubbish, 0xA5, sizeof rubbish);
    free(buffer);
    buffer = (uint8_t *)block_of(rubbish, bytes);
    space = bytes;
}

/* A description and a value table. */
struct given {
    const uint8_t *desc;
    size_t length;
    const uint32_t *values;
    size_t words;
};

#define LENGTH(array) (sizeof(array) / sizeof((array)[0]))

static struct given table(const uint8_t *desc, size_t length, const uint32_t *values, size_t words) {
    struct given g;
    g.desc = desc;
    g.length = length;
    g.values = values;
    g.words = words;
    return g;
}

#define TABLE(desc, values) table(desc, sizeof(desc), values, LENGTH(values))

static void write_back(struct given g, size_t count, size_t bytes) {
    uint8_t *desc = g.desc == NULL ? NULL : (uint8_t *)block_of(g.desc, g.length);
    uint32_t *values = g.values == NULL ? NULL : (uint32_t *)block_of(g.values, g.words * sizeof g.values[0]);
    lend(bytes);
    said = rippleshrug_write(desc, g.length, values, g.words, count, buffer, bytes);
    free(desc);
    free(values);
}

/* So many bits were written: those bytes, and 0 after them. */
static int left(uint32_t bits, const char *bytes) {
    size_t i, length = ((size_t)bits + 7) / 8;
    if (said.refusal != RIPPLESHRUG_ACCEPTED || said.node != 0 || said.bits != bits || length > space) return 0;
    if (length > 0 && memcmp(buffer, bytes, length) != 0) return 0;
    for (i = length; i < space; i++)
        if (buffer[i] != 0) return 0;
    return 1;
}

/* It was refused, and every byte is 0. */
static int refused(enum rippleshrug_refusal refusal, uint32_t node) {
    size_t i;
    if (said.refusal != (uint32_t)refusal || said.node != node || said.bits != 0) return 0;
    for (i = 0; i < space; i++)
        if (buffer[i] != 0) return 0;
    return 1;
}

static int writes(struct given g, size_t count, size_t bytes, uint32_t bits, const char *expected) {
    write_back(g, count, bytes);
    return left(bits, expected);
}

static int refuses(struct given g, size_t count, size_t bytes, enum rippleshrug_refusal refusal, uint32_t node) {
    write_back(g, count, bytes);
    return refused(refusal, node);
}

static const uint8_t counters[] = {
    0x02, 0x10, 0x02, 0x10, 0x0A, 0x10, 0x01, 0x01, 0, 0, 0, 0, 0x01, 0, 0, 0, 0x01, 0x05, 0x01, 0x02, 0x05, 0x00, 0x03};
static const uint32_t turned[] = {4, 0, 0, 5, 0, 65530, 0, 1, 3, 0, 0, 3, 1, 4, 0, 1, 2, 10, 0, 1};

/* What the reader left, written back: the input up to the root's end, and zeros behind it. Over three bytes the second counter fails: its number
 * is 0, and that is written. */
static void test_case_a(void) {
    static const uint8_t input[] = {0xFF, 0xFA, 0x00, 0x04, 0x99};
    uint32_t values[22], descriptors[22];
    struct rippleshrug_answer answer = rippleshrug_read(counters, sizeof counters, input, sizeof input, values, 22, descriptors, 22);
    EXPECT(answer.count == 5 && memcmp(values, turned, sizeof turned) == 0);
    EXPECT(writes(TABLE(counters, values), answer.count, 4, answer.end, "\xFF\xFA\x00\x04"));
    EXPECT(writes(TABLE(counters, values), answer.count, 9, 32, "\xFF\xFA\x00\x04"));
    EXPECT(writes(TABLE(counters, values), 3, 4, 16, "\xFF\xFA"));
    answer = rippleshrug_read(counters, sizeof counters, input, 3, values, 22, descriptors, 22);
    EXPECT(answer.end == 16 && writes(TABLE(counters, values), answer.count, 4, 32, "\xFF\xFA\x00\x00"));
}

/* The number of a then or a where, every detail and size, and all that stands after the count may be anything. */
static void test_padding(void) {
    static const uint8_t five[] = {0x02, 0x05}, pair[] = {0x02, 0x05, 0x02, 0x0C, 0x04, 0x00, 0x01};
    static const uint8_t mark[] = {0x02, 0x07, 0x08, 0x00, 0x00, 0x00, 0x00, 0x00, 0x00, 0x2A};
    static const uint32_t all[] = {0, 31, 9, 9}, both[] = {2, 0xFFFFFFFFu, 7, 0, 0, 31, 0, 77, 1, 0x801, 0, 0xFFFFFFFFu};
    static const uint32_t where[] = {1, 0xFFFFFFFFu, 0, 2, 0, 42, 0, 1, 64, 0xFFFFFFFFu, 5, 5};
    EXPECT(writes(TABLE(five, all), 1, 1, 5, "\xF8"));
    EXPECT(writes(TABLE(pair, both), 3, 3, 17, "\xFC\x00\x80"));
    EXPECT(writes(TABLE(mark, where), 2, 2, 7, "\x54"));
    EXPECT(writes(TABLE(mark, where), 0, 2, 0, "") && writes(TABLE(mark, where), 0, 0, 0, ""));
}

/* One number, of a bits or signed node. */
static struct given number(uint8_t kind, uint8_t width, uint32_t word) {
    static uint8_t desc[2];
    static uint32_t values[4];
    desc[0] = kind;
    desc[1] = width;
    values[1] = word;
    return TABLE(desc, values);
}

enum { BITS = 2, SIGNED = 3 };

static void test_widths(void) {
    EXPECT(writes(number(BITS, 1, 1), 1, 1, 1, "\x80") && refuses(number(BITS, 1, 2), 1, 1, RIPPLESHRUG_WRONG_TABLE, 0));
    EXPECT(writes(number(BITS, 16, 65535), 1, 2, 16, "\xFF\xFF") && refuses(number(BITS, 16, 65536), 1, 2, RIPPLESHRUG_WRONG_TABLE, 0));
    EXPECT(writes(number(BITS, 31, 0x7FFFFFFFu), 1, 4, 31, "\xFF\xFF\xFF\xFE"));
    EXPECT(refuses(number(BITS, 31, 0x80000000u), 1, 4, RIPPLESHRUG_WRONG_TABLE, 0));
    EXPECT(writes(number(BITS, 32, 0xFFFFFFFEu), 1, 4, 32, "\xFF\xFF\xFF\xFE"));
    EXPECT(writes(number(SIGNED, 8, 127), 1, 1, 8, "\x7F") && refuses(number(SIGNED, 8, 128), 1, 1, RIPPLESHRUG_WRONG_TABLE, 0));
    EXPECT(writes(number(SIGNED, 8, 0xFFFFFF80u), 1, 1, 8, "\x80") && refuses(number(SIGNED, 8, 0xFFFFFF7Fu), 1, 1, RIPPLESHRUG_WRONG_TABLE, 0));
    EXPECT(writes(number(SIGNED, 16, 0xFFFFFFCEu), 1, 2, 16, "\xFF\xCE"));
    EXPECT(refuses(number(SIGNED, 16, 0xFFCEu), 1, 2, RIPPLESHRUG_WRONG_TABLE, 0));
    EXPECT(refuses(number(SIGNED, 16, 0x1FFCEu), 1, 2, RIPPLESHRUG_WRONG_TABLE, 0));
    EXPECT(writes(number(SIGNED, 32, 0x80000000u), 1, 4, 32, "\x80\x00\x00\x00") && writes(number(SIGNED, 32, 5), 1, 4, 32, "\x00\x00\x00\x05"));
}

/* 1 to 10 with their nodes, then 14, whatever the table and the buffer are. */
static void test_descriptions(void) {
    static const uint8_t wide[] = {0x02, 0x21}, twice[] = {0x00, 0x0C, 0x00, 0x0B, 0x00}, unnamed[] = {0x00, 0x00, 0x0C, 0x01};
    static const uint8_t both[] = {0x02, 0x08, 0x00, 0x07, 0x00, 0x01}, absorb[] = {0x02, 0x08, 0x0B, 0x00}, scan[] = {0x02, 0x08, 0x0C, 0x00};
    static const uint8_t aside[] = {0x02, 0x08, 0x00, 0x0C, 0x01, 0x06, 0x00, 0x02};
    static const uint32_t one[] = {0, 1, 0, 1}, wrong[] = {64, 256, 0, 1};
    EXPECT(refuses(TABLE(wide, one), 1, 9, RIPPLESHRUG_NOT_LISTED, 0));
    EXPECT(refuses(TABLE(twice, wrong), 9, 0, RIPPLESHRUG_CHILD_NAMED_BEFORE, 2));
    EXPECT(refuses(TABLE(unnamed, one), 1, 9, RIPPLESHRUG_NEVER_NAMED, 0));
    EXPECT(refuses(TABLE(both, one), 1, 9, RIPPLESHRUG_NOT_WRITABLE, 0));
    EXPECT(refuses(TABLE(absorb, one), 1, 9, RIPPLESHRUG_NOT_WRITABLE, 0));
    EXPECT(refuses(TABLE(scan, one), 1, 9, RIPPLESHRUG_NOT_WRITABLE, 0));
    EXPECT(refuses(TABLE(aside, one), 1, 9, RIPPLESHRUG_NOT_WRITABLE, 0) && refuses(TABLE(aside, one), 0, 9, RIPPLESHRUG_NOT_WRITABLE, 0));
    EXPECT(refuses(TABLE(scan, wrong), 2, 0, RIPPLESHRUG_NOT_WRITABLE, 0));
}

/* 15: a count that the table does not hold, and nodes that are not there, the last of them too. */
static void test_tables(void) {
    static const uint32_t next[] = {5, 0, 0, 1}, far[] = {256, 1, 0, 1}, farthest[] = {0, 1, 0, 1, 0xFFFFFFFFu, 0, 0, 1};
    struct given a = TABLE(counters, turned);
    EXPECT(refuses(a, 6, 9, RIPPLESHRUG_WRONG_TABLE, 0));
    EXPECT(refuses(a, (size_t)-1, 9, RIPPLESHRUG_WRONG_TABLE, 0) && refuses(a, (size_t)-1 / 4 + 2, 9, RIPPLESHRUG_WRONG_TABLE, 0));
    a.words = 19;
    EXPECT(refuses(a, 5, 9, RIPPLESHRUG_WRONG_TABLE, 0) && writes(a, 4, 9, 32, "\xFF\xFA\x00\x04"));
    EXPECT(refuses(TABLE(counters, next), 1, 9, RIPPLESHRUG_WRONG_TABLE, 0) && refuses(TABLE(counters, far), 1, 9, RIPPLESHRUG_WRONG_TABLE, 0));
    EXPECT(refuses(TABLE(counters, farthest), 2, 9, RIPPLESHRUG_WRONG_TABLE, 0) && writes(TABLE(counters, farthest), 1, 2, 16, "\x00\x01"));
}

/* Words of 32 bits, then some of one: `wide` of the first, `count` in all. More entries than the reader gives are no fault. */
static struct given many(size_t wide, size_t count) {
    static const uint8_t desc[] = {0x02, 0x20, 0x02, 0x01, 0x00, 0x04, 0x01, 0x02, 0x04, 0x00, 0x03};
    static uint32_t values[4 * 70000];
    size_t i;
    memset(values, 0, sizeof values);
    for (i = wide; i < count; i++) values[4 * i] = 1;
    for (i = count; i < 70000; i++) values[4 * i] = 2;
    return TABLE(desc, values);
}

/* 16, after 15 of whichever entry. */
static void test_space(void) {
    static const uint8_t pair[] = {0x02, 0x08, 0x02, 0x09, 0x04, 0x00, 0x01};
    static const uint32_t full[] = {0, 255, 0, 1, 1, 511, 0, 1}, wide[] = {0, 255, 0, 1, 1, 512, 0, 1}, lost[] = {0, 255, 0, 1, 3, 0, 0, 1};
    static char zeros[8191];
    EXPECT(refuses(TABLE(counters, turned), 5, 3, RIPPLESHRUG_NO_SPACE, 0) && refuses(TABLE(counters, turned), 5, 0, RIPPLESHRUG_NO_SPACE, 0));
    EXPECT(writes(TABLE(pair, full), 2, 3, 17, "\xFF\xFF\x80") && refuses(TABLE(pair, full), 2, 2, RIPPLESHRUG_NO_SPACE, 0));
    EXPECT(refuses(TABLE(pair, wide), 2, 0, RIPPLESHRUG_WRONG_TABLE, 0) && refuses(TABLE(pair, lost), 2, 0, RIPPLESHRUG_WRONG_TABLE, 0));
    EXPECT(writes(many(2047, 2071), 2071, 8191, 65528, zeros) && writes(many(2047, 2071), 70000, 8200, 65528, zeros));
    EXPECT(refuses(many(2047, 2072), 2072, 8192, RIPPLESHRUG_NO_SPACE, 0) && refuses(many(2048, 2048), 2048, 8200, RIPPLESHRUG_NO_SPACE, 0));
}

/* Null is nothing, whatever length stands beside it. */
static void test_nothing(void) {
    struct given a = TABLE(counters, turned);
    EXPECT(refuses(table(NULL, 9, turned, 20), 5, 9, RIPPLESHRUG_EMPTY_OR_TOO_LONG, 0));
    EXPECT(refuses(table(counters, 0, turned, 20), 5, 9, RIPPLESHRUG_EMPTY_OR_TOO_LONG, 0));
    EXPECT(refuses(table(counters, sizeof counters, NULL, 20), 1, 9, RIPPLESHRUG_WRONG_TABLE, 0));
    EXPECT(writes(table(counters, sizeof counters, NULL, 20), 0, 9, 0, ""));
    lend(0);
    said = rippleshrug_write(a.desc, a.length, a.values, a.words, 5, NULL, 9);
    EXPECT(refused(RIPPLESHRUG_NO_SPACE, 0));
    said = rippleshrug_write(a.desc, a.length, a.values, a.words, 1, NULL, 9);
    EXPECT(left(0, ""));
    said = rippleshrug_write(NULL, 0, NULL, 0, 0, NULL, 0);
    EXPECT(refused(RIPPLESHRUG_EMPTY_OR_TOO_LONG, 0));
}

/* The first four entries of case A, with one of the three blocks shorter than it is said to be: by a byte, or by the last number and what follows. */
static void lend_too_little(char which) {
    uint8_t *desc = (uint8_t *)block_of(counters, sizeof counters - (which == '0'));
    uint32_t *values = (uint32_t *)block_of(turned, (16 - 3 * (which == '1')) * sizeof turned[0]);
    lend(4 - (which == '2'));
    rippleshrug_write_slices(desc, sizeof counters, values, 16, 4, buffer, 4);
    free(desc);
    free(values);
}

/* The smallest description for each refusal of docs/DESCRIBING.md that is the writer's alone. */
static void test_smallest(void) {
    static const uint8_t absorb[] = {0x00, 0x0B, 0x00}, unit[] = {0x00}, bit[] = {0x02, 0x01};
    static const uint32_t zeros[4] = {0, 0, 0, 0};
    EXPECT(refuses(TABLE(absorb, zeros), 0, 0, RIPPLESHRUG_NOT_WRITABLE, 0));
    EXPECT(refuses(table(unit, 1, zeros, 3), 1, 0, RIPPLESHRUG_WRONG_TABLE, 0));
    EXPECT(refuses(TABLE(bit, zeros), 1, 0, RIPPLESHRUG_NO_SPACE, 0));
}

int main(int argc, char **argv) {
    if (argc == 3 && strcmp(argv[1], "beside") == 0) {
        lend_too_little(argv[2][0]);
        free(buffer);
        return 0;
    }
    test_case_a();
    test_padding();
    test_widths();
    test_descriptions();
    test_tables();
    test_space();
    test_nothing();
    test_smallest();
    free(buffer);
    printf("host: the writer, called by its header, is right in %u points\n", made);
    return 0;
}
