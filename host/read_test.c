/* Calls the reader as a host does: document 01's case A, refusals over tables that held other words, and null pointers for nothing.
 * `read_test beside 0|1|2|3` makes one call whose description, input, values or descriptors is a block shorter than is said: what watches memory has
 * to find that. */
#include "block.h"
#include "rippleshrug.h"

#include <stdio.h>
#include <stdlib.h>
#include <string.h>

static unsigned made;

static void expect(int holds, const char *what) {
    made++;
    if (!holds) {
        fprintf(stderr, "read_test: not so: %s\n", what);
        exit(1);
    }
}

#define EXPECT(holds) expect(holds, #holds)

/* Tables in blocks of their own, filled with rubbish. */
struct tables {
    uint32_t *values, *descriptors;
    size_t value_words, descriptor_words;
};

static uint32_t *rubbish(size_t words, int byte) {
    static uint32_t filled[64];
    if (words > sizeof filled / sizeof filled[0]) exit(2);
    memset(filled, byte, sizeof filled);
    return (uint32_t *)block_of(filled, words * sizeof filled[0]);
}

static struct tables lend(size_t value_words, size_t descriptor_words) {
    struct tables t;
    t.values = rubbish(value_words, 0xA5);
    t.descriptors = rubbish(descriptor_words, 0x5A);
    t.value_words = value_words;
    t.descriptor_words = descriptor_words;
    return t;
}

static void take_back(struct tables t) {
    free(t.values);
    free(t.descriptors);
}

static int all_zero(struct tables t) {
    size_t i;
    for (i = 0; i < t.value_words; i++)
        if (t.values[i] != 0) return 0;
    for (i = 0; i < t.descriptor_words; i++)
        if (t.descriptors[i] != 0) return 0;
    return 1;
}

static const uint8_t counters[] = {0x02, 0x10, 0x02, 0x10, 0x0A, 0x10, 0x01, 0x01, 0, 0, 0, 0, 0x01, 0, 0, 0, 0x01, 0x05, 0x01, 0x02, 0x05, 0x00, 0x03};
static const uint8_t turned[] = {0xFF, 0xFA, 0x00, 0x04};

static struct rippleshrug_answer read_into(struct tables t, const uint8_t *desc, size_t desc_length, const uint8_t *input, size_t input_length) {
    uint8_t *d = desc == NULL ? NULL : (uint8_t *)block_of(desc, desc_length);
    uint8_t *i = input == NULL ? NULL : (uint8_t *)block_of(input, input_length);
    struct rippleshrug_answer answer = rippleshrug_read(d, desc_length, i, input_length, t.values, t.value_words, t.descriptors, t.descriptor_words);
    free(d);
    free(i);
    return answer;
}

static int answers(struct rippleshrug_answer a, uint32_t refusal, uint32_t node, uint32_t count, uint32_t end) {
    return a.refusal == refusal && a.node == node && a.count == count && a.end == end;
}

static int refused(struct rippleshrug_answer answer, enum rippleshrug_refusal refusal, uint32_t node) {
    return answers(answer, (uint32_t)refusal, node, 0, 0);
}

static void test_case_a(void) {
    struct tables t = lend(22, 21);
    struct rippleshrug_answer answer = read_into(t, counters, sizeof counters, turned, sizeof turned);
    struct rippleshrug_entry root = rippleshrug_entry_at(t.values, t.descriptors, 0);
    struct rippleshrug_entry use = rippleshrug_entry_at(t.values, t.descriptors, 4);
    EXPECT(answers(answer, RIPPLESHRUG_ACCEPTED, 0, 5, 32));
    EXPECT(root.node == 4 && root.size == 5 && root.begin == 0 && root.end == 32 && root.errors == 0);
    EXPECT(use.node == 2 && use.number == 10 && use.detail == 0 && use.size == 1);
    EXPECT(use.begin == 32 && use.end == 32 && use.code == RIPPLESHRUG_OK && use.errors == 0);
    EXPECT(t.values[20] == 0 && t.values[21] == 0 && t.descriptors[20] == 0);
    take_back(t);
}

/* Three bytes: of the second counter 8 bits are missing, and its entry says so. */
static void test_missing(void) {
    struct tables t = lend(20, 20);
    struct rippleshrug_answer answer = read_into(t, counters, sizeof counters, turned, 3);
    struct rippleshrug_entry second = rippleshrug_entry_at(t.values, t.descriptors, 3);
    EXPECT(answers(answer, RIPPLESHRUG_ACCEPTED, 0, 5, 16));
    EXPECT(second.node == 1 && second.number == 0 && second.detail == 8 && second.code == RIPPLESHRUG_FAIL && second.errors == 1);
    EXPECT(rippleshrug_entry_at(t.values, t.descriptors, 1).detail == 0);
    take_back(t);
}

static void test_refusals(void) {
    static const uint8_t wide[] = {0x02, 0x21}, unnamed[] = {0x00, 0x00}, twice[] = {0x00, 0x04, 0x00, 0x00};
    static uint8_t much[8192];
    struct tables t = lend(20, 20), small = lend(20, 19);
    EXPECT(refused(read_into(t, wide, sizeof wide, turned, sizeof turned), RIPPLESHRUG_NOT_LISTED, 0) && all_zero(t));
    EXPECT(refused(read_into(t, unnamed, sizeof unnamed, turned, sizeof turned), RIPPLESHRUG_NEVER_NAMED, 0) && all_zero(t));
    EXPECT(refused(read_into(t, twice, sizeof twice, turned, sizeof turned), RIPPLESHRUG_CHILD_NAMED_BEFORE, 1) && all_zero(t));
    EXPECT(refused(read_into(t, counters, sizeof counters, much, 8192), RIPPLESHRUG_INPUT_TOO_LONG, 0) && all_zero(t));
    EXPECT(answers(read_into(t, counters, sizeof counters, much, 8191), RIPPLESHRUG_ACCEPTED, 0, 5, 32));
    EXPECT(refused(read_into(small, counters, sizeof counters, turned, sizeof turned), RIPPLESHRUG_NO_ROOM, 0) && all_zero(small));
    take_back(t);
    take_back(small);
}

/* Null is nothing, whatever length stands beside it. */
static void test_nothing(void) {
    struct tables t = lend(20, 20);
    EXPECT(refused(read_into(t, NULL, 9, turned, sizeof turned), RIPPLESHRUG_EMPTY_OR_TOO_LONG, 0) && all_zero(t));
    EXPECT(refused(read_into(t, counters, 0, turned, sizeof turned), RIPPLESHRUG_EMPTY_OR_TOO_LONG, 0));
    EXPECT(answers(read_into(t, counters, sizeof counters, NULL, 9), RIPPLESHRUG_ACCEPTED, 0, 5, 0));
    EXPECT(answers(read_into(t, counters, sizeof counters, turned, 0), RIPPLESHRUG_ACCEPTED, 0, 5, 0));
    EXPECT(refused(rippleshrug_read(counters, sizeof counters, turned, sizeof turned, NULL, 20, t.descriptors, 20), RIPPLESHRUG_NO_ROOM, 0));
    EXPECT(refused(rippleshrug_read(counters, sizeof counters, turned, sizeof turned, t.values, 20, NULL, 20), RIPPLESHRUG_NO_ROOM, 0));
    EXPECT(refused(rippleshrug_read(counters, sizeof counters, turned, sizeof turned, t.values, 0, t.descriptors, 0), RIPPLESHRUG_NO_ROOM, 0));
    EXPECT(refused(rippleshrug_read(NULL, 0, NULL, 0, NULL, 0, NULL, 0), RIPPLESHRUG_EMPTY_OR_TOO_LONG, 0));
    take_back(t);
}

/* Case A with one of the four blocks shorter by a byte or a word than it is said to be. */
static void lend_too_little(char which) {
    uint8_t *desc = (uint8_t *)block_of(counters, sizeof counters - (which == '0'));
    uint8_t *input = (uint8_t *)block_of(turned, sizeof turned - (which == '1'));
    struct tables t = lend(20 - (which == '2'), 20 - (which == '3'));
    rippleshrug_read_slices(desc, sizeof counters, input, sizeof turned, t.values, 20, t.descriptors, 20);
    free(desc);
    free(input);
    take_back(t);
}

int main(int argc, char **argv) {
    if (argc == 3 && strcmp(argv[1], "beside") == 0) {
        lend_too_little(argv[2][0]);
        return 0;
    }
    test_case_a();
    test_missing();
    test_refusals();
    test_nothing();
    printf("host: the reader, called by its header, is right in %u points\n", made);
    return 0;
}
