/* How much stack a call of the reader takes: the deepest descriptions of 64 nodes, over 8,191 bytes. Each is read on a thread whose stack is
 * filled with a pattern, to measure the need, and on one that has no more than a host should give. */
#define _XOPEN_SOURCE 700

#include "rippleshrug.h"

#include <pthread.h>
#include <stdio.h>
#include <stdlib.h>
#include <string.h>

enum { LIMIT = 65536, WIDE = 1 << 20, MOST_NODES = 64, MOST_BYTES = 1024, MOST_INPUT = 8191, WORDS = 4096, PATTERN = 0xA5 };

/* A description, node by node from the front, and what the last reading with it answered. */
struct description {
    uint8_t bytes[MOST_BYTES];
    size_t length;
    unsigned nodes;
    struct rippleshrug_answer said;
};

static const uint8_t input[MOST_INPUT];
static uint32_t values[WORDS], descriptors[WORDS];

static void die(const char *what) {
    fprintf(stderr, "stack: %s\n", what);
    exit(1);
}

/* Puts a node and answers its number. */
static uint8_t put(struct description *d, const uint8_t *bytes, size_t length) {
    if (d->nodes == MOST_NODES || d->length + length > MOST_BYTES) die("a description is too long");
    memcpy(d->bytes + d->length, bytes, length);
    d->length += length;
    return (uint8_t)d->nodes++;
}

enum kind { UNIT, BOTTOM, BITS, SIGNED, THEN, BIND, EITHER, BOTH, WHERE, SEQUENCE, COMPUTE, ABSORB, SCAN };

/* A level of a chain: a node of this kind around the nodes so far, with leaves for its other children; or such a node around a scan of them. */
enum { INNER = -1, NONE = -2 };

struct level {
    const char *name;
    enum kind leaf, kind;
    int children[3]; /* a kind of leaf, or INNER, or NONE */
    uint8_t operand;
    int scanned;
};

static const struct level levels[] = {
    {"scans", UNIT, SCAN, {INNER, NONE, NONE}, 0, 0},
    {"absorbs", UNIT, ABSORB, {INNER, NONE, NONE}, 0, 0},
    {"wheres", BITS, WHERE, {INNER, NONE, NONE}, 0, 0},
    {"thens, first", UNIT, THEN, {INNER, UNIT, NONE}, 0, 0},
    {"thens, second", UNIT, THEN, {UNIT, INNER, NONE}, 0, 0},
    {"binds, second", UNIT, BIND, {BITS, INNER, NONE}, 0, 0},
    {"eithers, first", UNIT, EITHER, {INNER, UNIT, NONE}, 0, 0},
    {"eithers, second", UNIT, EITHER, {BOTTOM, INNER, NONE}, 0, 0},
    {"boths, second", UNIT, BOTH, {UNIT, INNER, NONE}, 0, 0},
    {"sequences, element", UNIT, SEQUENCE, {INNER, UNIT, BOTTOM}, 1, 0},
    {"sequences, separator", UNIT, SEQUENCE, {BITS, INNER, BOTTOM}, 2, 0},
    {"sequences, terminator", BOTTOM, SEQUENCE, {BITS, UNIT, INNER}, 1, 0},
    {"scans in eithers", UNIT, EITHER, {BOTTOM, INNER, NONE}, 0, 1},
};

enum { COUNT = sizeof levels / sizeof levels[0] };

static struct description all[COUNT];

static uint8_t put_leaf(struct description *d, int kind) {
    const uint8_t bytes[] = {(uint8_t)kind, 1};
    return put(d, bytes, kind == BITS ? 2 : 1);
}

/* Puts a level around the node `inner`, and answers the number of the node around it. */
static uint8_t put_level(struct description *d, const struct level *l, uint8_t inner) {
    uint8_t bytes[9] = {(uint8_t)l->kind};
    size_t length = 1;
    if (l->scanned) inner = put(d, (const uint8_t[]){SCAN, inner}, 2);
    for (int j = 0; j < 3 && l->children[j] != NONE; j++)
        bytes[length++] = l->children[j] == INNER ? inner : put_leaf(d, l->children[j]);
    if (l->kind == WHERE) bytes[length++] = 0; /* equal */
    if (l->kind == WHERE || l->kind == SEQUENCE) {
        memset(bytes + length, 0, 4); /* a constant, below 256 */
        bytes[length + 4] = l->operand;
        length += 5;
    }
    return put(d, bytes, length);
}

/* How many nodes a level takes. */
static unsigned size_of(const struct level *l) {
    unsigned nodes = 1 + (unsigned)l->scanned;
    for (int j = 0; j < 3 && l->children[j] != NONE; j++) nodes += l->children[j] != INNER;
    return nodes;
}

/* As many levels around one leaf as 64 nodes allow. */
static void describe(struct description *d, const struct level *l) {
    uint8_t root = put_leaf(d, l->leaf);
    while (d->nodes + size_of(l) <= MOST_NODES) root = put_level(d, l, root);
}

static void *read_it(void *argument) {
    struct description *d = argument;
    d->said = rippleshrug_read_slices(d->bytes, d->length, input, sizeof input, values, WORDS, descriptors, WORDS);
    return NULL;
}

static void *read_nothing(void *argument) { return argument; }

static void run(pthread_attr_t *attributes, void *start(void *), void *argument) {
    pthread_t thread;
    if (pthread_create(&thread, attributes, start, argument) != 0) die("no thread can be made");
    if (pthread_join(thread, NULL) != 0) die("a thread cannot be joined");
    if (pthread_attr_destroy(attributes) != 0) die("a thread's attributes cannot be given back");
}

/* Runs on a stack that is filled with a pattern, and counts the bytes of it that were written. */
static size_t measured(void *start(void *), void *argument) {
    pthread_attr_t attributes;
    void *stack;
    size_t used;
    const uint8_t *low;
    if (posix_memalign(&stack, 4096, WIDE) != 0) die("there is no memory for a stack");
    memset(stack, PATTERN, WIDE);
    if (pthread_attr_init(&attributes) != 0 || pthread_attr_setstack(&attributes, stack, WIDE) != 0) die("a stack cannot be set");
    run(&attributes, start, argument);
    for (low = stack; *low == PATTERN; low++) continue;
    used = (size_t)((const uint8_t *)stack + WIDE - low);
    free(stack);
    return used;
}

/* Runs on a stack of no more than LIMIT bytes, below which lies a page that cannot be written. */
static void limited(void *start(void *), void *argument) {
    pthread_attr_t attributes;
    if (pthread_attr_init(&attributes) != 0 || pthread_attr_setstacksize(&attributes, LIMIT) != 0) die("a stack's size cannot be set");
    run(&attributes, start, argument);
}

int main(void) {
    size_t before = measured(read_nothing, NULL), used, most = 0;
    for (size_t i = 0; i < COUNT; i++) {
        struct rippleshrug_answer said;
        describe(&all[i], &levels[i]);
        used = measured(read_it, &all[i]) - before;
        said = all[i].said;
        printf("stack: %-22s %2u nodes %6zu bytes\n", levels[i].name, all[i].nodes, used);
        if (said.refusal != 0) die("that reading was refused");
        limited(read_it, &all[i]);
        if (all[i].said.refusal != 0 || all[i].said.count != said.count || all[i].said.end != said.end) die("that reading differs on a small stack");
        if (used > most) most = used;
    }
    printf("stack: the most is %zu bytes; each was read on a stack of %d\n", most, LIMIT);
    return 0;
}
