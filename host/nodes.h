/* For the programs that read records: a description's nodes, files, and numbers as text. */
#ifndef RIPPLESHRUG_NODES_H
#define RIPPLESHRUG_NODES_H

#include "rippleshrug.h"

#include <errno.h>
#include <inttypes.h>
#include <stdio.h>
#include <string.h>

enum { MOST_ENTRIES = 65535, MOST_NODES = 64, MOST_BYTES = 1024, MOST_INPUT = 8191, KINDS = 13 };

enum { BOTTOM = 1, BITS = 2, SIGNED = 3, BIND = 5, EITHER = 6, WHERE = 8, SEQUENCE = 9, COMPUTE = 10, ABSORB = 11, SCAN = 12 };

/* A description that was accepted: each node's kind, and where its body begins. */
struct description {
    uint8_t bytes[MOST_BYTES + 1];
    size_t length;
    uint8_t kind[MOST_NODES];
    size_t body[MOST_NODES];
};

/* One byte more than is allowed is read, so that a longer file is refused as such. Returns 0 where the file cannot be read, and says why. */
static inline int load(const char *name, uint8_t *bytes, size_t most, size_t *length) {
    FILE *file = fopen(name, "rb");
    if (file == NULL) {
        fprintf(stderr, "%s: cannot be opened: %s\n", name, strerror(errno));
        return 0;
    }
    *length = fread(bytes, 1, most + 1, file);
    if (ferror(file)) {
        fprintf(stderr, "%s: cannot be read: %s\n", name, strerror(errno));
        fclose(file);
        return 0;
    }
    fclose(file);
    return 1;
}

static inline void find_nodes(struct description *desc) {
    static const unsigned char body_bytes[KINDS] = {0, 0, 1, 1, 2, 2, 2, 2, 7, 8, 12, 1, 1};
    size_t at, node = 0;
    for (at = 0; at < desc->length; at += 1 + body_bytes[desc->bytes[at]]) {
        desc->kind[node] = desc->bytes[at];
        desc->body[node++] = at + 1;
    }
}

static inline const char *kind_name(const struct description *desc, uint32_t node) {
    static const char *const names[KINDS] = {
        "unit", "bottom", "bits", "signed", "then", "bind", "either", "both", "where", "sequence", "compute", "absorb", "scan"};
    return names[desc->kind[node]];
}

/* "the word of a signed node, or of a where over one, directly or through further wheres, is taken as two's complement" */
static inline int is_signed(const struct description *desc, uint32_t node) {
    while (desc->kind[node] == WHERE) node = desc->bytes[desc->body[node]];
    return desc->kind[node] == SIGNED;
}

/* A number word of that node, as the whole number that it stands for. */
static inline void print_number(const struct description *desc, uint32_t node, uint32_t number) {
    if (is_signed(desc, node) && number >= 0x80000000u)
        printf("-%" PRIu32, (uint32_t)(0u - number));
    else
        printf("%" PRIu32, number);
}

/* What an entry is and where it stands, as "bits (node 0), bits 0 to 16". */
static inline void print_place(const struct description *desc, struct rippleshrug_entry e) {
    printf("%s (node %" PRIu32 "), bits %" PRIu32 " to %" PRIu32, kind_name(desc, e.node), e.node, e.begin, e.end);
}

static inline void print_refusal(uint32_t refusal, uint32_t node) {
    printf("refused %" PRIu32 ", node %" PRIu32 ": %s\n", refusal, node, rippleshrug_reason((enum rippleshrug_refusal)refusal));
}

#endif
