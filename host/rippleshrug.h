/* Rippleshrug's check of record descriptions, its reader and its writer, for hosts in C (from C99 on) and C++.
 *
 * Link with libhost.a, which host/library.sh writes to target/staticlib/. The check and the reader are proved to give document 01's answer for
 * every description, input and pair of tables, and the writer request 2's for every description, value table, count and buffer. They allocate
 * nothing, keep nothing between calls, own nothing that they are handed, and may be called from several threads at once where no two of them are
 * lent the same table or buffer to write to. A thread that reads wants 64 KiB of stack: the deepest description takes a quarter of it. */
#ifndef RIPPLESHRUG_H
#define RIPPLESHRUG_H

#include <stddef.h>
#include <stdint.h>

#ifdef __cplusplus
extern "C" {
#endif

/* Why a description or a call is refused, by document 01's number or request 2's. Of several reasons the first in this order is given: 1; then, node
 * by node from the front, 4, 2, 3, 5, 6, 7, 8; then 9 and 10, which are all that the check has; then 12 and 13 where it is the reader that was called,
 * and 14 to 16 where it is the writer. "That node" is the one at which the reason was found; nodes are numbered from 0. */
enum rippleshrug_refusal {
    /* The description is accepted. Node 0. */
    RIPPLESHRUG_ACCEPTED = 0,
    /* The description is empty, or over 1,024 bytes. Node 0. */
    RIPPLESHRUG_EMPTY_OR_TOO_LONG = 1,
    /* A kind byte above 0C. That node. */
    RIPPLESHRUG_UNKNOWN_KIND = 2,
    /* The description ends inside a node's body. That node. */
    RIPPLESHRUG_BODY_CUT_SHORT = 3,
    /* A 65th node begins. Node 64. */
    RIPPLESHRUG_TOO_MANY_NODES = 4,
    /* A width, relation, operator or operand that is not listed. That node. */
    RIPPLESHRUG_NOT_LISTED = 5,
    /* A child that is not smaller than its node. That node. */
    RIPPLESHRUG_CHILD_NOT_SMALLER = 6,
    /* A child that was named before, also twice in one node. That node, which names it again. */
    RIPPLESHRUG_CHILD_NAMED_BEFORE = 7,
    /* The first child of a bind, or the child of a where, is not a number node (kinds 02, 03, 08, 0A). That node, the bind or where. */
    RIPPLESHRUG_NUMBER_NODE_WANTED = 8,
    /* A node other than the last is named by none. The lowest such node. */
    RIPPLESHRUG_NEVER_NAMED = 9,
    /* An operand names a bind that is not around it. The root. */
    RIPPLESHRUG_NO_ENCLOSING_BIND = 10,
    /* 11, more than 31 binds around one node, is never given, since 64 nodes allow 31, and the number is not used again. */
    /* Of the reader alone, after 1 to 10: the input has more than 8,191 bytes. Node 0. */
    RIPPLESHRUG_INPUT_TOO_LONG = 12,
    /* Of the reader alone, last: the entries outnumber the room of the tables. Node 0. */
    RIPPLESHRUG_NO_ROOM = 13,
    /* Of the writer alone, after 1 to 10: the description has a both, an absorb or a scan, whatever the table is. Node 0. */
    RIPPLESHRUG_NOT_WRITABLE = 14,
    /* Of the writer alone: the count is more than the table holds, a node number is not in the description, or a number to write is not one of its
     * width: of bits, 0 to 2^w - 1; of signed, -2^(w - 1) to 2^(w - 1) - 1, as two's complement of 32 bits. Node 0. */
    RIPPLESHRUG_WRONG_TABLE = 15,
    /* Of the writer alone, last: the bytes exceed the buffer or 8,191. Node 0. */
    RIPPLESHRUG_NO_SPACE = 16
};

/* The same in words, for a message. */
static inline const char *rippleshrug_reason(enum rippleshrug_refusal refusal) {
    switch (refusal) {
    case RIPPLESHRUG_ACCEPTED: return "accepted";
    case RIPPLESHRUG_EMPTY_OR_TOO_LONG: return "description empty or over 1,024 bytes";
    case RIPPLESHRUG_UNKNOWN_KIND: return "unknown kind";
    case RIPPLESHRUG_BODY_CUT_SHORT: return "body cut short";
    case RIPPLESHRUG_TOO_MANY_NODES: return "a 65th node begins";
    case RIPPLESHRUG_NOT_LISTED: return "width, relation, operator or operand not listed";
    case RIPPLESHRUG_CHILD_NOT_SMALLER: return "child not smaller than the node";
    case RIPPLESHRUG_CHILD_NAMED_BEFORE: return "child named before, also twice in one node";
    case RIPPLESHRUG_NUMBER_NODE_WANTED: return "a number node is wanted";
    case RIPPLESHRUG_NEVER_NAMED: return "a node never named";
    case RIPPLESHRUG_NO_ENCLOSING_BIND: return "operand names no enclosing bind";
    case RIPPLESHRUG_INPUT_TOO_LONG: return "input over 8,191 bytes";
    case RIPPLESHRUG_NO_ROOM: return "entries outnumber the room of the tables";
    case RIPPLESHRUG_NOT_WRITABLE: return "the description has both, absorb or scan";
    case RIPPLESHRUG_WRONG_TABLE:
        return "the count is more than the table holds, a node number is not in the description, or a number is not one of its width";
    case RIPPLESHRUG_NO_SPACE: return "the bytes exceed the buffer or 8,191";
    }
    return "a refusal that is not known";
}

/* The check as it is proved: the refusal plus 256 times the node, 0 where it accepts. `desc` points to `length` bytes that nothing writes
 * meanwhile, and is not null even where `length` is 0. */
uint32_t rippleshrug_check_slice(const uint8_t *desc, size_t length);

/* The same, which takes a null pointer for the empty description, whatever `length` is. */
static inline uint32_t rippleshrug_check(const uint8_t *desc, size_t length) {
    static const uint8_t none = 0;
    return desc == NULL ? rippleshrug_check_slice(&none, 0) : rippleshrug_check_slice(desc, length);
}

/* The two parts of an answer. */
static inline enum rippleshrug_refusal rippleshrug_refusal_of(uint32_t answer) {
    return (enum rippleshrug_refusal)(answer % 256);
}

static inline unsigned rippleshrug_node_of(uint32_t answer) {
    return (unsigned)(answer / 256);
}

/* What a call of the reader answers. A success has refusal 0, which is RIPPLESHRUG_ACCEPTED, and node 0; a refusal has count 0 and end 0. */
struct rippleshrug_answer {
    uint32_t refusal; /* an enum rippleshrug_refusal */
    uint32_t node;    /* the node that is given with the refusal */
    uint32_t count;   /* how many entries there are */
    uint32_t end;     /* the bit at which the root ended */
};

/* The reader as it is proved. `desc`, `input`, `values` and `descriptors` point to as many bytes or words as the length after each says, and none is
 * null, even where its length is 0. Nothing writes the first two meanwhile; nothing else reads or writes the two tables, which do not overlap.
 * Whatever stood in the tables, every word of both is written: the entries, and 0 after them; or 0 throughout, where the call is refused.
 *
 * An entry takes four words of each table. There is room for as many entries as the shorter table has words, divided by 4 and rounded down, and
 * never for more than 65,535; no call needs a table that is longer than 262,140 words. */
struct rippleshrug_answer rippleshrug_read_slices(const uint8_t *desc, size_t desc_length, const uint8_t *input, size_t input_length,
    uint32_t *values, size_t values_length, uint32_t *descriptors, size_t descriptors_length);

/* The same, which takes a null pointer for nothing: the empty description, the empty input, a table of no words, whatever the length beside it. */
static inline struct rippleshrug_answer rippleshrug_read(const uint8_t *desc, size_t desc_length, const uint8_t *input, size_t input_length,
    uint32_t *values, size_t values_length, uint32_t *descriptors, size_t descriptors_length) {
    static const uint8_t none = 0;
    uint32_t no_values = 0, no_descriptors = 0;
    return rippleshrug_read_slices(desc == NULL ? &none : desc, desc == NULL ? 0 : desc_length, input == NULL ? &none : input,
        input == NULL ? 0 : input_length, values == NULL ? &no_values : values, values == NULL ? 0 : values_length,
        descriptors == NULL ? &no_descriptors : descriptors, descriptors == NULL ? 0 : descriptors_length);
}

/* What a call of the writer answers. A success has refusal 0, which is RIPPLESHRUG_ACCEPTED, and node 0; a refusal has bits 0. */
struct rippleshrug_written {
    uint32_t refusal; /* an enum rippleshrug_refusal */
    uint32_t node;    /* the node that is given with the refusal */
    uint32_t bits;    /* how many bits were written, the padding not counted */
};

/* The writer as it is proved. It writes the numbers of the first `count` entries of a value table that are of a bits or signed node, in entry order,
 * each in its node's width, the highest bit first, and pads the last byte with zero bits. For a table that the reader left, where the root has zero
 * errors, and with the reader's count, these are the input's bits from 0 to the reader's end. A count of 0 writes nothing, and is no refusal.
 *
 * `desc`, `values` and `buffer` point to as many bytes or words as the length after each says, and none is null, even where its length is 0. Nothing
 * writes the first two meanwhile; nothing else reads or writes the buffer, which overlaps neither. Whatever stood in the buffer, every byte of it is
 * written: the bits and their padding, and 0 after them; or 0 throughout, where the call is refused.
 *
 * The table holds as many entries as it has words, divided by 4 and rounded down; they may be more than the reader ever gives. What is written and
 * what is refused depends on the node words of the first `count` entries and on the number words of those that are bits or signed, and on no other
 * word: a number that was put there by hand is written as one that was read is. The reader's number of an entry that failed is 0: zero bits. */
struct rippleshrug_written rippleshrug_write_slices(const uint8_t *desc, size_t desc_length, const uint32_t *values, size_t values_length,
    size_t count, uint8_t *buffer, size_t buffer_length);

/* The same, which takes a null pointer for nothing: the empty description, a table or a buffer of no length, whatever the length beside it. */
static inline struct rippleshrug_written rippleshrug_write(const uint8_t *desc, size_t desc_length, const uint32_t *values, size_t values_length,
    size_t count, uint8_t *buffer, size_t buffer_length) {
    static const uint8_t none = 0;
    static const uint32_t no_values = 0;
    uint8_t no_buffer = 0;
    return rippleshrug_write_slices(desc == NULL ? &none : desc, desc == NULL ? 0 : desc_length, values == NULL ? &no_values : values,
        values == NULL ? 0 : values_length, count, buffer == NULL ? &no_buffer : buffer, buffer == NULL ? 0 : buffer_length);
}

/* An entry's code. */
enum rippleshrug_code {
    RIPPLESHRUG_OK = 0,
    /* It has errors, or something beneath it has. */
    RIPPLESHRUG_ERR = 1,
    /* What was wanted was not there at all. */
    RIPPLESHRUG_FAIL = 2
};

/* An entry, from the four words that it has in each table. Entries stand parent first, and the entries beneath entry i are the size - 1 after it. */
struct rippleshrug_entry {
    uint32_t node;   /* the node of the description that was read */
    uint32_t number; /* its number, the low 32 bits; 0 for a node that has none */
    uint32_t detail; /* bits, signed: the bits that are missing, 0 where none is; either: 1 or 2, the part that was taken; sequence: its elements;
                        scan: the bits that it skipped; else 0 */
    uint32_t size;   /* how many entries are in its subtree, itself included */
    uint32_t begin;  /* the bit at which it begins */
    uint32_t end;    /* the bit after its last */
    uint32_t code;   /* an enum rippleshrug_code */
    uint32_t errors; /* how many of its parts had errors; 0 means that it and all beneath it fit the description */
};

/* Entry i of the tables that a call with more than i entries left. */
static inline struct rippleshrug_entry rippleshrug_entry_at(const uint32_t *values, const uint32_t *descriptors, size_t i) {
    struct rippleshrug_entry entry;
    entry.node = values[4 * i];
    entry.number = values[4 * i + 1];
    entry.detail = values[4 * i + 2];
    entry.size = values[4 * i + 3];
    entry.begin = descriptors[4 * i];
    entry.end = descriptors[4 * i + 1];
    entry.code = descriptors[4 * i + 2];
    entry.errors = descriptors[4 * i + 3];
    return entry;
}

#ifdef __cplusplus
}
#endif

#endif
