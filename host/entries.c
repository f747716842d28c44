/* Reads a record and prints its entries as indented text: what each node is, where it stands, its number, and what was wrong with it.
 * Use: entries DESCRIPTION INPUT, both byte for byte. Exit status: 0 read with no errors, 1 read with errors, 2 refused, 3 wrong use or a file that
 * cannot be read. */
#include "nodes.h"

static uint32_t values[4 * MOST_ENTRIES], descriptors[4 * MOST_ENTRIES];

static int has_number(const struct description *desc, uint32_t node) {
    uint8_t kind = desc->kind[node];
    return kind == BITS || kind == SIGNED || kind == WHERE || kind == COMPUTE;
}

static void print_detail(const struct description *desc, struct rippleshrug_entry e) {
    switch (desc->kind[e.node]) {
    case EITHER: printf(", took its %s part", e.detail == 1 ? "first" : "second"); break;
    case SEQUENCE: printf(", %" PRIu32 " element%s", e.detail, e.detail == 1 ? "" : "s"); break;
    case SCAN:
        if (e.detail > 0) printf(", skipped %" PRIu32 " bit%s", e.detail, e.detail == 1 ? "" : "s");
        break;
    default: break;
    }
}

/* What was wrong with an entry that has errors; `child` is the entry after it. */
static void print_trouble(const struct description *desc, struct rippleshrug_entry e, struct rippleshrug_entry child) {
    switch (desc->kind[e.node]) {
    case BOTTOM: printf("nothing fits here"); break;
    case BITS:
    case SIGNED: printf("the input ends %" PRIu32 " bit%s before its end", e.detail, e.detail == 1 ? "" : "s"); break;
    case WHERE:
        if (e.code == RIPPLESHRUG_FAIL)
            printf("its number is not there");
        else if (child.errors == 0)
            printf("its number is not as it should be");
        else
            printf(e.errors == 1 ? "what it looks at has errors" : "what it looks at has errors, and its number is not as it should be");
        break;
    case ABSORB: printf("what it passes over has errors"); break;
    case SCAN: printf(e.code == RIPPLESHRUG_FAIL ? "found nowhere" : "not found at once"); break;
    default: printf("%" PRIu32 " of its parts ha%s errors", e.errors, e.errors == 1 ? "s" : "ve"); break;
    }
}

static void print_entries(const struct description *desc, size_t count) {
    static size_t ends[MOST_NODES + 1]; /* after which entry each subtree around this one ends: no more of them than nodes */
    static const char *const codes[] = {"ok", "err", "fail"};
    size_t i, depth = 0;
    for (i = 0; i < count; i++) {
        struct rippleshrug_entry e = rippleshrug_entry_at(values, descriptors, i);
        while (depth > 0 && ends[depth - 1] <= i) depth--;
        printf("%*s", (int)(2 * depth), "");
        print_place(desc, e);
        if (has_number(desc, e.node)) {
            printf(", ");
            print_number(desc, e.node, e.number);
        }
        print_detail(desc, e);
        printf(": %s", codes[e.code]);
        if (e.errors > 0) {
            printf(", ");
            print_trouble(desc, e, rippleshrug_entry_at(values, descriptors, i + 1 < count ? i + 1 : i));
        }
        putchar('\n');
        ends[depth++] = i + e.size;
    }
}

int main(int argc, char **argv) {
    static struct description desc;
    static uint8_t input[MOST_INPUT + 1];
    size_t input_length, words = sizeof values / sizeof values[0];
    struct rippleshrug_answer answer;

    if (argc != 3) {
        fprintf(stderr, "use: %s DESCRIPTION INPUT, both byte for byte\n", argc > 0 ? argv[0] : "entries");
        return 3;
    }
    if (!load(argv[1], desc.bytes, MOST_BYTES, &desc.length) || !load(argv[2], input, MOST_INPUT, &input_length)) return 3;

    answer = rippleshrug_read(desc.bytes, desc.length, input, input_length, values, words, descriptors, words);
    if (answer.refusal != RIPPLESHRUG_ACCEPTED) {
        print_refusal(answer.refusal, answer.node);
        return 2;
    }
    find_nodes(&desc);
    printf("read to bit %" PRIu32 " of %lu\n", answer.end, 8ul * (unsigned long)input_length);
    print_entries(&desc, answer.count);
    return rippleshrug_entry_at(values, descriptors, 0).errors == 0 ? 0 : 1;
}
