/* Checks a description that stands in a file, byte for byte, and prints the verdict in words.
 * Exit status: 0 accepted, 1 refused, 2 wrong use or a file that cannot be read. */
#include "rippleshrug.h"

#include <errno.h>
#include <stdio.h>
#include <string.h>

/* One byte more than a description may have: a longer file is refused as this many bytes are. */
#define MOST_READ 1025

int main(int argc, char **argv) {
    uint8_t desc[MOST_READ];
    size_t length;
    uint32_t answer;
    FILE *file;

    if (argc != 2) {
        fprintf(stderr, "use: %s FILE, a description byte for byte\n", argc > 0 ? argv[0] : "check");
        return 2;
    }
    file = fopen(argv[1], "rb");
    if (file == NULL) {
        fprintf(stderr, "%s: cannot be opened: %s\n", argv[1], strerror(errno));
        return 2;
    }
    length = fread(desc, 1, sizeof desc, file);
    if (ferror(file)) {
        fprintf(stderr, "%s: cannot be read: %s\n", argv[1], strerror(errno));
        fclose(file);
        return 2;
    }
    fclose(file);

    answer = rippleshrug_check(desc, length);
    if (answer == 0) {
        puts("accepted");
        return 0;
    }
    printf("refused %u, node %u: %s\n", (unsigned)rippleshrug_refusal_of(answer), rippleshrug_node_of(answer),
        rippleshrug_reason(rippleshrug_refusal_of(answer)));
    return 1;
}
