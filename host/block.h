/* For the tests: bytes in a block of just so many, so that a tool which watches memory sees a byte that is read or written beside it. */
#ifndef RIPPLESHRUG_BLOCK_H
#define RIPPLESHRUG_BLOCK_H

#include <stdio.h>
#include <stdlib.h>
#include <string.h>

static void *block_of(const void *bytes, size_t length) {
    void *block = malloc(length);
    if (block == NULL && length > 0) {
        fprintf(stderr, "host: there is no memory for %lu bytes\n", (unsigned long)length);
        exit(2);
    }
    if (length > 0) memcpy(block, bytes, length);
    return block;
}

#endif
