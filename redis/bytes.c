#include "bytes.h"

#include <stdio.h>
#include <stdlib.h>

void *needed(void *memory) {
    if (!memory) {
        fputs("pink.so: out of memory\n", stderr);
        abort();
    }
    return memory;
}

void add_bytes(Bytes *to, const void *from, size_t length) {
    if (to->length + length > to->room) {
        to->room = 2 * (to->length + length) + 4096;
        to->at = needed(realloc(to->at, to->room));
    }
    if (length) memcpy(to->at + to->length, from, length);
    to->length += length;
}

void drop_bytes(Bytes *bytes) {
    free(bytes->at);
    *bytes = (Bytes){0};
}
