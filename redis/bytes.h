/* Bytes that grow, and numbers in them. */
#ifndef PINK_BYTES_H
#define PINK_BYTES_H

#include <stddef.h>
#include <stdint.h>
#include <string.h>

typedef struct { char *at; size_t length, room; } Bytes;

void add_bytes(Bytes *to, const void *from, size_t length);
void drop_bytes(Bytes *bytes);

/* The memory, which is there: a server without memory ends, as Redis itself does. */
void *needed(void *memory);

static inline void put32(char *at, uint32_t number) { memcpy(at, &number, 4); }
static inline uint32_t get32(const char *at) {
    uint32_t number;
    memcpy(&number, at, 4);
    return number;
}

#endif
