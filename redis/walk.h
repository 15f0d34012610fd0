/* All keys of a drive, in order. */
#ifndef PINK_WALK_H
#define PINK_WALK_H

#include "pipe.h"

/* The next key that there can be; its length, or 0 after the last. */
size_t key_after(char key[KEY_BYTES + 1], size_t length);

/* A key of an answer of List, and the place of the next. */
const char *listed_key(const char **at, size_t *length);

/* The namespaces of the drive: 1 to this. */
int count_spaces(void);
uint64_t count_keys(int space);

typedef void Each(void *to, int space, const char *key, size_t length, const char *value, size_t bytes);
/* Calls this with each key of a namespace, and, if `values`, with its value. Returns how many reads of the flash failed: of a key that is
 * not told, or of a List, after which no key is. */
uint64_t walk_space(int space, int values, Each *each, void *to);

#endif
