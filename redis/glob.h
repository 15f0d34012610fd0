/* Patterns of keys as Redis has them: `*`, `?`, `[..]` and `\`. */
#ifndef PINK_GLOB_H
#define PINK_GLOB_H

#include <stddef.h>

int glob_matches(const char *pattern, size_t pattern_length, const char *name, size_t length);
/* How many bytes at its front every name of the pattern begins with. */
size_t fixed_prefix(const char *pattern, size_t length);

#endif
