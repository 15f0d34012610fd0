/* BLAKE2b with a digest of 16 bytes and no key (RFC 7693): Python's hashlib.blake2b(data, digest_size=16). */
#ifndef PINK_BLAKE2B_H
#define PINK_BLAKE2B_H

#include <stddef.h>

enum { DIGEST_BYTES = 16 };
void blake2b(const char *data, size_t length, char digest[DIGEST_BYTES]);

#endif
