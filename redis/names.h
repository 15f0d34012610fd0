/* Names of clients and keys of the drive. A key has 1 to 16 bytes. Without hashed names a name is a key. With them a name of any length
 * is kept under its BLAKE2b hash of 16 bytes; the value on the drive begins with the length of the name (u32, little-endian) and the name
 * (the "front"), and each command compares it, so two names with one hash are told apart: the second is refused (OTHER_NAME). */
#ifndef PINK_NAMES_H
#define PINK_NAMES_H

#include "rounds.h"

enum { NAME_LENGTH_BYTES = 4, COMMON_FRONT = 256 /* a front that is read at first, in bytes; longer ones are read again */ };

extern int names_are_hashed;

/* Sets the key of a part from its name. */
void set_key(Part *part);
/* What a value of this part begins with; valid until the next call. */
const Bytes *front_of(const Part *part);
/* What was read for a part, without its front; the status becomes OTHER_NAME if it is another name's. */
void take_front(Part *part);
int has_front(const Part *part, const Record *record);

/* The changes of this round that have no other name of the same hash before them; OTHER_NAME for one that has. */
int meet_name(Part *part);
void forget_names(void);

/* The name under a key: NULL if the key is gone, or no name is before its value. The text is valid until the next call. */
const char *name_under(int space, const char *key, size_t key_length, size_t *length);

#endif
