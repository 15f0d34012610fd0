/* Full synchronisation: all pairs of the drive as auxiliary data of a type, in the file that Redis makes for a new replica. */
#ifndef PINK_FULLSYNC_H
#define PINK_FULLSYNC_H

#include "module_api.h"

/* Registers the type, and what is done before each fork of the server; API_ERR if that fails. */
int register_copies(Ctx *ctx);
/* A file is being loaded; only that of a full synchronisation replaces the drive. */
void loading_began(int from_primary);

typedef struct { uint64_t snapshots, pairs, last_us; } CopyNumbers;
const CopyNumbers *copy_numbers(void);

#endif
