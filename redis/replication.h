/* Copies of a drive: what a replica does with the changes of its primary, and the mark of a drive that is no whole copy.
 *
 * The mark is a file beside the image, IMAGE.partial, with a line that says why. It is there from before the first Delete of a full
 * synchronisation until after its last Store: a server that starts with it, or finds it in a primary, refuses commands on keys. A replica whose
 * drive refuses what its primary's drive took writes the mark and ends; with such a mark the module does not load. */
#ifndef PINK_REPLICATION_H
#define PINK_REPLICATION_H

#include "rounds.h"

enum { COPY_REFUSED = 14 /* the status with which a server ends whose drive refused a change of its primary */ };

/* Reads the mark of an image; NULL if the server may start, or why not. */
const char *read_mark(const char *image);
int is_partial(void);
/* Replies with MASTERDOWN if the drive is no whole copy. */
int is_whole(Ctx *ctx);
/* A full synchronisation begins; API_ERR if the mark cannot be written. */
int begin_copy(void);
void end_copy(void);
/* The primary itself is no whole copy, so this drive, which is left alone, is none of it. */
void primary_is_partial(void);
/* The drive refused what its primary's drive took: the server ends. */
void copy_refused(const Part *part);
/* The primary keeps its names in the other way (names.h): the server ends, and its drive is as it was. */
void names_differ(void);

/* A dump was loaded, and with it the name and the offset of its stream of changes. The drive is newer than the dump, so a replica that knows
 * that name and an offset before it would lack what lies between: in the next round the stream gets a new name. */
void dump_was_loaded(void);
void name_the_stream_anew(Ctx *ctx);

/* PINK.APPLY: a batch of the primary. It returns when all is on the flash of this drive, so what this replica acknowledges is. */
Command apply_batch;

#endif
