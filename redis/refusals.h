/* What a status of the drive means, in the words of the Python client (refusal_text of pinkdrive.py). */
#ifndef PINK_REFUSALS_H
#define PINK_REFUSALS_H

#include "rounds.h"

/* What a drive can hold: by the head of its image, and by the Report of a namespace. */
typedef struct { uint32_t page_bytes, block_pages, blocks; } Shape;
void read_shape(const char *image);

/* Replies with the cause of a part that was refused. */
int reply_refusal(Ctx *ctx, const Part *part);
/* The same as a text. */
void refusal_text(Bytes *text, const Part *part);

#endif
