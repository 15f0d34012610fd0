#include "replication.h"

#include <fcntl.h>
#include <stdio.h>
#include <stdlib.h>
#include <unistd.h>

#include "refusals.h"

static struct {
    char path[4224];
    int partial, loaded;
    uint64_t applied;
} it;

/* The mark. */

static const char REFUSED[] = "refused: ";

const char *read_mark(const char *image) {
    static char text[16384];
    char line[1024] = "";
    snprintf(it.path, sizeof it.path, "%.4096s.partial", image);
    FILE *file = fopen(it.path, "r");
    if (!file) return NULL;
    if (!fgets(line, sizeof line, file)) line[0] = 0;
    fclose(file);
    it.partial = 1;
    if (strncmp(line, REFUSED, sizeof REFUSED - 1)) return NULL;
    snprintf(text, sizeof text, "%.4096s was refused what its primary holds (%.*s): it is no copy. Put a drive with the primary's room in its"
             " place, and remove %.4224s", image, (int)strcspn(line, "\n") - (int)sizeof REFUSED + 1, line + sizeof REFUSED - 1, it.path);
    return text;
}

static int write_mark(const char *kind, const char *why, size_t length) {
    int mark = open(it.path, O_CREAT | O_TRUNC | O_WRONLY | O_CLOEXEC, 0666);
    if (mark < 0) return API_ERR;
    int fails = dprintf(mark, "%s%.*s\n", kind, (int)length, why) < 0 || fsync(mark);
    close(mark);
    it.partial = 1;
    return fails ? API_ERR : API_OK;
}

int is_partial(void) { return it.partial; }

int is_whole(Ctx *ctx) {
    if (it.partial)
        ReplyWithError(ctx, "MASTERDOWN this drive does not hold all that its primary holds: a full synchronisation is not finished");
    return !it.partial;
}

int begin_copy(void) {
    static const char why[] = "a full synchronisation is not finished";
    return write_mark("", why, sizeof why - 1);
}

void end_copy(void) {
    it.partial = 0;
    unlink(it.path);
}

void primary_is_partial(void) { it.partial = 1; }

void copy_refused(const Part *part) {
    Bytes text = {0};
    refusal_text(&text, part);
    Log(NULL, "warning", "the drive refused what its primary's drive took: %.*s. It is no copy, and this server ends", (int)text.length,
        text.at);
    write_mark(REFUSED, text.at, text.length);
    _exit(COPY_REFUSED);
}

void names_differ(void) {
    Log(NULL, "warning", "this server and its primary differ in the words names plain and names hashed: this server ends");
    _exit(COPY_REFUSED);
}

/* The stream of changes. */

void dump_was_loaded(void) { it.loaded = 1; }

void name_the_stream_anew(Ctx *ctx) {
    if (!it.loaded) return;
    it.loaded = 0;
    if (!(GetContextFlags(ctx) & FLAG_PRIMARY)) return;
    CallReply *reply = Call(ctx, "DEBUG", "c", "CHANGE-REPL-ID");
    if (!reply || CallReplyType(reply) == REPLY_ERROR) {
        Log(ctx, "warning", "a dump was loaded, and the stream of changes cannot get a new name: set save \"\" and remove the dump");
        _exit(COPY_REFUSED);
    }
    FreeCallReply(reply);
    Log(ctx, "notice", "a dump was loaded, which is older than the drive: the stream of changes has a new name");
}

/* A batch: entries as the drive has them. */

static size_t bytes_of(const char *entry, size_t left) {
    if (left < ENTRY_BYTES) return 0;
    size_t bytes = ENTRY_BYTES + (entry[0] == STORE ? (size_t)get32(entry + 40) : 0);
    return bytes <= left ? bytes : 0;
}

static void take_applied(void *of, const Record *record) {
    ((Part *)of)->status = record->status;
}

static void apply(const char *entry, Part *part) {
    memcpy(part->key, entry + 8, 8);
    memcpy(part->key + 8, entry + 56, 8);
    part->opcode = (unsigned char)entry[0];
    part->key_length = (unsigned char)entry[44];
    part->space = (unsigned char)entry[4];
    part->size = part->opcode == STORE ? get32(entry + 40) : 0;
    Entry sent = {.opcode = part->opcode, .space = part->space, .key = part->key, .key_length = part->key_length, .size = part->size,
                  .value = entry + ENTRY_BYTES};
    pipe_send(&sent, take_applied, part);
}

static int was_refused(const Part *part) {
    return part->status != DONE && !(part->status == NO_KEY && part->opcode == DELETE);
}

int apply_batch(Ctx *ctx, String **argv, int argc) {
    int flags = GetContextFlags(ctx), parts = 0;
    if (argc != 2 || !(flags & (FLAG_REPLICATED | FLAG_LOADING)))
        return ReplyWithError(ctx, "ERR PINK.APPLY comes from a primary alone");
    if (flags & FLAG_LOADING) return ReplyWithSimpleString(ctx, "OK"); /* of a file that is older than the drive */
    size_t length, at, bytes;
    const char *batch = StringPtrLen(argv[1], &length);
    for (at = 0; (bytes = bytes_of(batch + at, length - at)); at += bytes) parts++;
    if (at != length) return ReplyWithError(ctx, "ERR PINK.APPLY with a batch that is cut off");
    Part *part = needed(calloc((size_t)parts + 1, sizeof *part));
    at = 0;
    for (int i = 0; i < parts; i++, at += bytes_of(batch + at, length - at)) apply(batch + at, part + i);
    pipe_finish();
    for (int i = 0; i < parts; i++)
        if (was_refused(part + i)) copy_refused(part + i);
    free(part);
    it.applied++;
    return ReplyWithSimpleString(ctx, "OK");
}
