#include "info.h"

#include <stdio.h>

#include "fullsync.h"
#include "names.h"
#include "replication.h"
#include "walk.h"

static void add_report(InfoCtx *ctx, int space) {
    static const char *const names[REPORT_NUMBERS] = {"live", "limit", "keys", "pinned", "frames", "leased", "active", "frozen",
                                                      "run1", "run2", "run3", "run4", "epoch", "blocks", "ready", "merge"};
    Answer answer = pipe_ask(&(Entry){.opcode = REPORT, .space = space});
    for (int i = 0; answer.status == DONE && i < REPORT_NUMBERS; i++) {
        char field[32];
        if (space > 1 && i >= 3) break; /* only the first three are of the namespace alone */
        snprintf(field, sizeof field, space > 1 ? "report_%s_%d" : "report_%s", names[i], space);
        InfoAddFieldULongLong(ctx, field, get32(answer.data.at + 4 * i));
    }
    drop_bytes(&answer.data);
}

static void info(InfoCtx *ctx, int is_of_a_crash) {
    const PipeNumbers *pipe = pipe_numbers();
    const RoundNumbers *rounds = round_numbers();
    const CopyNumbers *copies = copy_numbers();
    InfoAddSection(ctx, "drive");
    InfoAddFieldULongLong(ctx, "program", (unsigned long long)pipe->process);
    InfoAddFieldULongLong(ctx, "commands", pipe->sent);
    InfoAddFieldULongLong(ctx, "changes", pipe->changes);
    InfoAddFieldULongLong(ctx, "groups", pipe->flushes);
    InfoAddFieldULongLong(ctx, "writes", pipe->writes);
    InfoAddFieldULongLong(ctx, "partial", (unsigned)is_partial());
    InfoAddFieldULongLong(ctx, "hashed_names", (unsigned)names_are_hashed);
    InfoAddFieldULongLong(ctx, "replicated_batches", rounds->batches);
    InfoAddFieldULongLong(ctx, "dropped_changes", rounds->dropped);
    InfoAddFieldULongLong(ctx, "copies", copies->snapshots);
    InfoAddFieldULongLong(ctx, "copy_pairs", copies->pairs);
    InfoAddFieldULongLong(ctx, "copy_us", copies->last_us);
    if (is_of_a_crash) return;
    for (int space = 1, spaces = count_spaces(); space <= spaces; space++) add_report(ctx, space);
}

int register_info(Ctx *ctx) { return RegisterInfoFunc(ctx, info); }
