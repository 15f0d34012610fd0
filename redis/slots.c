/* What a cluster asks of the keys of a slot, and how they are moved: Redis' own table of keys is empty. */
#include <stdlib.h>
#include <strings.h>

#include "commands.h"
#include "names.h"
#include "replication.h"
#include "walk.h"

enum { SLOTS = 16384 };

static unsigned slot_of(const char *name, size_t length) {
    const char *begin = memchr(name, '{', length);
    const char *end = begin ? memchr(begin + 1, '}', length - (size_t)(begin + 1 - name)) : NULL;
    if (end && end > begin + 1) {
        name = begin + 1;
        length = (size_t)(end - name);
    }
    unsigned crc = 0;
    for (size_t i = 0; i < length; i++) {
        crc ^= (unsigned)(unsigned char)name[i] << 8;
        for (int bit = 0; bit < 8; bit++) crc = (crc & 0x8000 ? crc << 1 ^ 0x1021 : crc << 1) & 0xFFFF;
    }
    return crc % SLOTS;
}

/* The keys of the drive, each with its length before it. */
static void add_key(void *to, int space, const char *key, size_t length, const char *value, size_t bytes) {
    (void)space, (void)value, (void)bytes;
    char head = (char)length;
    add_bytes(to, &head, 1);
    add_bytes(to, key, length);
}

/* The names of a slot, each with its length (u32) before it, at most so many. */
static long long names_in(unsigned slot, long long most, Bytes *names) {
    Bytes keys = {0};
    long long count = 0;
    walk_space(1, 0, add_key, &keys);
    for (const char *at = keys.at; keys.at && at < keys.at + keys.length && count < most; at += 1 + (unsigned char)*at) {
        size_t length = (unsigned char)*at;
        const char *name = names_are_hashed ? name_under(1, at + 1, length, &length) : at + 1;
        if (!name || slot_of(name, length) != slot) continue;
        char head[4];
        put32(head, (uint32_t)length);
        add_bytes(names, head, sizeof head);
        add_bytes(names, name, length);
        count++;
    }
    drop_bytes(&keys);
    return count;
}

static int tell_slot(Ctx *ctx, long long slot, long long most, int counts) {
    Bytes names = {0};
    long long count = names_in((unsigned)slot, most, &names);
    if (counts) {
        ReplyWithLongLong(ctx, count);
    } else {
        const char *at = names.at;
        ReplyWithArray(ctx, count);
        for (long long i = 0; i < count; i++) {
            ReplyWithStringBuffer(ctx, at + 4, get32(at));
            at += 4 + get32(at);
        }
    }
    drop_bytes(&names);
    return API_OK;
}

/* What Redis refuses to a server with keys. */
static int without_keys(Ctx *ctx, String **argv, int argc) {
    const char *word = StringPtrLen(argv[1], NULL);
    int may_have_keys = !strcasecmp(word, "REPLICATE") && !(GetContextFlags(ctx) & FLAG_PRIMARY);
    if (!may_have_keys && count_keys(1))
        return reply_text(ctx, "ERR the drive has keys: CLUSTER RESET, FLUSHSLOTS, and REPLICATE of a primary are for a server without");
    CallReply *reply = argc > 2 ? Call(ctx, "CLUSTER", "ss", argv[1], argv[2]) : Call(ctx, "CLUSTER", "s", argv[1]);
    if (!reply) return reply_text(ctx, "ERR wrong arguments for CLUSTER");
    ReplyWithCallReply(ctx, reply);
    FreeCallReply(reply);
    return API_OK;
}

/* PINK.CLUSTER COUNTKEYSINSLOT slot | GETKEYSINSLOT slot most | RESET | FLUSHSLOTS | REPLICATE node */
int cluster_command(Ctx *ctx, String **argv, int argc) {
    long long slot = 0, most = INT64_MAX;
    if (argc < 2) return reply_arity(ctx, "cluster");
    const char *word = StringPtrLen(argv[1], NULL);
    int counts = !strcasecmp(word, "COUNTKEYSINSLOT");
    if (!counts && strcasecmp(word, "GETKEYSINSLOT")) return without_keys(ctx, argv, argc);
    if (argc != (counts ? 3 : 4)) return reply_arity(ctx, counts ? "cluster|countkeysinslot" : "cluster|getkeysinslot");
    if (StringToLongLong(argv[2], &slot) != API_OK || slot < 0 || slot >= SLOTS) return reply_text(ctx, "ERR Invalid slot");
    if (!counts && (StringToLongLong(argv[3], &most) != API_OK || most < 0)) return reply_text(ctx, "ERR Invalid number of keys");
    return tell_slot(ctx, slot, most, counts);
}

/* PINK.RAW SET key value | DEL key: whoever has the slot, for the moving of slots. PINK.VALUE, a GET of this kind, does not write, so
 * it is served while writes are paused. */
int raw_command(Ctx *ctx, String **argv, int argc) {
    if (argc < 3) return reply_arity(ctx, "pink.raw");
    const char *word = StringPtrLen(argv[1], NULL);
    if (!strcasecmp(word, "SET")) return set_command(ctx, argv + 1, argc - 1);
    if (!strcasecmp(word, "DEL")) return del_command(ctx, argv + 1, argc - 1);
    return reply_text(ctx, "ERR PINK.RAW has SET and DEL");
}

static int is_refused(Ctx *ctx, CallReply *reply) {
    if (reply && CallReplyType(reply) != REPLY_ERROR) return 0;
    if (reply) ReplyWithCallReply(ctx, reply);
    else reply_text(ctx, "ERR this server is no part of a cluster");
    return 1;
}

/* PINK.TAKE slot source own: this server takes a slot from another one, with an epoch above all others, and tells all servers at once.
 * Redis tells them only at the end of an import, so the slot is imported for the time of this command, in which nobody looks up a key. If the
 * others heard of it later, and the source got a newer epoch in between, they would say that the source has the slot, and nobody would. */
int take_command(Ctx *ctx, String **argv, int argc) {
    if (argc != 4) return reply_arity(ctx, "pink.take");
    CallReply *begun = Call(ctx, "CLUSTER", "cscs", "SETSLOT", argv[1], "IMPORTING", argv[2]), *taken = NULL;
    if (!is_refused(ctx, begun)) {
        taken = Call(ctx, "CLUSTER", "cscs", "SETSLOT", argv[1], "NODE", argv[3]);
        if (!is_refused(ctx, taken)) ReplyWithSimpleString(ctx, "OK");
    }
    if (taken) FreeCallReply(taken);
    if (begun) FreeCallReply(begun);
    return API_OK;
}

/* PINK.OWNS key: refused by Redis if the slot of the key belongs to another server. */
int owns_command(Ctx *ctx, String **argv, int argc) {
    (void)argv;
    return argc == 2 ? ReplyWithSimpleString(ctx, "OK") : reply_arity(ctx, "pink.owns");
}
