#include "fullsync.h"

#include <pthread.h>
#include <stdlib.h>
#include <time.h>

#include "names.h"
#include "replication.h"
#include "walk.h"

enum { GATHERED_BYTES = 1 << 20, PAIR_HEAD = 6 };
/* In place of the count of pairs, if the drive does not hold what it should. */
#define NOT_WHOLE UINT64_MAX

static struct {
    CopyNumbers numbers;
    Bytes pairs; /* a namespace, a key length, a value length (u32), the key and the value of each */
    uint64_t count, unread;
    int taken, from_primary;
} it;

const CopyNumbers *copy_numbers(void) { return &it.numbers; }

void loading_began(int from_primary) { it.from_primary = from_primary; }

/* Saving. A child of the server that saves has the pairs of the moment of the fork, and does not touch the pipes. */

static void add_pair(void *to, int space, const char *key, size_t length, const char *value, size_t bytes) {
    char head[PAIR_HEAD] = {(char)space, (char)length};
    put32(head + 2, (uint32_t)bytes);
    add_bytes(to, head, sizeof head);
    add_bytes(to, key, length);
    add_bytes(to, value, bytes);
    it.count++;
}

static uint64_t now_us(void) {
    struct timespec now;
    clock_gettime(CLOCK_MONOTONIC, &now);
    return (uint64_t)now.tv_sec * 1000000 + (uint64_t)now.tv_nsec / 1000;
}

static void take_snapshot(void) {
    uint64_t began = now_us();
    it.count = it.unread = 0;
    it.pairs.length = 0;
    for (int space = 1, spaces = count_spaces(); space <= spaces; space++)
        it.unread += walk_space(space, 1, add_pair, &it.pairs);
    it.taken = 1;
    it.numbers.snapshots++;
    it.numbers.pairs = it.count;
    it.numbers.last_us = now_us() - began;
}

static void drop_snapshot(void) {
    drop_bytes(&it.pairs);
    it.taken = 0;
}

static void before_fork(void) {
    replicate_from_now();
    take_snapshot();
}

static void aux_save(Io *io, int when) {
    (void)when;
    int own = !it.taken; /* SAVE is done without a fork */
    if (own) take_snapshot();
    int whole = !is_partial() && !it.unread;
    SaveUnsigned(io, (uint64_t)names_are_hashed);
    SaveUnsigned(io, whole ? it.count : NOT_WHOLE); /* nobody may take a drive that is not whole for a copy */
    const char *at = it.pairs.at;
    for (uint64_t i = 0; whole && i < it.count; i++) {
        size_t length = (unsigned char)at[1], bytes = get32(at + 2);
        SaveUnsigned(io, (unsigned char)at[0]);
        SaveStringBuffer(io, at + PAIR_HEAD, length);
        SaveStringBuffer(io, at + PAIR_HEAD + length, bytes);
        at += PAIR_HEAD + length + bytes;
    }
    if (own) drop_snapshot();
}

/* Loading. */

static Part sent; /* the command that was refused, if there is one: without its value */

static void take_stored(void *of, const Record *record) {
    (void)of;
    if (record->status != DONE && record->status != NO_KEY && sent.status == DONE) sent.status = record->status;
}

static void send_pair(int opcode, int space, const char *key, size_t length, const char *value, size_t bytes) {
    if (sent.status == DONE) {
        sent.opcode = (unsigned char)opcode;
        sent.space = (unsigned char)space;
        sent.size = (uint32_t)bytes;
        sent.key_length = (unsigned char)length;
        memcpy(sent.key, key, length);
    }
    pipe_send(&(Entry){.opcode = opcode, .space = space, .key = key, .key_length = length, .size = (uint32_t)bytes, .value = value},
              take_stored, NULL);
}

static void delete_key(void *to, int space, const char *key, size_t length, const char *value, size_t bytes) {
    (void)to, (void)value, (void)bytes;
    send_pair(DELETE, space, key, length, NULL, 0);
}

static void empty_drive(void) {
    for (int space = 1, spaces = count_spaces(); space <= spaces; space++) walk_space(space, 0, delete_key, NULL);
    pipe_finish();
}

/* One pair; API_ERR if the file ends before it does. */
static int load_pair(Io *io, size_t *gathered) {
    size_t length = 0, bytes = 0;
    int space = (int)LoadUnsigned(io);
    char *key = LoadStringBuffer(io, &length), *value = key ? LoadStringBuffer(io, &bytes) : NULL;
    int is_whole = value && length <= KEY_BYTES;
    if (is_whole && it.from_primary) send_pair(STORE, space, key, length, value, bytes);
    if (key) Free(key);
    if (value) Free(value);
    *gathered += bytes + ENTRY_BYTES;
    return is_whole ? API_OK : API_ERR;
}

static int load_pairs(Io *io, uint64_t pairs) {
    size_t gathered = 0;
    for (uint64_t i = 0; i < pairs; i++) {
        if (load_pair(io, &gathered) != API_OK) return API_ERR;
        if (gathered < GATHERED_BYTES) continue;
        pipe_finish();
        gathered = 0;
        if (sent.status != DONE) copy_refused(&sent);
    }
    pipe_finish();
    if (sent.status != DONE) copy_refused(&sent);
    return API_OK;
}

static int aux_load(Io *io, int version, int when) {
    (void)version, (void)when;
    uint64_t are_hashed = LoadUnsigned(io), pairs = LoadUnsigned(io);
    if (IsIOError(io)) return API_ERR;
    if (it.from_primary && are_hashed != (uint64_t)names_are_hashed) names_differ();
    if (pairs == NOT_WHOLE) {
        if (it.from_primary) primary_is_partial();
        return API_OK;
    }
    sent.status = DONE;
    if (it.from_primary) {
        if (begin_copy() != API_OK) return API_ERR;
        empty_drive();
    }
    if (load_pairs(io, pairs) != API_OK) return API_ERR;
    if (it.from_primary) end_copy();
    Log(NULL, "notice", "%llu pairs %s", (unsigned long long)pairs, it.from_primary ? "taken from the primary" : "skipped: the drive has them");
    return API_OK;
}

int register_copies(Ctx *ctx) {
    TypeMethods methods = {
        .version = TYPE_METHODS_VERSION, .aux_load = aux_load, .aux_save = aux_save, .aux_save_triggers = AUX_BEFORE_RDB};
    SetModuleOptions(ctx, OPTION_HANDLE_IO_ERRORS);
    if (!CreateDataType(ctx, "pinkdrive", 1, &methods)) return API_ERR;
    return pthread_atfork(before_fork, drop_snapshot, pipe_leave) ? API_ERR : API_OK;
}
