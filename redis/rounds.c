#include "rounds.h"

#include <stdlib.h>

#include "names.h"
#include "replication.h"

static struct {
    RoundNumbers numbers;
    Part **held; /* the changes that are not sent yet, in their order */
    size_t count, room;
    Bytes batch;  /* the entries of changes that are done and not replicated yet */
    int checking; /* the names of changes are being compared */
    int paused;   /* a round ended in a pause, and what is held is of that round */
    int asleep, armed, answered;
} it;

const RoundNumbers *round_numbers(void) { return &it.numbers; }

void replicate_from_now(void) { it.numbers.replicates = 1; }

int is_change(const Part *part) { return part->opcode == STORE || part->opcode == DELETE; }

/* Requests. */

Request *request_of(Say *say, int parts, int changes) {
    Request *request = needed(calloc(1, sizeof *request + (size_t)parts * sizeof(Part)));
    request->say = say;
    request->parts = parts;
    request->changes = changes;
    for (int i = 0; i < parts; i++) request->part[i].request = request;
    return request;
}

static void free_request(Ctx *ctx, void *data) {
    Request *request = data;
    for (int i = 0; i < request->parts; i++) {
        free(request->part[i].data);
        if (request->part[i].name) FreeString(ctx, request->part[i].name);
        if (request->part[i].value) FreeString(ctx, request->part[i].value);
    }
    free(request);
}

Entry entry_of(const Part *part) {
    Entry entry = {.opcode = part->opcode, .space = part->space, .options = part->options, .size = part->size, .key = part->key,
                   .key_length = part->key_length};
    if (part->opcode != STORE) return entry;
    size_t length;
    entry.value = StringPtrLen(part->value, &length);
    if (names_are_hashed) {
        entry.front = front_of(part)->at;
        entry.front_length = front_of(part)->length;
        entry.size += (uint32_t)entry.front_length;
    }
    return entry;
}

/* A part has been answered; after the last of a request its client is. */
static void come(Part *part) {
    Request *request = part->request;
    if (++request->come < request->parts || !request->blocked) return;
    BlockedClientMeasureTimeEnd(request->blocked);
    UnblockClient(request->blocked, request);
    it.answered = 1;
}

/* A change is replicated without its options, as it is known to have succeeded. */
static void add_to_batch(const Part *part) {
    Entry entry = entry_of(part);
    entry.options = 0;
    encode(&it.batch, &entry);
}

static void take_part(void *of, const Record *record) {
    Part *part = of;
    part->status = record->status;
    part->result = record->result;
    part->length = record->length;
    if (record->length) {
        part->data = needed(malloc(record->length));
        memcpy(part->data, record->data, record->length);
    }
    if (names_are_hashed && !is_change(part) && part->status == DONE) take_front(part);
    if (is_change(part) && part->status == DONE && it.numbers.replicates) add_to_batch(part);
    come(part);
}

/* Changes. */

/* The name under the key of a change that waits: free, its own, or another one. */
static void take_check(void *of, const Record *record) {
    Part *part = of;
    if (record->status == DONE && !has_front(part, record)) part->status = OTHER_NAME;
    if (record->status != DONE && record->status != NO_KEY) part->status = record->status;
}

static void compare_name(Part *part) {
    Entry entry = entry_of(part);
    entry.opcode = RETRIEVE;
    entry.size = (uint32_t)front_of(part)->length;
    part->status = meet_name(part);
    pipe_send(&entry, take_check, part);
    it.checking = 1;
}

static void hold(Part *part) {
    if (it.count == it.room) {
        it.room = 2 * it.room + 1024;
        it.held = needed(realloc(it.held, it.room * sizeof *it.held));
    }
    it.held[it.count++] = part;
    if (names_are_hashed && is_change(part)) compare_name(part);
}

/* Redis looked up the slots of these changes before the pause. It looks up those of the commands that a module calls, too. */
static void look_up_slots(Ctx *ctx) {
    for (size_t i = 0; i < it.count; i++) {
        CallReply *reply = Call(ctx, "PINK.OWNS", "s", it.held[i]->name);
        if (reply) FreeCallReply(reply);
        else it.held[i]->status = MOVED_AWAY;
    }
}

static void send_held(Ctx *ctx) {
    if (it.checking) pipe_finish();
    if (it.paused) look_up_slots(ctx);
    it.checking = it.paused = 0;
    for (size_t i = 0; i < it.count; i++) {
        Part *part = it.held[i];
        Entry entry = entry_of(part);
        if (part->status == DONE) pipe_send(&entry, take_part, part);
        else come(part);
    }
    it.count = 0;
    forget_names();
}

void drop_held(void) {
    if (it.checking) pipe_finish();
    it.checking = it.paused = 0;
    for (size_t i = 0; i < it.count; i++) come(it.held[i]);
    it.numbers.dropped += it.count;
    it.count = 0;
    forget_names();
}

/* With hashed names whoever reads a value, or asks whether there is one, reads the name before it. */
static void read_front(Part *part) {
    uint32_t front = (uint32_t)front_of(part)->length;
    part->opcode = RETRIEVE;
    if (part->size < front) part->size = front;
}

void gather(Ctx *ctx, Part *part) {
    set_key(part);
    if (names_are_hashed && !is_change(part)) read_front(part);
    if (!part->request->changes) {
        Entry entry = entry_of(part);
        pipe_send(&entry, take_part, part);
        return;
    }
    hold(part);
    if (is_change(part))
        SignalModifiedKey(ctx, part->name); /* now, as a WATCH has to notice it before it is answered */
}

/* Rounds. */

static void replicate_batch(Ctx *ctx) {
    if (!it.batch.length) return;
    Replicate(ctx, "PINK.APPLY", "bA", it.batch.at, it.batch.length);
    it.numbers.batches++;
    it.batch.length = 0;
}

void end_round(Ctx *ctx) {
    it.asleep = 1;
    it.answered = 0;
    name_the_stream_anew(ctx);
    int is_paused = it.count && AvoidReplicaTraffic();
    if (is_paused) it.paused = 1;
    else if (it.count) send_held(ctx);
    pipe_finish();
    replicate_batch(ctx);
}

void after_sleep(void) { it.asleep = 0; }

static void on_writable(int file, void *data, int mask) {
    (void)data, (void)mask;
    EventLoopDel(file, EVENTLOOP_WRITABLE);
    it.armed = 0;
}

/* A command that is gathered after the end of the round, as the next one of a client that was just answered, has to wake the loop. The
 * loop wakes by itself if the module answered somebody; else a pipe that can be written, as it always can, wakes it. */
static void wake_the_loop(void) {
    if (!it.asleep || it.answered || it.armed) return;
    it.armed = EventLoopAdd(pipe_numbers()->to, EVENTLOOP_WRITABLE, on_writable, NULL) == API_OK;
}

static int on_reply(Ctx *ctx, String **argv, int argc) {
    (void)argv, (void)argc;
    Request *request = GetBlockedClientPrivateData(ctx);
    return request->say(ctx, request);
}

/* Reads alone may come while the clients that write are paused: then the changes that are held stay so. */
static int run_at_once(Ctx *ctx, Request *request) {
    if (request->changes) send_held(ctx);
    pipe_finish();
    replicate_batch(ctx);
    request->say(ctx, request);
    free_request(ctx, request);
    return API_OK;
}

int run_request(Ctx *ctx, Request *request) {
    if (GetContextFlags(ctx) & (FLAG_DENY_BLOCKING | FLAG_LUA | FLAG_MULTI)) return run_at_once(ctx, request);
    request->blocked = BlockClient(ctx, on_reply, NULL, free_request, 0);
    BlockedClientMeasureTimeStart(request->blocked);
    wake_the_loop();
    return API_OK;
}
