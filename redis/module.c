/* pink.so: a module for redis-server 7.0 that keeps strings on the key-value drive of `pink IMAGE serve`.
 *
 *   loadmodule pink.so IMAGE [program PATH] [frames N] [spares S] [names plain|hashed] [sync no|yes]
 *
 * All is done in the thread of the server, without locks. rounds.h says how; replication.h and fullsync.h what replicas do. */
#include <stdio.h>
#include <stdlib.h>
#include <strings.h>

#include "commands.h"
#include "filter.h"
#include "fullsync.h"
#include "info.h"
#include "names.h"
#include "refusals.h"
#include "replication.h"

enum { MODULE_VERSION = 1 };

/* Events of the server. */

static void on_loop(Ctx *ctx, Event event, uint64_t part, void *data) {
    (void)event, (void)data;
    if (part == LOOP_BEFORE_SLEEP) end_round(ctx);
    else after_sleep();
}

static void on_role(Ctx *ctx, Event event, uint64_t role, void *data) {
    (void)ctx, (void)event, (void)data;
    if (role == ROLE_NOW_PRIMARY) replicate_from_now();
    else drop_held(); /* Redis has told the clients of these changes that the role has changed */
}

static void on_loading(Ctx *ctx, Event event, uint64_t what, void *data) {
    (void)ctx, (void)event, (void)data;
    loading_began(what == LOADING_REPLICA);
    if (what == LOADING_RDB || what == LOADING_AOF) dump_was_loaded();
}

static void on_shutdown(Ctx *ctx, Event event, uint64_t what, void *data) {
    (void)ctx, (void)event, (void)what, (void)data;
    pipe_finish();
    pipe_close();
}

/* Between rounds nothing can be read but the end of the program. */
static void on_readable(int file, void *data, int mask) {
    (void)file, (void)data, (void)mask;
    pipe_ended();
}

static void subscribe(Ctx *ctx) {
    SubscribeToServerEvent(ctx, (Event){EVENT_EVENTLOOP, 1}, on_loop);
    SubscribeToServerEvent(ctx, (Event){EVENT_ROLE, 1}, on_role);
    SubscribeToServerEvent(ctx, (Event){EVENT_LOADING, 1}, on_loading);
    SubscribeToServerEvent(ctx, (Event){EVENT_SHUTDOWN, 1}, on_shutdown);
}

/* The arguments. */

static const char *own_text(String *word) {
    size_t length;
    const char *text = StringPtrLen(word, &length);
    return needed(strndup(text, length));
}

static int is_one_of(const char *word, const char *first, const char *second) {
    return !strcasecmp(word, first) ? 0 : !strcasecmp(word, second) ? 1 : -1;
}

/* Sets one word of the module; 0 if there is none of this name, or it has no such value. */
static int set_word(Start *start, const char *name, const char *value) {
    if (!strcasecmp(name, "program")) start->program = value;
    else if (!strcasecmp(name, "frames")) start->frames = value;
    else if (!strcasecmp(name, "spares")) start->spares = value;
    else if (!strcasecmp(name, "names")) names_are_hashed = is_one_of(value, "plain", "hashed");
    else if (!strcasecmp(name, "sync")) start->synced = is_one_of(value, "no", "yes");
    else return 0;
    return names_are_hashed >= 0 && start->synced >= 0;
}

static int read_words(Ctx *ctx, String **argv, int argc, Start *start) {
    int is_right = argc % 2 == 1;
    for (int i = 1; is_right && i < argc; i += 2) is_right = set_word(start, own_text(argv[i]), own_text(argv[i + 1]));
    if (!is_right)
        Log(ctx, "warning", "loadmodule pink.so IMAGE [program PATH] [frames N] [spares S] [names plain|hashed] [sync no|yes]");
    return is_right;
}

static int start_drive(Ctx *ctx, const Start *start) {
    const char *fault = read_mark(start->image);
    if (!fault) fault = pipe_open(start);
    if (fault) Log(ctx, "warning", "%s", fault);
    return !fault;
}

__attribute__((visibility("default"))) int RedisModule_OnLoad(Ctx *ctx, String **argv, int argc) {
    const char *missing = api_find(ctx);
    if (missing) {
        fprintf(stderr, "pink.so: this server has no RedisModule_%s: it has to be of version 7.0\n", missing);
        return API_ERR;
    }
    if (IsModuleNameBusy("pink")) return API_ERR;
    SetModuleAttribs(ctx, "pink", MODULE_VERSION, API_VERSION);
    Start start = {.program = "pink", .frames = "520"};
    if (argc) start.image = own_text(argv[0]);
    if (!read_words(ctx, argv, argc, &start) || !start_drive(ctx, &start)) return API_ERR;
    read_shape(start.image);
    if (register_commands(ctx) != API_OK || register_filter(ctx) != API_OK || register_info(ctx) != API_OK) return API_ERR;
    if (register_copies(ctx) != API_OK) return API_ERR;
    subscribe(ctx);
    return EventLoopAdd(pipe_numbers()->from, EVENTLOOP_READABLE, on_readable, NULL);
}
