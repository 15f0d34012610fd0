#include "filter.h"

#include <stdlib.h>
#include <string.h>
#include <strings.h>

#include "commands.h"
#include "bytes.h"

typedef struct { const char *plain, *name; String *string; } Renamed;
static Renamed renamed[] = {
    {"get", "pink.get", NULL},       {"set", "pink.set", NULL},       {"del", "pink.del", NULL},   {"exists", "pink.exists", NULL},
    {"mget", "pink.mget", NULL},     {"mset", "pink.mset", NULL},     {"scan", "pink.scan", NULL}, {"setnx", "pink.setnx", NULL},
    {"strlen", "pink.strlen", NULL}, {"unlink", "pink.unlink", NULL}, {"type", "pink.type", NULL}, {"dbsize", "pink.dbsize", NULL},
};
enum { RENAMED = sizeof renamed / sizeof *renamed };

/* These use no key, or are those of scripts, whose commands pass the filter one by one. In the order of bytes. */
static const char *const passing[] = {
    "acl", "asking", "auth", "bgsave", "client", "cluster", "command", "config", "discard", "echo", "eval", "eval_ro", "evalsha",
    "evalsha_ro", "exec", "failover", "fcall", "fcall_ro", "function", "hello", "info", "lastsave", "latency", "lolwut", "memory",
    "module", "monitor", "multi", "ping", "psubscribe", "psync", "publish", "pubsub", "punsubscribe", "quit", "readonly", "readwrite",
    "replconf", "replicaof", "reset", "role", "save", "script", "select", "shutdown", "slaveof", "slowlog", "spublish", "ssubscribe",
    "subscribe", "sunsubscribe", "sync", "time", "unsubscribe", "unwatch", "wait", "watch",
};
enum { PASSING = sizeof passing / sizeof *passing };

static String *cluster_name, *refuse_name;

static void rename_to(FilterCtx *ctx, String *name) {
    RetainString(NULL, name);
    CommandFilterArgReplace(ctx, 0, name);
}

/* The refusal is told the name. */
static void refuse(FilterCtx *ctx) {
    String *word = CommandFilterArgGet(ctx, 0);
    RetainString(NULL, word);
    CommandFilterArgInsert(ctx, 1, word);
    rename_to(ctx, refuse_name);
}

static int is_word(FilterCtx *ctx, int place, const char *word) {
    return CommandFilterArgsCount(ctx) > place && !strcasecmp(StringPtrLen(CommandFilterArgGet(ctx, place), NULL), word);
}

/* The parts of CLUSTER that ask for keys, and those with which redis-cli would move slots: in one that is MIGRATING Redis looks each key
 * up in its own table, and finds none. */
static void filter_cluster(FilterCtx *ctx) {
    static const char *const own[] = {"countkeysinslot", "getkeysinslot", "reset", "flushslots", "replicate"};
    for (size_t i = 0; i < sizeof own / sizeof *own; i++)
        if (is_word(ctx, 1, own[i])) rename_to(ctx, cluster_name);
    if (is_word(ctx, 1, "setslot") && (is_word(ctx, 3, "migrating") || is_word(ctx, 3, "importing"))) refuse(ctx);
}

static int is_before(const void *left, const void *right) { return strcasecmp(left, *(const char *const *)right); }

static void filter(FilterCtx *ctx) {
    const char *word = StringPtrLen(CommandFilterArgGet(ctx, 0), NULL);
    for (int i = 0; i < RENAMED; i++) {
        if ((*word | 0x20) != *renamed[i].plain || strcasecmp(word, renamed[i].plain)) continue;
        rename_to(ctx, renamed[i].string);
        return;
    }
    if (!strncasecmp(word, "pink.", 5)) return;
    if (!bsearch(word, passing, PASSING, sizeof *passing, is_before)) refuse(ctx);
    else if (!strcasecmp(word, "cluster")) filter_cluster(ctx);
    else if (!strcasecmp(word, "memory") && is_word(ctx, 1, "usage")) refuse(ctx);
}

/* PINK.REFUSE name .. */
static int refuse_command(Ctx *ctx, String **argv, int argc) {
    static const char front[] = "ERR unknown command '", middle[] = "'; the drive has";
    Bytes text = {0};
    size_t length = 0;
    const char *name = argc > 1 ? StringPtrLen(argv[1], &length) : "";
    add_bytes(&text, front, sizeof front - 1);
    add_bytes(&text, name, length < 64 ? length : 64);
    add_bytes(&text, middle, sizeof middle - 1);
    for (int i = 0; i < RENAMED; i++) {
        char capital[16] = " ";
        for (size_t at = 0; renamed[i].plain[at]; at++) capital[at + 1] = (char)(renamed[i].plain[at] & ~0x20);
        add_bytes(&text, capital, strlen(capital));
    }
    add_bytes(&text, "", 1);
    ReplyWithError(ctx, text.at);
    drop_bytes(&text);
    return API_OK;
}

static String *named(const char *name) { return CreateString(NULL, name, strlen(name)); }

int register_filter(Ctx *ctx) {
    if (CreateCommand(ctx, "pink.refuse", refuse_command, "", 0, 0, 0) != API_OK) return API_ERR;
    for (int i = 0; i < RENAMED; i++) renamed[i].string = named(renamed[i].name);
    cluster_name = named("pink.cluster");
    refuse_name = named("pink.refuse");
    return RegisterCommandFilter(ctx, filter, FILTER_NOT_OWN_CALLS) ? API_OK : API_ERR;
}
