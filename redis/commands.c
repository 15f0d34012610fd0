#include "commands.h"

#include <strings.h>

#include "names.h"
#include "refusals.h"
#include "replication.h"

int reply_text(Ctx *ctx, const char *text) { return ReplyWithError(ctx, text); }

int reply_arity(Ctx *ctx, const char *name) {
    Bytes text = {0};
    static const char front[] = "ERR wrong number of arguments for '", back[] = "' command";
    add_bytes(&text, front, sizeof front - 1);
    add_bytes(&text, name, strlen(name));
    add_bytes(&text, back, sizeof back);
    ReplyWithError(ctx, text.at);
    drop_bytes(&text);
    return API_OK;
}

/* Replies. */

/* Replies with the first refusal of a request; 0 if there is none. */
static int say_refused(Ctx *ctx, const Request *request) {
    for (int i = 0; i < request->parts; i++) {
        int status = request->part[i].status;
        if (status == DONE || status == NO_KEY || status == KEY_IS_THERE) continue;
        reply_refusal(ctx, &request->part[i]);
        return 1;
    }
    return 0;
}

static int say_one(Ctx *ctx, const Part *part) {
    if (part->status != DONE) return ReplyWithNull(ctx);
    return ReplyWithStringBuffer(ctx, part->data ? part->data + part->front : "", part->length - part->front);
}

static int say_value(Ctx *ctx, Request *request) { return say_refused(ctx, request) ? API_OK : say_one(ctx, request->part); }

static int say_values(Ctx *ctx, Request *request) {
    if (say_refused(ctx, request)) return API_OK;
    ReplyWithArray(ctx, request->parts);
    for (int i = 0; i < request->parts; i++) say_one(ctx, &request->part[i]);
    return API_OK;
}

static int say_set(Ctx *ctx, Request *request) {
    if (say_refused(ctx, request)) return API_OK;
    return request->part->status == DONE ? ReplyWithSimpleString(ctx, "OK") : ReplyWithNull(ctx);
}

static int say_ok(Ctx *ctx, Request *request) { return say_refused(ctx, request) ? API_OK : ReplyWithSimpleString(ctx, "OK"); }

static int say_count(Ctx *ctx, Request *request) {
    long long done = 0;
    if (say_refused(ctx, request)) return API_OK;
    for (int i = 0; i < request->parts; i++) done += request->part[i].status == DONE;
    return ReplyWithLongLong(ctx, done);
}

static int say_length(Ctx *ctx, Request *request) {
    if (say_refused(ctx, request)) return API_OK;
    return ReplyWithLongLong(ctx, request->part->status == DONE ? request->part->result : 0);
}

static int say_type(Ctx *ctx, Request *request) {
    if (say_refused(ctx, request)) return API_OK;
    return ReplyWithSimpleString(ctx, request->part->status == DONE ? "string" : "none");
}

/* Parts. */

static void fill(Ctx *ctx, Part *part, int opcode, String *name, uint32_t size) {
    part->opcode = (unsigned char)opcode;
    part->space = (unsigned char)(GetSelectedDb(ctx) + 1);
    part->size = size;
    part->name = name;
    RetainString(ctx, name);
}

/* Commands with keys alone: one part for each. */
static int ask_keys(Ctx *ctx, String **argv, int argc, Request *request, int opcode, uint32_t size) {
    for (int i = 1; i < argc; i++) {
        fill(ctx, &request->part[i - 1], opcode, argv[i], size);
        gather(ctx, &request->part[i - 1]);
    }
    return run_request(ctx, request);
}

static void gather_store(Ctx *ctx, Part *part, String *name, String *value, int options) {
    size_t length;
    StringPtrLen(value, &length);
    fill(ctx, part, STORE, name, (uint32_t)length);
    part->options = (unsigned char)options;
    part->value = value;
    RetainString(ctx, value);
    gather(ctx, part);
}

/* Commands. */

int get_command(Ctx *ctx, String **argv, int argc) {
    if (argc != 2) return reply_arity(ctx, "get");
    if (!is_whole(ctx)) return API_OK;
    return ask_keys(ctx, argv, argc, request_of(say_value, 1, 0), RETRIEVE, GREATEST_VALUE);
}

static int strlen_command(Ctx *ctx, String **argv, int argc) {
    if (argc != 2) return reply_arity(ctx, "strlen");
    if (!is_whole(ctx)) return API_OK;
    return ask_keys(ctx, argv, argc, request_of(say_length, 1, 0), RETRIEVE, 0);
}

static int type_command(Ctx *ctx, String **argv, int argc) {
    if (argc != 2) return reply_arity(ctx, "type");
    if (!is_whole(ctx)) return API_OK;
    return ask_keys(ctx, argv, argc, request_of(say_type, 1, 0), EXIST, 0);
}

static int mget_command(Ctx *ctx, String **argv, int argc) {
    if (argc < 2) return reply_arity(ctx, "mget");
    if (!is_whole(ctx)) return API_OK;
    return ask_keys(ctx, argv, argc, request_of(say_values, argc - 1, 0), RETRIEVE, GREATEST_VALUE);
}

static int exists_command(Ctx *ctx, String **argv, int argc) {
    if (argc < 2) return reply_arity(ctx, "exists");
    if (!is_whole(ctx)) return API_OK;
    return ask_keys(ctx, argv, argc, request_of(say_count, argc - 1, 0), EXIST, 0);
}

static int delete_keys(Ctx *ctx, String **argv, int argc, const char *name) {
    if (argc < 2) return reply_arity(ctx, name);
    if (!is_whole(ctx)) return API_OK;
    return ask_keys(ctx, argv, argc, request_of(say_count, argc - 1, 1), DELETE, 0);
}

int del_command(Ctx *ctx, String **argv, int argc) { return delete_keys(ctx, argv, argc, "del"); }
static int unlink_command(Ctx *ctx, String **argv, int argc) { return delete_keys(ctx, argv, argc, "unlink"); }

typedef struct { int options, before; } SetOptions;

/* The options of SET; NULL, or what is wrong with them, which is valid until the next call. */
static const char *parse_options(String **argv, int argc, SetOptions *told) {
    static Bytes fault;
    for (int i = 3; i < argc; i++) {
        size_t length;
        const char *word = StringPtrLen(argv[i], &length);
        if (length == 2 && !strncasecmp(word, "NX", 2)) told->options |= IF_ABSENT;
        else if (length == 2 && !strncasecmp(word, "XX", 2)) told->options |= IF_EXISTS;
        else if (length == 3 && !strncasecmp(word, "GET", 3)) told->before = 1;
        else {
            static const char front[] = "ERR syntax error: SET has NX, XX and GET, not '", back[] = "' (keys do not expire)";
            fault.length = 0;
            add_bytes(&fault, front, sizeof front - 1);
            add_bytes(&fault, word, length < 32 ? length : 32);
            add_bytes(&fault, back, sizeof back);
            return fault.at;
        }
    }
    return told->options == (IF_ABSENT | IF_EXISTS) ? "ERR syntax error: NX and XX exclude each other" : NULL;
}

int set_command(Ctx *ctx, String **argv, int argc) {
    SetOptions told = {0, 0};
    if (argc < 3) return reply_arity(ctx, "set");
    const char *fault = parse_options(argv, argc, &told);
    if (fault) return reply_text(ctx, fault);
    if (!is_whole(ctx)) return API_OK;
    Request *request = request_of(told.before ? say_value : say_set, 1 + told.before, 1);
    if (told.before) {
        fill(ctx, request->part, RETRIEVE, argv[1], GREATEST_VALUE);
        gather(ctx, request->part);
    }
    gather_store(ctx, &request->part[told.before], argv[1], argv[2], told.options);
    return run_request(ctx, request);
}

static int setnx_command(Ctx *ctx, String **argv, int argc) {
    if (argc != 3) return reply_arity(ctx, "setnx");
    if (!is_whole(ctx)) return API_OK;
    Request *request = request_of(say_count, 1, 1);
    gather_store(ctx, request->part, argv[1], argv[2], IF_ABSENT);
    return run_request(ctx, request);
}

static int mset_command(Ctx *ctx, String **argv, int argc) {
    if (argc < 3 || argc % 2 == 0) return reply_arity(ctx, "mset");
    if (!is_whole(ctx)) return API_OK;
    Request *request = request_of(say_ok, argc / 2, 1);
    for (int i = 1; i < argc; i += 2) gather_store(ctx, &request->part[i / 2], argv[i], argv[i + 1], 0);
    return run_request(ctx, request);
}

/* The table. */

int register_commands(Ctx *ctx) {
    static const struct { const char *name; Command *command; const char *flags; int first, last, step; } table[] = {
        {"pink.get", get_command, "readonly fast", 1, 1, 1},
        {"pink.set", set_command, "write", 1, 1, 1},
        {"pink.setnx", setnx_command, "write fast", 1, 1, 1},
        {"pink.del", del_command, "write", 1, -1, 1},
        {"pink.unlink", unlink_command, "write fast", 1, -1, 1},
        {"pink.exists", exists_command, "readonly fast", 1, -1, 1},
        {"pink.strlen", strlen_command, "readonly fast", 1, 1, 1},
        {"pink.type", type_command, "readonly fast", 1, 1, 1},
        {"pink.mget", mget_command, "readonly fast", 1, -1, 1},
        {"pink.mset", mset_command, "write", 1, -1, 2},
        {"pink.scan", scan_command, "readonly", 0, 0, 0},
        {"pink.dbsize", dbsize_command, "readonly fast", 0, 0, 0},
        {"pink.cluster", cluster_command, "readonly admin", 0, 0, 0},
        {"pink.value", get_command, "readonly admin", 0, 0, 0},
        {"pink.raw", raw_command, "write admin", 0, 0, 0},
        {"pink.take", take_command, "admin", 0, 0, 0},
        {"pink.owns", owns_command, "readonly admin fast", 1, 1, 1},
        {"pink.apply", apply_batch, "write no-monitor no-slowlog", 0, 0, 0},
    };
    for (size_t i = 0; i < sizeof table / sizeof *table; i++) {
        if (CreateCommand(ctx, table[i].name, table[i].command, table[i].flags, table[i].first, table[i].last, table[i].step) != API_OK)
            return API_ERR;
    }
    return API_OK;
}
