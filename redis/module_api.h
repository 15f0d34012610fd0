/* The part of the interface for modules of Redis 7.0 that this module uses, declared from its documentation: names, arguments
 * and numbers alone. Each function is asked for by name when the module is loaded (api_find). */
#ifndef PINK_MODULE_API_H
#define PINK_MODULE_API_H

#include <stddef.h>
#include <stdint.h>

#define API_OK 0
#define API_ERR 1
#define API_VERSION 1
#define TYPE_METHODS_VERSION 4

typedef struct RedisModuleCtx Ctx;
typedef struct RedisModuleString String;
typedef struct RedisModuleBlockedClient Blocked;
typedef struct RedisModuleIO Io;
typedef struct RedisModuleType Type;
typedef struct RedisModuleCommandFilter Filter;
typedef struct RedisModuleCommandFilterCtx FilterCtx;
typedef struct RedisModuleInfoCtx InfoCtx;
typedef struct RedisModuleCallReply CallReply;
typedef struct { uint64_t id, version; } Event;
typedef int Command(Ctx *, String **, int);

/* The methods of a type of values; of these only the two of auxiliary data are used. */
typedef struct {
    uint64_t version;
    void *rdb_load, *rdb_save, *aof_rewrite, *mem_usage, *digest, *free;
    int (*aux_load)(Io *, int version, int when);
    void (*aux_save)(Io *, int when);
    int aux_save_triggers;
    void *rest[10];
} TypeMethods;
enum { AUX_BEFORE_RDB = 1 };

enum { OPTION_HANDLE_IO_ERRORS = 1 };
enum { FILTER_NOT_OWN_CALLS = 1 };
enum { REPLY_ERROR = 1 };
enum { EVENTLOOP_READABLE = 1, EVENTLOOP_WRITABLE = 2 };
enum { EVENT_ROLE = 0, EVENT_LOADING = 3, EVENT_SHUTDOWN = 5, EVENT_EVENTLOOP = 15 };
enum { ROLE_NOW_PRIMARY = 0, ROLE_NOW_REPLICA = 1 };
enum { LOADING_RDB = 0, LOADING_AOF = 1, LOADING_REPLICA = 2, LOADING_ENDED = 3, LOADING_FAILED = 4 };
enum { LOOP_BEFORE_SLEEP = 0, LOOP_AFTER_SLEEP = 1 };
enum {
    FLAG_LUA = 1 << 0,
    FLAG_MULTI = 1 << 1,
    FLAG_PRIMARY = 1 << 2,
    FLAG_REPLICATED = 1 << 12,
    FLAG_LOADING = 1 << 13,
    FLAG_DENY_BLOCKING = 1 << 21
};

#define API_FUNCTIONS(F) \
    F(int, CreateCommand, (Ctx *, const char *, Command *, const char *, int, int, int)) \
    F(void, SetModuleAttribs, (Ctx *, const char *, int, int)) \
    F(int, IsModuleNameBusy, (const char *)) \
    F(int, GetSelectedDb, (Ctx *)) \
    F(int, ReplyWithLongLong, (Ctx *, long long)) \
    F(int, ReplyWithError, (Ctx *, const char *)) \
    F(int, ReplyWithSimpleString, (Ctx *, const char *)) \
    F(int, ReplyWithArray, (Ctx *, long)) \
    F(int, ReplyWithNull, (Ctx *)) \
    F(int, ReplyWithStringBuffer, (Ctx *, const char *, size_t)) \
    F(int, ReplyWithCallReply, (Ctx *, CallReply *)) \
    F(String *, CreateString, (Ctx *, const char *, size_t)) \
    F(void, FreeString, (Ctx *, String *)) \
    F(void, RetainString, (Ctx *, String *)) \
    F(const char *, StringPtrLen, (const String *, size_t *)) \
    F(int, StringToLongLong, (const String *, long long *)) \
    F(Blocked *, BlockClient, (Ctx *, Command *, Command *, void (*)(Ctx *, void *), long long)) \
    F(int, UnblockClient, (Blocked *, void *)) \
    F(void *, GetBlockedClientPrivateData, (Ctx *)) \
    F(int, BlockedClientMeasureTimeStart, (Blocked *)) \
    F(int, BlockedClientMeasureTimeEnd, (Blocked *)) \
    F(Filter *, RegisterCommandFilter, (Ctx *, void (*)(FilterCtx *), int)) \
    F(int, CommandFilterArgsCount, (FilterCtx *)) \
    F(String *, CommandFilterArgGet, (FilterCtx *, int)) \
    F(int, CommandFilterArgInsert, (FilterCtx *, int, String *)) \
    F(int, CommandFilterArgReplace, (FilterCtx *, int, String *)) \
    F(int, SubscribeToServerEvent, (Ctx *, Event, void (*)(Ctx *, Event, uint64_t, void *))) \
    F(int, EventLoopAdd, (int, int, void (*)(int, void *, int), void *)) \
    F(int, EventLoopDel, (int, int)) \
    F(int, Replicate, (Ctx *, const char *, const char *, ...)) \
    F(int, GetContextFlags, (Ctx *)) \
    F(int, AvoidReplicaTraffic, (void)) \
    F(CallReply *, Call, (Ctx *, const char *, const char *, ...)) \
    F(int, CallReplyType, (CallReply *)) \
    F(void, FreeCallReply, (CallReply *)) \
    F(int, SignalModifiedKey, (Ctx *, String *)) \
    F(Type *, CreateDataType, (Ctx *, const char *, int, TypeMethods *)) \
    F(void, SetModuleOptions, (Ctx *, int)) \
    F(int, IsIOError, (Io *)) \
    F(void, SaveUnsigned, (Io *, uint64_t)) \
    F(uint64_t, LoadUnsigned, (Io *)) \
    F(void, SaveStringBuffer, (Io *, const char *, size_t)) \
    F(char *, LoadStringBuffer, (Io *, size_t *)) \
    F(void, Free, (void *)) \
    F(void, Log, (Ctx *, const char *, const char *, ...)) \
    F(int, RegisterInfoFunc, (Ctx *, void (*)(InfoCtx *, int))) \
    F(int, InfoAddSection, (InfoCtx *, const char *)) \
    F(int, InfoAddFieldULongLong, (InfoCtx *, const char *, unsigned long long))

#define API_DECLARE(result, name, arguments) extern result(*name) arguments;
API_FUNCTIONS(API_DECLARE)
#undef API_DECLARE

/* Finds all functions; the name of the first that this server lacks, or NULL. */
const char *api_find(Ctx *ctx);

#endif
