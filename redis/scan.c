/* SCAN and DBSIZE. They wait for the drive by themselves, as a SCAN with hashed names needs several answers after each other. */
#include <stdio.h>
#include <stdlib.h>
#include <strings.h>

#include "commands.h"
#include "glob.h"
#include "names.h"
#include "replication.h"
#include "walk.h"

enum { CURSORS = 10000 /* cursors that are kept; the oldest go first */, MOST_KEYS = (LIST_BYTES - 4) / KEY_ROOM };

static struct { unsigned char length; char key[KEY_BYTES]; } cursors[CURSORS];
static uint64_t last_cursor;

typedef struct {
    const char *pattern;
    size_t pattern_length, prefix, length; /* of the pattern, of its fixed front, and of the key to begin at */
    long long most;
    int is_of_strings, space;
    char start[KEY_BYTES + 1];
} Scan;

static const char *begin_at(Scan *scan, String *word) {
    long long number;
    if (StringToLongLong(word, &number) != API_OK || number < 0) return "ERR invalid cursor";
    if (!number) return NULL;
    if ((uint64_t)number > last_cursor || last_cursor - (uint64_t)number >= CURSORS)
        return "ERR invalid cursor: it is too old, or of a server before this one; begin with 0";
    scan->length = cursors[number % CURSORS].length;
    memcpy(scan->start, cursors[number % CURSORS].key, scan->length);
    return NULL;
}

static const char *parse_scan(Scan *scan, String **argv, int argc) {
    const char *fault = begin_at(scan, argv[1]);
    if (fault) return fault;
    if (argc % 2) return "ERR syntax error";
    for (int i = 2; i < argc; i += 2) {
        const char *word = StringPtrLen(argv[i], NULL);
        if (!strcasecmp(word, "MATCH")) scan->pattern = StringPtrLen(argv[i + 1], &scan->pattern_length);
        else if (!strcasecmp(word, "TYPE")) scan->is_of_strings = !strcasecmp(StringPtrLen(argv[i + 1], NULL), "string");
        else if (strcasecmp(word, "COUNT")) return "ERR syntax error: SCAN has MATCH, COUNT and TYPE";
        else if (StringToLongLong(argv[i + 1], &scan->most) != API_OK || scan->most < 1)
            return "ERR value is not an integer or out of range";
    }
    if (scan->most > MOST_KEYS) scan->most = MOST_KEYS;
    return NULL;
}

static int compare(const char *left, size_t left_length, const char *right, size_t right_length) {
    int order = memcmp(left, right, left_length < right_length ? left_length : right_length);
    return order ? order : (left_length > right_length) - (left_length < right_length);
}

/* Names in the order of keys begin at the fixed front of the pattern. */
static void begin_at_prefix(Scan *scan) {
    scan->prefix = names_are_hashed ? 0 : fixed_prefix(scan->pattern, scan->pattern_length);
    size_t front = scan->prefix < KEY_BYTES ? scan->prefix : KEY_BYTES;
    if (compare(scan->pattern, front, scan->start, scan->length) <= 0) return;
    memcpy(scan->start, scan->pattern, front);
    scan->length = front;
}

/* The cursor after these keys: 0 if there are no more, or none of the pattern. */
static uint64_t cursor_after(const Scan *scan, const char *last, size_t length, size_t left) {
    char key[KEY_BYTES + 1];
    if (!last || left >= KEY_ROOM) return 0; /* there was room for one more key */
    memcpy(key, last, length);
    length = key_after(key, length);
    if (!length) return 0;
    int is_of_prefix = length >= scan->prefix && !memcmp(key, scan->pattern, scan->prefix);
    if (!is_of_prefix && compare(key, length, scan->pattern, scan->prefix) > 0) return 0;
    last_cursor++;
    cursors[last_cursor % CURSORS].length = (unsigned char)length;
    memcpy(cursors[last_cursor % CURSORS].key, key, length);
    return last_cursor;
}

/* The names that fit, each with its length before it, and their number. */
static long found_names(const Scan *scan, const char *at, uint32_t keys, Bytes *found) {
    long count = 0;
    for (uint32_t i = 0; i < keys && scan->is_of_strings; i++) {
        size_t length;
        const char *name = listed_key(&at, &length);
        if (names_are_hashed) name = name_under(scan->space, name, length, &length);
        if (!name || !glob_matches(scan->pattern, scan->pattern_length, name, length)) continue;
        char head[4];
        put32(head, (uint32_t)length);
        add_bytes(found, head, sizeof head);
        add_bytes(found, name, length);
        count++;
    }
    return count;
}

static void say_scan(Ctx *ctx, uint64_t cursor, long count, const Bytes *found) {
    char text[24];
    const char *at = found->at;
    int digits = snprintf(text, sizeof text, "%llu", (unsigned long long)cursor);
    ReplyWithArray(ctx, 2);
    ReplyWithStringBuffer(ctx, text, (size_t)digits);
    ReplyWithArray(ctx, count);
    for (long i = 0; i < count; i++) {
        ReplyWithStringBuffer(ctx, at + 4, get32(at));
        at += 4 + get32(at);
    }
}

int scan_command(Ctx *ctx, String **argv, int argc) {
    Scan scan = {.pattern = "*", .pattern_length = 1, .most = 10, .is_of_strings = 1, .space = GetSelectedDb(ctx) + 1};
    if (argc < 2) return reply_arity(ctx, "scan");
    const char *fault = parse_scan(&scan, argv, argc);
    if (fault) return reply_text(ctx, fault);
    if (!is_whole(ctx)) return API_OK;
    begin_at_prefix(&scan);
    uint32_t room = 4 + KEY_ROOM * (uint32_t)scan.most;
    Answer listed = pipe_ask(
        &(Entry){.opcode = LIST, .space = scan.space, .key = scan.start, .key_length = scan.length, .size = room});
    if (listed.status != DONE) {
        drop_bytes(&listed.data);
        return reply_text(ctx, listed.status == NO_NAMESPACE ? "ERR the drive has no such namespace (status 0Bh)"
                                                             : "ERR reading the flash failed; pinkctl check prints the page (status 88h)");
    }
    Bytes found = {0};
    uint32_t keys = get32(listed.data.at);
    const char *at = listed.data.at + 4, *last = NULL;
    size_t length = 0;
    for (uint32_t i = 0; i < keys; i++) last = listed_key(&at, &length);
    uint64_t cursor = cursor_after(&scan, last, length, room - listed.data.length);
    long count = found_names(&scan, listed.data.at + 4, keys, &found);
    say_scan(ctx, cursor, count, &found);
    drop_bytes(&found);
    drop_bytes(&listed.data);
    return API_OK;
}

int dbsize_command(Ctx *ctx, String **argv, int argc) {
    (void)argv;
    if (argc != 1) return reply_arity(ctx, "dbsize");
    if (!is_whole(ctx)) return API_OK;
    return ReplyWithLongLong(ctx, (long long)count_keys(GetSelectedDb(ctx) + 1));
}
