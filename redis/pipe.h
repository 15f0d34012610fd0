/* The pipes to and from the program that serves the drive: entries out, records in, in one order (docs/COMMANDS.md). */
#ifndef PINK_PIPE_H
#define PINK_PIPE_H

#include "bytes.h"

enum { FLUSH = 0x00, STORE = 0x01, RETRIEVE = 0x02, LIST = 0x06, DELETE = 0x10, EXIST = 0x14, REPORT = 0xC2 };
enum {
    DONE = 0x00,
    NO_NAMESPACE = 0x0B,
    FULL = 0x81,
    TOO_LONG = 0x85,
    BAD_KEY = 0x86,
    NO_KEY = 0x87,
    READ_FAILED = 0x88,
    KEY_IS_THERE = 0x89,
    OTHER_NAME = 0x100, /* of this module: another name has the same hash (names.h), */
    MOVED_AWAY = 0x101  /* the slot of the key went to another server while clients were paused (rounds.h) */
};
enum { IF_EXISTS = 1, IF_ABSENT = 2 };
enum {
    KEY_BYTES = 16,
    ENTRY_BYTES = 64,
    HEAD_BYTES = 24,
    KEY_ROOM = 20,             /* bytes that a key takes in the answer of a List, at most */
    LIST_BYTES = 65536,        /* the most bytes of a List's answer */
    GREATEST_VALUE = 64 * 16384, /* no drive has a longer value */
    NAMESPACES = 8,
    REPORT_NUMBERS = 16
};

/* What is sent: a command, and for a Store the bytes of the value, which may begin with others (`front`). */
typedef struct {
    int opcode, space, options;
    const char *key;
    size_t key_length;
    uint32_t size; /* of a Store's value with its front, or of the buffer for the answer */
    const char *front;
    size_t front_length;
    const char *value;
} Entry;

/* What comes back; the data are valid until the function that takes it returns. */
typedef struct {
    int status;
    uint32_t result;
    const char *data;
    uint32_t length;
} Record;
typedef void Take(void *of, const Record *record);

/* What the program is started with. */
typedef struct {
    const char *program, *image, *frames, *spares; /* spares is NULL for a drive without spare blocks */
    int synced;
} Start;

/* Starts the program. While another process has the image open, it is started again for up to 20 seconds. Returns NULL once the
 * drive is open, or why it is not; the text is valid until the next call. */
const char *pipe_open(const Start *start);

/* Appends a command as it goes into the pipe. */
void encode(Bytes *to, const Entry *entry);

/* Gathers a command; `take` is called with its record, and may be NULL. */
void pipe_send(const Entry *entry, Take *take, void *of);

/* Ends the group of changes, writes all that was gathered, and takes all records that are missing. */
void pipe_finish(void);

/* One command that is waited for. Its data have to be dropped. */
typedef struct {
    int status;
    uint32_t result;
    Bytes data;
} Answer;
void take_answer(void *answer, const Record *record);
Answer pipe_ask(const Entry *entry);

/* What can be read outside of a round is the end of the program, with which the server ends. */
void pipe_ended(void);
/* Ends the session, and waits for the program. */
void pipe_close(void);
/* In a child of the server: its copies of the pipes are closed. */
void pipe_leave(void);

typedef struct {
    int process, to, from;
    uint64_t sent, changes, flushes, writes;
} PipeNumbers;
const PipeNumbers *pipe_numbers(void);

#endif
