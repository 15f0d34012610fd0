/*
 * A client of the key-value drive that `pink IMAGE serve FRAMES` runs over an image file.
 *
 *     struct pink_drive *drive;
 *     if (pink_open(&drive, "drive.img", NULL) == PINK_DONE) {
 *         pink_store(drive, "key", 3, "value", 5, 0);
 *         pink_close(drive);
 *     }
 *
 * The program is a child of this process, at the other end of two pipes: an entry of 64 bytes for each
 * command, after a Store its value, and a record for each answer (docs/COMMANDS.md). A drive is used by
 * one thread at a time. C11 and POSIX, without other libraries.
 *
 * The calls that wait (`pink_store` to `pink_report`) send a command and return when it is done: a
 * change is on the flash then. For a pipeline, `pink_submit` sends a command without waiting, and
 * `pink_receive` gives the answers, in the order of the commands; the calls that wait answer PINK_BUSY
 * while answers of a pipeline are to come.
 */
#ifndef PINK_H
#define PINK_H

#include <stddef.h>
#include <stdint.h>

enum {
    PINK_KEY_BYTES = 16,       /* the longest key */
    PINK_NAMESPACES = 8,       /* the most namespaces of a drive */
    PINK_FRAMES = 36,          /* page frames for the index, unless others are named */
    PINK_WHOLE_VALUE = 1 << 20 /* a buffer that is long enough for every value */
};

/* The commands. */
enum pink_opcode {
    PINK_FLUSH = 0x00,
    PINK_STORE = 0x01,
    PINK_RETRIEVE = 0x02,
    PINK_LIST = 0x06,
    PINK_DELETE = 0x10,
    PINK_EXIST = 0x14,
    PINK_TICK = 0xC0,
    PINK_REPORT = 0xC2
};

/* The options of a Store, which may be joined by |. */
enum pink_option {
    PINK_IF_EXISTS = 1, /* only if the key exists */
    PINK_IF_ABSENT = 2  /* only if it does not */
};

/* What became of a command. Those below 100h are statuses of the drive. */
enum pink_status {
    PINK_DONE = 0x00,
    PINK_INVALID_OPCODE = 0x01,
    PINK_INVALID_FIELD = 0x02,
    PINK_INVALID_NAMESPACE = 0x0B,
    PINK_CAPACITY_EXCEEDED = 0x81,
    PINK_INVALID_VALUE_SIZE = 0x85,
    PINK_INVALID_KEY_SIZE = 0x86,
    PINK_NO_SUCH_KEY = 0x87,
    PINK_READ_FAILED = 0x88,
    PINK_KEY_EXISTS = 0x89,
    PINK_ENDED = 0x100,    /* the program has ended: see pink_exit_status */
    PINK_SYSTEM = 0x101,   /* a call of the system failed: see errno */
    PINK_NO_MEMORY = 0x102,
    PINK_BUSY = 0x103,     /* answers of a pipeline are to come, or none is */
    PINK_PROTOCOL = 0x104  /* a record belongs to no command, or is none */
};

/* How a drive is opened. What is 0 has its default. */
struct pink_options {
    const char *program; /* the launcher or the program: that of PINK_PROGRAM, or ./pink */
    uint32_t frames;     /* page frames for the index, PINK_FRAMES */
    uint32_t spares;     /* spare blocks, as at the making: none */
    uint32_t space;      /* the namespace of the calls that wait: 1 */
};

/* A command of a pipeline. */
struct pink_command {
    enum pink_opcode opcode;
    unsigned options;  /* of a Store */
    uint32_t space;    /* 0: the drive's own */
    const void *key;
    size_t key_length;
    const void *value; /* of a Store */
    uint32_t size;     /* the value's length; of a Retrieve or List the buffer, of a Tick the steps */
};

/* The answer to a command. */
struct pink_answer {
    enum pink_status status;
    uint16_t identifier;       /* of the command: they count from 0 on, modulo 65,536 */
    uint32_t result;           /* of a Retrieve the length of the whole value */
    uint32_t reads;            /* the pages that were read for it */
    const unsigned char *data; /* until the next call with the drive */
    uint32_t length;
};

struct pink_key {
    unsigned char length;
    unsigned char bytes[PINK_KEY_BYTES];
};

/* The drive's numbers: live, limit and keys of a namespace, the others of the whole drive. */
struct pink_report {
    uint32_t live, limit, keys, pinned, frames, leased, active, frozen;
    uint32_t runs[4];
    uint32_t epoch, blocks, ready, merge;
};

struct pink_drive;

/*
 * Makes the image of a drive without keys, and returns the exit status of the program (0: done, 9: there
 * is an image already), or -1 with errno. `limits` are the pages of `count` namespaces; with 0 of them
 * there is one.
 */
int pink_make(const char *image, const struct pink_options *options, uint32_t page_bytes,
              uint32_t block_pages, uint32_t blocks, const uint32_t *limits, size_t count);

/*
 * Opens the drive of an image; `options` may be NULL. Where the program does not open it the answer is
 * PINK_ENDED, and `*drive` has its exit status until it is closed. It is NULL only after PINK_SYSTEM and
 * PINK_NO_MEMORY.
 */
enum pink_status pink_open(struct pink_drive **drive, const char *image,
                           const struct pink_options *options);

/*
 * Ends the session, and returns the exit status of the program: 0 if all that was sent is on the flash.
 * 128 + N says that signal N ended it. NULL is allowed.
 */
int pink_close(struct pink_drive *drive);

/* The exit status of a program that has ended; -1 while it runs. */
int pink_exit_status(const struct pink_drive *drive);

/* The namespace of the calls that wait, from now on. */
void pink_use_namespace(struct pink_drive *drive, uint32_t space);

/* Calls that wait. */

enum pink_status pink_store(struct pink_drive *drive, const void *key, size_t key_length,
                            const void *value, uint32_t length, unsigned options);

/* Up to `size` bytes of a value; `*length` is the length of the whole value, and may be NULL. */
enum pink_status pink_retrieve(struct pink_drive *drive, const void *key, size_t key_length,
                               void *buffer, uint32_t size, uint32_t *length);

enum pink_status pink_delete(struct pink_drive *drive, const void *key, size_t key_length);

/* PINK_DONE or PINK_NO_SUCH_KEY. */
enum pink_status pink_exist(struct pink_drive *drive, const void *key, size_t key_length);

/* The keys in their order from one on (from the first if its length is 0): at most `most`. */
enum pink_status pink_list(struct pink_drive *drive, const void *start, size_t start_length,
                           struct pink_key *keys, size_t most, size_t *count);

/* Up to this many steps of background work. */
enum pink_status pink_tick(struct pink_drive *drive, uint32_t steps);

enum pink_status pink_flush(struct pink_drive *drive);

enum pink_status pink_report(struct pink_drive *drive, struct pink_report *report);

/* A pipeline. */

enum pink_status pink_submit(struct pink_drive *drive, const struct pink_command *command);

/*
 * The next answer. `answer->status` is that of the command; what is returned is PINK_DONE where there is
 * an answer. The answers to Stores and Deletes come when something else follows, such as a Flush.
 */
enum pink_status pink_receive(struct pink_drive *drive, struct pink_answer *answer);

/* The number of commands whose answers are to come. */
size_t pink_waiting(const struct pink_drive *drive);

/* Texts. */

const char *pink_status_text(enum pink_status status);
const char *pink_exit_text(int status);

#endif
