#define _POSIX_C_SOURCE 200809L

#include "pink.h"

#include <errno.h>
#include <fcntl.h>
#include <poll.h>
#include <stdbool.h>
#include <stdio.h>
#include <stdlib.h>
#include <string.h>
#include <sys/socket.h>
#include <sys/wait.h>
#include <unistd.h>

enum {
    ENTRY_BYTES = 64,
    RECORD_BYTES = 24,
    GATHERED_BYTES = 65536, /* so much of a pipeline is gathered before it is written */
    READ_BYTES = 65536,
    REPORT_BYTES = 64,
    LISTED_KEY_BYTES = 20, /* of a key in the data of a List, at most */
    MOST_WORDS = 24,
    NUMBER_DIGITS = 12
};

/* Bytes that come and go: those from `first` to `end` count. */
struct bytes {
    unsigned char *room;
    size_t first, end, size;
};

struct pink_drive {
    pid_t child;
    int input, output; /* of the child; -1 when they are closed */
    int exit_status;
    uint32_t space;
    uint16_t sent, received; /* identifiers of the next command and of the next answer */
    size_t waiting;
    size_t held;    /* bytes of the answer that was given last */
    bool is_broken; /* no more can be sent or received */
    struct bytes out, in;
};

/* Bytes. */

static bool reserve(struct bytes *bytes, size_t more)
{
    if (bytes->first > 0 && bytes->end + more > bytes->size) {
        memmove(bytes->room, bytes->room + bytes->first, bytes->end - bytes->first);
        bytes->end -= bytes->first;
        bytes->first = 0;
    }
    if (bytes->end + more <= bytes->size)
        return true;
    size_t size = 2 * (bytes->end + more);
    unsigned char *room = realloc(bytes->room, size);
    if (!room)
        return false;
    bytes->room = room;
    bytes->size = size;
    return true;
}

static void append(struct bytes *bytes, const void *from, size_t count)
{
    if (count > 0)
        memcpy(bytes->room + bytes->end, from, count);
    bytes->end += count;
}

static size_t count_of(const struct bytes *bytes)
{
    return bytes->end - bytes->first;
}

static void put_number(unsigned char *at, uint32_t number, int count)
{
    for (int i = 0; i < count; i++)
        at[i] = (unsigned char)(number >> 8 * i);
}

static uint32_t number_at(const unsigned char *at, int count)
{
    uint32_t number = 0;
    for (int i = 0; i < count; i++)
        number |= (uint32_t)at[i] << 8 * i;
    return number;
}

/* The child. */

static const char *program_of(const struct pink_options *options)
{
    const char *named = options && options->program ? options->program : getenv("PINK_PROGRAM");
    return named ? named : "./pink";
}

/* The words of a run: PROGRAM IMAGE [spared S] WORD NUMBER.. */
struct words {
    char *list[MOST_WORDS];
    char digits[MOST_WORDS][NUMBER_DIGITS];
    size_t count;
};

static void add_word(struct words *words, const char *word)
{
    words->list[words->count++] = (char *)word;
    words->list[words->count] = NULL;
}

static void add_number(struct words *words, uint32_t number)
{
    char *digits = words->digits[words->count];
    snprintf(digits, NUMBER_DIGITS, "%lu", (unsigned long)number);
    add_word(words, digits);
}

static void begin_words(struct words *words, const char *image, const struct pink_options *options)
{
    words->count = 0;
    add_word(words, program_of(options));
    /* A word `mirror` would be that of a pair. */
    add_word(words, strcmp(image, "mirror") == 0 ? "./mirror" : image);
    if (options && options->spares > 0) {
        add_word(words, "spared");
        add_number(words, options->spares);
    }
}

/* In the child: the program, or the end of the child. */
static void run_program(const struct words *words)
{
    setenv("PINK_EXEC", "1", 1); /* the launcher gives its place to the program */
    execvp(words->list[0], words->list);
    _exit(127);
}

static int status_of(int waited)
{
    return WIFSIGNALED(waited) ? 128 + WTERMSIG(waited) : WEXITSTATUS(waited);
}

static int wait_for(pid_t child)
{
    int waited;
    while (waitpid(child, &waited, 0) < 0)
        if (errno != EINTR)
            return -1;
    return status_of(waited);
}

int pink_make(const char *image, const struct pink_options *options, uint32_t page_bytes,
              uint32_t block_pages, uint32_t blocks, const uint32_t *limits, size_t count)
{
    struct words words;
    if (count > PINK_NAMESPACES) {
        errno = EINVAL;
        return -1;
    }
    begin_words(&words, image, options);
    add_word(&words, "make");
    add_number(&words, page_bytes);
    add_number(&words, block_pages);
    add_number(&words, blocks);
    for (size_t i = 0; i < count; i++)
        add_number(&words, limits[i]);
    pid_t child = fork();
    if (child == 0)
        run_program(&words);
    return child < 0 ? -1 : wait_for(child);
}

/* Closes a pipe's ends in programs that this process starts later. */
static void keep_private(int handle)
{
    fcntl(handle, F_SETFD, FD_CLOEXEC);
}

static bool start(struct pink_drive *drive, const struct words *words)
{
    /* The child's input is a socket: to write to one that is closed is an error and no signal. */
    int input[2], output[2];
    if (socketpair(AF_UNIX, SOCK_STREAM, 0, input) < 0)
        return false;
    if (pipe(output) < 0) {
        close(input[0]);
        close(input[1]);
        return false;
    }
    drive->child = fork();
    if (drive->child == 0) {
        dup2(input[1], STDIN_FILENO);
        dup2(output[1], STDOUT_FILENO);
        for (int i = 0; i < 2; i++) {
            close(input[i]);
            close(output[i]);
        }
        run_program(words);
    }
    close(input[1]);
    close(output[1]);
    drive->input = input[0];
    drive->output = output[0];
    keep_private(drive->input);
    keep_private(drive->output);
    fcntl(drive->input, F_SETFL, O_NONBLOCK);
    return drive->child > 0;
}

static void close_input(struct pink_drive *drive)
{
    if (drive->input >= 0)
        close(drive->input);
    drive->input = -1;
}

static void end_child(struct pink_drive *drive)
{
    close_input(drive);
    if (drive->output >= 0)
        close(drive->output);
    drive->output = -1;
    if (drive->child > 0)
        drive->exit_status = wait_for(drive->child);
    drive->child = -1;
    drive->is_broken = true;
}

/* Reading and writing. */

static enum pink_status read_some(struct pink_drive *drive)
{
    if (!reserve(&drive->in, READ_BYTES))
        return PINK_NO_MEMORY;
    ssize_t count = read(drive->output, drive->in.room + drive->in.end, READ_BYTES);
    if (count < 0)
        return errno == EINTR ? PINK_DONE : PINK_SYSTEM;
    if (count == 0) {
        end_child(drive);
        return PINK_ENDED;
    }
    drive->in.end += (size_t)count;
    return PINK_DONE;
}

static enum pink_status write_some(struct pink_drive *drive)
{
    struct bytes *out = &drive->out;
    ssize_t count = send(drive->input, out->room + out->first, count_of(out), MSG_NOSIGNAL);
    if (count < 0 && (errno == EPIPE || errno == ECONNRESET)) {
        out->first = out->end = 0; /* the program has ended, and what it answered is to be read */
        close_input(drive);
        return PINK_DONE;
    }
    if (count < 0)
        return errno == EAGAIN || errno == EWOULDBLOCK || errno == EINTR ? PINK_DONE : PINK_SYSTEM;
    out->first += (size_t)count;
    return PINK_DONE;
}

/* Writes what is gathered. What comes meanwhile is read: a program that cannot write reads no more. */
static enum pink_status exchange(struct pink_drive *drive)
{
    enum pink_status status = PINK_DONE;
    while (status == PINK_DONE && drive->input >= 0 && count_of(&drive->out) > 0) {
        struct pollfd ends[2] = {{drive->input, POLLOUT, 0}, {drive->output, POLLIN, 0}};
        if (poll(ends, 2, -1) < 0 && errno != EINTR)
            return PINK_SYSTEM;
        if (ends[1].revents)
            status = read_some(drive);
        if (status == PINK_DONE && ends[0].revents)
            status = write_some(drive);
    }
    return status;
}

/* Ends a session that cannot go on. */
static enum pink_status broken(struct pink_drive *drive, enum pink_status status)
{
    if (status != PINK_DONE && status != PINK_ENDED)
        drive->is_broken = true;
    return status;
}

/* Commands and answers. */

static void write_entry(unsigned char *entry, const struct pink_drive *drive,
                        const struct pink_command *command)
{
    unsigned char key[PINK_KEY_BYTES] = {0};
    size_t length = command->key_length;
    if (length > 0)
        memcpy(key, command->key, length < PINK_KEY_BYTES ? length : PINK_KEY_BYTES);
    memset(entry, 0, ENTRY_BYTES);
    entry[0] = (unsigned char)command->opcode;
    put_number(entry + 2, drive->sent, 2);
    put_number(entry + 4, command->space ? command->space : drive->space, 4);
    memcpy(entry + 8, key, 8);
    put_number(entry + 40, command->size, 4);
    entry[44] = (unsigned char)(length < 255 ? length : 255);
    entry[45] = (unsigned char)command->options;
    memcpy(entry + 56, key + 8, 8);
}

enum pink_status pink_submit(struct pink_drive *drive, const struct pink_command *command)
{
    unsigned char entry[ENTRY_BYTES];
    size_t length = command->opcode == PINK_STORE ? command->size : 0;
    if (drive->is_broken)
        return PINK_ENDED;
    if (!reserve(&drive->out, ENTRY_BYTES + length))
        return PINK_NO_MEMORY;
    write_entry(entry, drive, command);
    append(&drive->out, entry, ENTRY_BYTES);
    append(&drive->out, command->value, length);
    drive->sent++;
    drive->waiting++;
    return count_of(&drive->out) < GATHERED_BYTES ? PINK_DONE : broken(drive, exchange(drive));
}

static void let_go(struct pink_drive *drive)
{
    drive->in.first += drive->held;
    drive->held = 0;
}

/* The length of the record that has come; 0 if it has not come whole. */
static size_t record_length(const struct bytes *in)
{
    if (count_of(in) < RECORD_BYTES)
        return 0;
    size_t length = RECORD_BYTES + (size_t)number_at(in->room + in->first + 20, 4);
    return count_of(in) < length ? 0 : length;
}

enum pink_status pink_receive(struct pink_drive *drive, struct pink_answer *answer)
{
    enum pink_status status = PINK_DONE;
    let_go(drive);
    if (drive->waiting == 0)
        return PINK_BUSY;
    if (drive->is_broken && record_length(&drive->in) == 0)
        return PINK_ENDED;
    if (!drive->is_broken)
        status = exchange(drive);
    while (status == PINK_DONE && record_length(&drive->in) == 0)
        status = read_some(drive);
    if (record_length(&drive->in) == 0)
        return broken(drive, status);
    const unsigned char *record = drive->in.room + drive->in.first;
    drive->held = record_length(&drive->in);
    answer->result = number_at(record, 4);
    answer->identifier = (uint16_t)number_at(record + 12, 2);
    answer->status = (enum pink_status)(number_at(record + 14, 2) >> 1 & 0xFF);
    answer->reads = number_at(record + 16, 4);
    answer->length = (uint32_t)(drive->held - RECORD_BYTES);
    answer->data = record + RECORD_BYTES;
    if (answer->identifier != drive->received)
        return broken(drive, PINK_PROTOCOL);
    drive->received++;
    drive->waiting--;
    return PINK_DONE;
}

size_t pink_waiting(const struct pink_drive *drive)
{
    return drive->waiting;
}

/* Sends a command and takes its answer; after a change a Flush, since its record waits for what follows. */
static enum pink_status call(struct pink_drive *drive, const struct pink_command *command,
                             struct pink_answer *answer)
{
    struct pink_command flush = {.opcode = PINK_FLUSH};
    struct pink_answer flushed;
    bool is_change = command->opcode == PINK_STORE || command->opcode == PINK_DELETE;
    if (drive->waiting > 0)
        return PINK_BUSY;
    enum pink_status status = pink_submit(drive, command);
    if (status == PINK_DONE && is_change)
        status = pink_submit(drive, &flush);
    if (status == PINK_DONE)
        status = pink_receive(drive, answer);
    if (status == PINK_DONE && is_change)
        status = pink_receive(drive, &flushed);
    return status == PINK_DONE ? answer->status : status;
}

enum pink_status pink_store(struct pink_drive *drive, const void *key, size_t key_length,
                            const void *value, uint32_t length, unsigned options)
{
    struct pink_answer answer;
    struct pink_command command = {.opcode = PINK_STORE, .options = options, .key = key,
                                   .key_length = key_length, .value = value, .size = length};
    return call(drive, &command, &answer);
}

enum pink_status pink_retrieve(struct pink_drive *drive, const void *key, size_t key_length,
                               void *buffer, uint32_t size, uint32_t *length)
{
    struct pink_answer answer;
    struct pink_command command = {.opcode = PINK_RETRIEVE, .key = key, .key_length = key_length,
                                   .size = size};
    enum pink_status status = call(drive, &command, &answer);
    if (status != PINK_DONE)
        return status;
    if (answer.length > 0)
        memcpy(buffer, answer.data, answer.length < size ? answer.length : size);
    if (length)
        *length = answer.result;
    return PINK_DONE;
}

/* A command of a key, without a value or data. */
static enum pink_status call_key(struct pink_drive *drive, enum pink_opcode opcode, const void *key,
                                 size_t key_length)
{
    struct pink_answer answer;
    struct pink_command command = {.opcode = opcode, .key = key, .key_length = key_length};
    return call(drive, &command, &answer);
}

enum pink_status pink_delete(struct pink_drive *drive, const void *key, size_t key_length)
{
    return call_key(drive, PINK_DELETE, key, key_length);
}

enum pink_status pink_exist(struct pink_drive *drive, const void *key, size_t key_length)
{
    return call_key(drive, PINK_EXIST, key, key_length);
}

enum pink_status pink_list(struct pink_drive *drive, const void *start, size_t start_length,
                           struct pink_key *keys, size_t most, size_t *count)
{
    struct pink_answer answer;
    size_t size = 4 + LISTED_KEY_BYTES * most;
    struct pink_command command = {.opcode = PINK_LIST, .key = start, .key_length = start_length,
                                   .size = (uint32_t)(size < READ_BYTES ? size : READ_BYTES)};
    *count = 0;
    enum pink_status status = call(drive, &command, &answer);
    if (status != PINK_DONE || answer.length < 4)
        return status;
    size_t listed = number_at(answer.data, 4), at = 4;
    while (*count < listed && *count < most) {
        size_t length = at + 2 <= answer.length ? number_at(answer.data + at, 2) : PINK_KEY_BYTES + 1;
        if (length > PINK_KEY_BYTES || at + 2 + length > answer.length)
            return broken(drive, PINK_PROTOCOL);
        struct pink_key *key = &keys[(*count)++];
        key->length = (unsigned char)length;
        memcpy(key->bytes, answer.data + at + 2, length);
        at += (2 + length + 3) / 4 * 4;
    }
    return PINK_DONE;
}

enum pink_status pink_tick(struct pink_drive *drive, uint32_t steps)
{
    struct pink_answer answer;
    struct pink_command command = {.opcode = PINK_TICK, .size = steps};
    return call(drive, &command, &answer);
}

enum pink_status pink_flush(struct pink_drive *drive)
{
    return call_key(drive, PINK_FLUSH, NULL, 0);
}

enum pink_status pink_report(struct pink_drive *drive, struct pink_report *report)
{
    struct pink_answer answer;
    struct pink_command command = {.opcode = PINK_REPORT};
    uint32_t numbers[REPORT_BYTES / 4];
    enum pink_status status = call(drive, &command, &answer);
    if (status != PINK_DONE)
        return status;
    if (answer.length != REPORT_BYTES)
        return broken(drive, PINK_PROTOCOL);
    for (size_t i = 0; i < REPORT_BYTES / 4; i++)
        numbers[i] = number_at(answer.data + 4 * i, 4);
    *report = (struct pink_report){numbers[0], numbers[1], numbers[2], numbers[3], numbers[4],
                                   numbers[5], numbers[6], numbers[7],
                                   {numbers[8], numbers[9], numbers[10], numbers[11]},
                                   numbers[12], numbers[13], numbers[14], numbers[15]};
    return PINK_DONE;
}

/* The session. */

enum pink_status pink_open(struct pink_drive **opened, const char *image,
                           const struct pink_options *options)
{
    struct words words;
    struct pink_drive *drive = calloc(1, sizeof *drive);
    *opened = drive;
    if (!drive)
        return PINK_NO_MEMORY;
    drive->input = drive->output = -1;
    drive->exit_status = -1;
    drive->space = options && options->space ? options->space : 1;
    begin_words(&words, image, options);
    add_word(&words, "serve");
    add_number(&words, options && options->frames ? options->frames : PINK_FRAMES);
    if (!start(drive, &words)) {
        pink_close(drive);
        *opened = NULL;
        return PINK_SYSTEM;
    }
    return pink_flush(drive); /* the first answer says that it is open */
}

int pink_close(struct pink_drive *drive)
{
    if (!drive)
        return 0;
    if (!drive->is_broken && count_of(&drive->out) > 0)
        exchange(drive);
    close_input(drive);
    /* The answers to what was sent are taken, so that the program can end. */
    enum pink_status status = drive->output >= 0 ? PINK_DONE : PINK_ENDED;
    while (status == PINK_DONE) {
        drive->held = 0;
        drive->in.first = drive->in.end = 0;
        status = read_some(drive);
    }
    end_child(drive);
    int exit_status = drive->exit_status;
    free(drive->in.room);
    free(drive->out.room);
    free(drive);
    return exit_status;
}

int pink_exit_status(const struct pink_drive *drive)
{
    return drive->exit_status;
}

void pink_use_namespace(struct pink_drive *drive, uint32_t space)
{
    drive->space = space;
}

/* Texts. */

const char *pink_status_text(enum pink_status status)
{
    switch (status) {
    case PINK_DONE: return "done";
    case PINK_INVALID_OPCODE: return "the drive has no such command (01h)";
    case PINK_INVALID_FIELD: return "the buffer of a List has fewer than 4 bytes (02h)";
    case PINK_INVALID_NAMESPACE: return "the drive has no such namespace (0Bh)";
    case PINK_CAPACITY_EXCEEDED: return "there is no space for the value (81h)";
    case PINK_INVALID_VALUE_SIZE: return "the value is longer than the greatest (85h)";
    case PINK_INVALID_KEY_SIZE: return "a key has 1 to 16 bytes (86h)";
    case PINK_NO_SUCH_KEY: return "there is no such key (87h)";
    case PINK_READ_FAILED: return "a read of the flash failed (88h)";
    case PINK_KEY_EXISTS: return "the key exists already (89h)";
    case PINK_ENDED: return "the program has ended";
    case PINK_SYSTEM: return "a call of the system failed";
    case PINK_NO_MEMORY: return "there is not enough memory";
    case PINK_BUSY: return "answers of a pipeline are to come, or none is";
    case PINK_PROTOCOL: return "the program wrote what is no record of the command";
    }
    return "a status that is not known";
}

const char *pink_exit_text(int status)
{
    static const char *const texts[] = {
        [0] = "done",
        [1] = "the program is not built, and building it failed",
        [2] = "the words are none of the program's, such as a shape that is not allowed",
        [3] = "the input ended within a command",
        [4] = "reading the input failed",
        [5] = "writing the output failed",
        [6] = "the image is in use, or the flash failed",
        [7] = "there was not enough memory; nothing was served",
        [8] = "there is no drive in the image, or it is damaged",
        [9] = "there is an image already",
        [10] = "the drive is worn",
        [12] = "a line of the script is outside the grammar",
        [126] = "the program may not be run",
        [127] = "the program was not found",
    };
    if (status == -1)
        return "it runs";
    if (status > 128)
        return "a signal ended the program; what was answered is on the flash";
    if (status < 0 || status >= (int)(sizeof texts / sizeof texts[0]) || !texts[status])
        return "a status that the program does not have";
    return texts[status];
}
