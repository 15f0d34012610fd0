#include "pipe.h"

#include <errno.h>
#include <fcntl.h>
#include <poll.h>
#include <stdio.h>
#include <stdlib.h>
#include <sys/wait.h>
#include <time.h>
#include <unistd.h>

#include "module_api.h"

enum { PIPE_BYTES = 1 << 18, READ_BYTES = 65536, PROGRAM_ENDED = 15, IMAGE_IN_USE = 6, OPEN_SECONDS = 20 };

typedef struct { Take *take; void *of; } Waiting;

static struct {
    Start start;
    PipeNumbers numbers;
    Bytes out, in;
    size_t written;
    Waiting *ring; /* the commands whose records have not come, in order */
    size_t first, count, room;
    int open_changes; /* the last command is a change, which no command after it commits */
} it;

const PipeNumbers *pipe_numbers(void) { return &it.numbers; }

/* The start. */

static void run_program(const Start *start, int input, int output) {
    const char *words[7] = {start->program, start->image};
    int count = 2;
    if (start->spares) {
        words[count++] = "spared";
        words[count++] = start->spares;
    }
    words[count++] = "serve";
    words[count++] = start->frames;
    setsid();
    dup2(input, 0);
    dup2(output, 1);
    for (int i = 3; i < 1024; i++) close(i);
    setenv("PINK_EXEC", "1", 1); /* the launcher becomes the program */
    if (start->synced) setenv("PINK_SYNC", "1", 1);
    execvp(start->program, (char *const *)words);
    _exit(127);
}

static void start_program(const Start *start) {
    int to[2], from[2];
    if (pipe2(to, O_CLOEXEC) || pipe2(from, O_CLOEXEC)) abort();
    it.numbers.process = fork();
    if (it.numbers.process < 0) abort();
    if (it.numbers.process == 0) run_program(start, to[0], from[1]);
    close(to[0]);
    close(from[1]);
    fcntl(to[1], F_SETPIPE_SZ, PIPE_BYTES);
    fcntl(from[0], F_SETPIPE_SZ, PIPE_BYTES);
    it.numbers.to = to[1];
    it.numbers.from = from[0];
}

/* Whether the program answers a first command. */
static int answers(void) {
    Bytes entry = {0};
    char record[HEAD_BYTES + 4 * REPORT_NUMBERS];
    size_t got = 0;
    encode(&entry, &(Entry){.opcode = REPORT, .space = 1});
    ssize_t wrote = write(it.numbers.to, entry.at, entry.length);
    drop_bytes(&entry);
    while (wrote == ENTRY_BYTES && got < sizeof record) {
        ssize_t more = read(it.numbers.from, record + got, sizeof record - got);
        if (more < 0 && errno == EINTR) continue;
        if (more <= 0) break;
        got += (size_t)more;
    }
    return got == sizeof record;
}

static const char *cause_of(int status) {
    static char text[4352];
    if (WIFEXITED(status) && WEXITSTATUS(status) == 127)
        snprintf(text, sizeof text, "there is no program %.4000s: name it with the words program PATH", it.start.program);
    else
        snprintf(text, sizeof text, "the drive %.4000s does not open: status %d; pinkctl check says what is wrong", it.start.image,
                 WIFEXITED(status) ? WEXITSTATUS(status) : 128 + WTERMSIG(status));
    return text;
}

const char *pipe_open(const Start *start) {
    time_t last = time(NULL) + OPEN_SECONDS;
    it.start = *start;
    for (;;) {
        int status = 0;
        start_program(start);
        if (answers()) {
            fcntl(it.numbers.to, F_SETFL, O_NONBLOCK);
            return NULL;
        }
        pipe_leave();
        waitpid(it.numbers.process, &status, 0);
        /* the program before this one may still serve what it had read, and has the lock until then */
        int in_use = WIFEXITED(status) && WEXITSTATUS(status) == IMAGE_IN_USE;
        if (!in_use || time(NULL) > last) return cause_of(status);
        usleep(50000);
    }
}

/* Sending. */

void encode(Bytes *to, const Entry *entry) {
    char head[ENTRY_BYTES] = {0};
    size_t key = entry->key_length < KEY_BYTES ? entry->key_length : KEY_BYTES; /* the drive refuses longer ones by their length */
    size_t low = key < 8 ? key : 8;
    head[0] = (char)entry->opcode;
    put32(head + 4, (uint32_t)entry->space);
    if (low) memcpy(head + 8, entry->key, low);
    if (key > low) memcpy(head + 56, entry->key + low, key - low);
    put32(head + 40, entry->size);
    head[44] = (char)(entry->key_length < 255 ? entry->key_length : 255);
    head[45] = (char)entry->options;
    add_bytes(to, head, ENTRY_BYTES);
    if (entry->opcode != STORE) return;
    add_bytes(to, entry->front, entry->front_length);
    add_bytes(to, entry->value, entry->size - entry->front_length);
}

static void expect(Take *take, void *of) {
    if (it.count == it.room) {
        size_t room = it.room ? 2 * it.room : 1024;
        Waiting *ring = needed(malloc(room * sizeof *ring));
        for (size_t i = 0; i < it.count; i++) ring[i] = it.ring[(it.first + i) % it.room];
        free(it.ring);
        it.ring = ring;
        it.room = room;
        it.first = 0;
    }
    it.ring[(it.first + it.count++) % it.room] = (Waiting){take, of};
}

void pipe_send(const Entry *entry, Take *take, void *of) {
    encode(&it.out, entry);
    expect(take, of);
    it.numbers.sent++;
    it.open_changes = entry->opcode == STORE || entry->opcode == DELETE;
    it.numbers.changes += (unsigned)it.open_changes;
}

static void write_out(void) {
    while (it.written < it.out.length) {
        ssize_t wrote = write(it.numbers.to, it.out.at + it.written, it.out.length - it.written);
        if (wrote < 0) {
            if (errno == EINTR) continue;
            if (errno == EAGAIN) return;
            pipe_ended();
        }
        it.numbers.writes++;
        it.written += (size_t)wrote;
    }
    it.out.length = it.written = 0;
}

/* Taking. */

static size_t take_one(const char *head, size_t bytes) {
    if (bytes < HEAD_BYTES) return 0;
    Record record = {get32(head + 12) >> 17 & 0xFF, get32(head), head + HEAD_BYTES, get32(head + 20)};
    if (bytes - HEAD_BYTES < record.length) return 0;
    if (!it.count) abort();
    Waiting waiting = it.ring[it.first];
    it.first = (it.first + 1) % it.room;
    it.count--;
    if (waiting.take) waiting.take(waiting.of, &record);
    return HEAD_BYTES + record.length;
}

static void read_records(void) {
    if (it.in.room - it.in.length < READ_BYTES) {
        it.in.room += PIPE_BYTES;
        it.in.at = needed(realloc(it.in.at, it.in.room));
    }
    ssize_t got = read(it.numbers.from, it.in.at + it.in.length, it.in.room - it.in.length);
    if (got < 0 && errno == EINTR) return;
    if (got <= 0) pipe_ended();
    it.in.length += (size_t)got;
    size_t at = 0, taken;
    while ((taken = take_one(it.in.at + at, it.in.length - at))) at += taken;
    it.in.length -= at;
    memmove(it.in.at, it.in.at + at, it.in.length);
}

void pipe_finish(void) {
    if (it.open_changes) {
        it.numbers.flushes++;
        pipe_send(&(Entry){.opcode = FLUSH, .space = 1}, NULL, NULL);
    }
    while (it.count) {
        write_out();
        if (it.out.length) { /* the pipe is full: records have to be read, or it is to be written */
            struct pollfd ends[2] = {{it.numbers.from, POLLIN, 0}, {it.numbers.to, POLLOUT, 0}};
            if (poll(ends, 2, -1) < 0 && errno != EINTR) abort();
            if (!ends[0].revents) continue;
        }
        read_records();
    }
}

void take_answer(void *of, const Record *record) {
    Answer *answer = of;
    answer->status = record->status;
    answer->result = record->result;
    add_bytes(&answer->data, record->data, record->length);
}

Answer pipe_ask(const Entry *entry) {
    Answer answer = {0};
    pipe_send(entry, take_answer, &answer);
    pipe_finish();
    return answer;
}

/* The end. */

void pipe_ended(void) {
    int status = 0;
    waitpid(it.numbers.process, &status, 0);
    Log(NULL, "warning", "the drive %s ended (status %d, signal %d), and this server with it; what was answered is on its flash",
        it.start.image, WIFEXITED(status) ? WEXITSTATUS(status) : -1, WIFSIGNALED(status) ? WTERMSIG(status) : 0);
    _exit(PROGRAM_ENDED);
}

void pipe_leave(void) {
    close(it.numbers.to);
    close(it.numbers.from);
}

void pipe_close(void) {
    close(it.numbers.to);
    waitpid(it.numbers.process, NULL, 0);
}
