/* Tests of the client in C against the real program:  make test */
#define _POSIX_C_SOURCE 200809L

#include "pink.h"

#include <stdio.h>
#include <stdlib.h>
#include <string.h>
#include <sys/types.h>
#include <signal.h>
#include <unistd.h>

enum { PAGES = 492, MANY = 3000, TURNS = 400, KEYS = 24, LONGEST = 300 };

static int checks, faults;

#define CHECK(holds) check((holds), #holds, __LINE__)
#define GIVES(status, call) gives((status), (call), #call, __LINE__)

static void check(int holds, const char *what, int line)
{
    checks++;
    if (holds)
        return;
    faults++;
    fprintf(stderr, "test.c:%d: failed: %s\n", line, what);
}

static void gives(enum pink_status wanted, enum pink_status found, const char *what, int line)
{
    check(wanted == found, what, line);
    if (wanted != found)
        fprintf(stderr, "    %s, and not: %s\n", pink_status_text(found), pink_status_text(wanted));
}

static char folder[] = "/tmp/pink-c-XXXXXX";
static char image[64], other[64];

static struct pink_drive *opened(const char *path, const struct pink_options *options)
{
    struct pink_drive *drive;
    GIVES(PINK_DONE, pink_open(&drive, path, options));
    if (!drive)
        exit(1);
    return drive;
}

static int is_value(struct pink_drive *drive, const char *key, const char *value)
{
    char buffer[100];
    uint32_t length;
    return pink_retrieve(drive, key, strlen(key), buffer, sizeof buffer, &length) == PINK_DONE &&
           length == strlen(value) && memcmp(buffer, value, length) == 0;
}

static void making(void)
{
    struct pink_drive *drive;
    CHECK(pink_make(image, NULL, 512, 12, 64, NULL, 0) == 2);
    CHECK(pink_make(image, NULL, 512, 16, 64, NULL, 0) == 0);
    CHECK(pink_make(image, NULL, 512, 16, 64, NULL, 0) == 9);
    GIVES(PINK_ENDED, pink_open(&drive, other, NULL));
    CHECK(pink_exit_status(drive) == 8);
    CHECK(pink_close(drive) == 8);
    GIVES(PINK_ENDED, pink_open(&drive, image, &(struct pink_options){.program = "/nowhere/pink"}));
    CHECK(pink_close(drive) == 127);
    drive = opened(image, NULL);
    struct pink_drive *second;
    GIVES(PINK_ENDED, pink_open(&second, image, NULL));
    CHECK(pink_close(second) == 6);
    CHECK(pink_exit_status(drive) == -1);
    CHECK(pink_close(drive) == 0);
    CHECK(pink_close(NULL) == 0);
}

static void values(void)
{
    struct pink_drive *drive = opened(image, NULL);
    char buffer[8] = "........";
    uint32_t length = 9;
    GIVES(PINK_NO_SUCH_KEY, pink_retrieve(drive, "a", 1, buffer, 8, &length));
    GIVES(PINK_DONE, pink_store(drive, "a", 1, "value", 5, 0));
    CHECK(is_value(drive, "a", "value"));
    GIVES(PINK_DONE, pink_retrieve(drive, "a", 1, buffer, 3, &length));
    CHECK(length == 5 && memcmp(buffer, "val.....", 8) == 0);
    GIVES(PINK_DONE, pink_retrieve(drive, "a", 1, NULL, 0, &length));
    CHECK(length == 5);
    GIVES(PINK_DONE, pink_store(drive, "empty", 5, NULL, 0, 0));
    CHECK(is_value(drive, "empty", ""));
    GIVES(PINK_DONE, pink_exist(drive, "a", 1));
    GIVES(PINK_NO_SUCH_KEY, pink_exist(drive, "b", 1));
    GIVES(PINK_DONE, pink_delete(drive, "a", 1));
    GIVES(PINK_NO_SUCH_KEY, pink_delete(drive, "a", 1));
    GIVES(PINK_NO_SUCH_KEY, pink_exist(drive, "a", 1));
    CHECK(pink_close(drive) == 0);
    drive = opened(image, NULL);
    CHECK(is_value(drive, "empty", ""));
    GIVES(PINK_DONE, pink_delete(drive, "empty", 5));
    CHECK(pink_close(drive) == 0);
}

static void options(void)
{
    struct pink_drive *drive = opened(image, NULL);
    GIVES(PINK_NO_SUCH_KEY, pink_store(drive, "o", 1, "1", 1, PINK_IF_EXISTS));
    GIVES(PINK_DONE, pink_store(drive, "o", 1, "1", 1, PINK_IF_ABSENT));
    GIVES(PINK_KEY_EXISTS, pink_store(drive, "o", 1, "2", 1, PINK_IF_ABSENT));
    CHECK(is_value(drive, "o", "1"));
    GIVES(PINK_DONE, pink_store(drive, "o", 1, "3", 1, PINK_IF_EXISTS));
    CHECK(is_value(drive, "o", "3"));
    CHECK(pink_store(drive, "o", 1, "4", 1, PINK_IF_EXISTS | PINK_IF_ABSENT) == PINK_KEY_EXISTS);
    CHECK(pink_store(drive, "p", 1, "4", 1, PINK_IF_EXISTS | PINK_IF_ABSENT) == PINK_NO_SUCH_KEY);
    GIVES(PINK_DONE, pink_delete(drive, "o", 1));
    CHECK(pink_close(drive) == 0);
}

static void refusals(void)
{
    static const char zeros[PINK_WHOLE_VALUE];
    struct pink_drive *drive = opened(image, NULL);
    struct pink_answer answer;
    struct pink_key keys[2];
    size_t count = 9;
    GIVES(PINK_INVALID_KEY_SIZE, pink_store(drive, "12345678901234567", 17, "", 0, 0));
    GIVES(PINK_INVALID_KEY_SIZE, pink_exist(drive, "", 0));
    GIVES(PINK_INVALID_VALUE_SIZE, pink_store(drive, "a", 1, zeros, 2017, 0));
    GIVES(PINK_DONE, pink_store(drive, "a", 1, zeros, 2016, 0));
    GIVES(PINK_DONE, pink_submit(drive, &(struct pink_command){.opcode = (enum pink_opcode)0x55}));
    GIVES(PINK_BUSY, pink_flush(drive));
    GIVES(PINK_DONE, pink_receive(drive, &answer));
    GIVES(PINK_INVALID_OPCODE, answer.status);
    GIVES(PINK_DONE, pink_submit(drive, &(struct pink_command){.opcode = PINK_LIST, .size = 3}));
    GIVES(PINK_DONE, pink_receive(drive, &answer));
    GIVES(PINK_INVALID_FIELD, answer.status);
    GIVES(PINK_BUSY, pink_receive(drive, &answer));
    pink_use_namespace(drive, 2);
    GIVES(PINK_INVALID_NAMESPACE, pink_exist(drive, "a", 1));
    GIVES(PINK_INVALID_NAMESPACE, pink_list(drive, "", 0, keys, 2, &count));
    CHECK(count == 0);
    pink_use_namespace(drive, 1);
    enum pink_status status = PINK_DONE;
    for (int i = 0; status == PINK_DONE && i < PAGES; i++)
        status = pink_store(drive, &(char){(char)i}, 1, zeros, 2000, 0);
    GIVES(PINK_CAPACITY_EXCEEDED, status);
    GIVES(PINK_DONE, pink_exist(drive, "a", 1));
    for (int i = 0; i < PAGES; i++)
        pink_delete(drive, &(char){(char)i}, 1);
    CHECK(pink_close(drive) == 0);
}

static void lists_and_reports(void)
{
    struct pink_drive *drive = opened(image, &(struct pink_options){.frames = 8});
    struct pink_report report;
    struct pink_key keys[4];
    size_t count;
    GIVES(PINK_DONE, pink_list(drive, "", 0, keys, 4, &count));
    CHECK(count == 0);
    GIVES(PINK_DONE, pink_store(drive, "b", 1, "1", 1, 0));
    GIVES(PINK_DONE, pink_store(drive, "a", 1, "1", 1, 0));
    GIVES(PINK_DONE, pink_store(drive, "0123456789abcdef", 16, "1", 1, 0));
    GIVES(PINK_DONE, pink_list(drive, "", 0, keys, 4, &count));
    CHECK(count == 3 && keys[0].length == 16 && memcmp(keys[0].bytes, "0123456789abcdef", 16) == 0);
    CHECK(keys[1].length == 1 && keys[1].bytes[0] == 'a' && keys[2].bytes[0] == 'b');
    GIVES(PINK_DONE, pink_list(drive, "a", 1, keys, 1, &count));
    CHECK(count == 1 && keys[0].bytes[0] == 'a');
    GIVES(PINK_DONE, pink_list(drive, "c", 1, keys, 4, &count));
    CHECK(count == 0);
    GIVES(PINK_DONE, pink_tick(drive, 16));
    GIVES(PINK_DONE, pink_flush(drive));
    GIVES(PINK_DONE, pink_report(drive, &report));
    CHECK(report.keys == 3 && report.live == 6 && report.limit == PAGES && report.frames == 8);
    GIVES(PINK_DONE, pink_delete(drive, "a", 1));
    GIVES(PINK_DONE, pink_delete(drive, "b", 1));
    GIVES(PINK_DONE, pink_delete(drive, "0123456789abcdef", 16));
    CHECK(pink_close(drive) == 0);
}

static void namespaces_and_spares(void)
{
    struct pink_options spared = {.spares = 3};
    struct pink_report report;
    struct pink_drive *drive;
    CHECK(pink_make(other, &spared, 512, 16, 64, (uint32_t[]){100, 392}, 2) == 0);
    GIVES(PINK_ENDED, pink_open(&drive, other, NULL));
    CHECK(pink_close(drive) == 8);
    spared.space = 2;
    drive = opened(other, &spared);
    GIVES(PINK_DONE, pink_store(drive, "a", 1, "two", 3, 0));
    pink_use_namespace(drive, 1);
    GIVES(PINK_NO_SUCH_KEY, pink_exist(drive, "a", 1));
    GIVES(PINK_DONE, pink_store(drive, "a", 1, "one", 3, 0));
    CHECK(is_value(drive, "a", "one"));
    GIVES(PINK_DONE, pink_report(drive, &report));
    CHECK(report.limit == 100 && report.keys == 1);
    pink_use_namespace(drive, 2);
    CHECK(is_value(drive, "a", "two"));
    GIVES(PINK_DONE, pink_report(drive, &report));
    CHECK(report.limit == 392);
    CHECK(pink_close(drive) == 0);
}

/* More than the pipes hold goes both ways, and nobody waits for the other. */
static void pipeline(void)
{
    static char value[400];
    struct pink_drive *drive = opened(image, NULL);
    struct pink_answer answer;
    struct pink_command store = {.opcode = PINK_STORE, .key = "k", .key_length = 1, .value = value,
                                 .size = sizeof value};
    struct pink_command retrieve = {.opcode = PINK_RETRIEVE, .key = "k", .key_length = 1,
                                    .size = PINK_WHOLE_VALUE};
    int wrong = 0;
    for (int i = 0; i < MANY; i++) {
        memset(value, i % 251, sizeof value);
        wrong += pink_submit(drive, &store) != PINK_DONE;
        wrong += pink_submit(drive, &retrieve) != PINK_DONE;
    }
    CHECK(pink_waiting(drive) == 2 * MANY);
    for (int i = 0; i < MANY; i++) {
        wrong += pink_receive(drive, &answer) != PINK_DONE || answer.status != PINK_DONE;
        wrong += pink_receive(drive, &answer) != PINK_DONE || answer.length != sizeof value;
        wrong += answer.data[0] != i % 251 || answer.data[sizeof value - 1] != i % 251;
    }
    CHECK(wrong == 0);
    CHECK(pink_waiting(drive) == 0);
    GIVES(PINK_DONE, pink_delete(drive, "k", 1));
    GIVES(PINK_DONE, pink_submit(drive, &store)); /* what nobody waits for is on the flash after the end */
    CHECK(pink_close(drive) == 0);
    drive = opened(image, NULL);
    GIVES(PINK_DONE, pink_delete(drive, "k", 1));
    CHECK(pink_close(drive) == 0);
}

/* Commands at random, beside an array of what should be there. */
static void trials(void)
{
    static unsigned char held[KEYS][LONGEST], found[LONGEST];
    int lengths[KEYS], wrong = 0;
    struct pink_drive *drive = opened(image, NULL);
    for (int i = 0; i < KEYS; i++)
        lengths[i] = -1;
    srand(7);
    for (int turn = 0; turn < TURNS; turn++) {
        int i = rand() % KEYS;
        char key[4] = {'k', (char)('a' + i), 'x', 'y'};
        size_t key_length = 2 + (size_t)i % 3;
        uint32_t length = 0;
        switch (rand() % 4) {
        case 0:
            lengths[i] = rand() % LONGEST;
            for (int at = 0; at < lengths[i]; at++)
                held[i][at] = (unsigned char)rand();
            wrong += pink_store(drive, key, key_length, held[i], (uint32_t)lengths[i], 0) != PINK_DONE;
            break;
        case 1:
            wrong += pink_delete(drive, key, key_length) != (lengths[i] < 0 ? PINK_NO_SUCH_KEY : PINK_DONE);
            lengths[i] = -1;
            break;
        case 2:
            wrong += pink_exist(drive, key, key_length) != (lengths[i] < 0 ? PINK_NO_SUCH_KEY : PINK_DONE);
            break;
        default:
            wrong += pink_retrieve(drive, key, key_length, found, LONGEST, &length) !=
                     (lengths[i] < 0 ? PINK_NO_SUCH_KEY : PINK_DONE);
            wrong += lengths[i] >= 0 && ((int)length != lengths[i] || memcmp(found, held[i], length) != 0);
        }
        if (turn % 100 == 99) {
            wrong += pink_close(drive) != 0;
            drive = opened(image, NULL);
        }
    }
    CHECK(wrong == 0);
    CHECK(pink_close(drive) == 0);
}

/* The program is killed by someone else. */
static void killed(void)
{
    char command[200];
    struct pink_drive *drive = opened(image, NULL);
    struct pink_drive *second;
    struct pink_answer answer;
    GIVES(PINK_DONE, pink_store(drive, "kept", 4, "1", 1, 0));
    snprintf(command, sizeof command,
             "kill -9 $(sed -n 's/^.*FLOCK .* \\([0-9]*\\) [^ ]*:'$(ls -i %s | cut -d' ' -f1)' .*$/\\1/p' /proc/locks)",
             image);
    CHECK(system(command) == 0);
    enum pink_status status = PINK_DONE;
    for (int i = 0; status == PINK_DONE && i < 1000; i++)
        status = pink_store(drive, "lost", 4, "1", 1, 0);
    GIVES(PINK_ENDED, status);
    GIVES(PINK_ENDED, pink_submit(drive, &(struct pink_command){.opcode = PINK_FLUSH}));
    CHECK(pink_receive(drive, &answer) != PINK_DONE);
    CHECK(pink_exit_status(drive) == 128 + SIGKILL);
    CHECK(pink_close(drive) == 128 + SIGKILL);
    second = opened(image, NULL);
    CHECK(is_value(second, "kept", "1"));
    CHECK(pink_close(second) == 0);
}

static void texts(void)
{
    CHECK(strstr(pink_status_text(PINK_NO_SUCH_KEY), "87h") != NULL);
    CHECK(strstr(pink_status_text((enum pink_status)0x77), "not known") != NULL);
    CHECK(strcmp(pink_exit_text(9), "there is an image already") == 0);
    CHECK(strstr(pink_exit_text(137), "signal") != NULL);
    CHECK(strstr(pink_exit_text(11), "does not have") != NULL);
}

int main(void)
{
    if (!mkdtemp(folder))
        return 1;
    snprintf(image, sizeof image, "%s/drive.img", folder);
    snprintf(other, sizeof other, "%s/other.img", folder);
    making();
    values();
    options();
    refusals();
    lists_and_reports();
    namespaces_and_spares();
    pipeline();
    trials();
    killed();
    texts();
    unlink(image);
    unlink(other);
    rmdir(folder);
    printf("clients/c: %d of %d checks passed\n", checks - faults, checks);
    return faults > 0;
}
