#include "walk.h"

#include <stdlib.h>

size_t key_after(char key[KEY_BYTES + 1], size_t length) {
    if (length < KEY_BYTES) {
        key[length] = 0;
        return length + 1;
    }
    while (length && (unsigned char)key[length - 1] == 0xFF) length--;
    if (length) key[length - 1]++;
    return length;
}

const char *listed_key(const char **at, size_t *length) {
    const char *key = *at + 2;
    *length = (unsigned char)(*at)[0];
    *at += (2 + *length + 3) / 4 * 4;
    return key;
}

int count_spaces(void) {
    int spaces = 0, status;
    do {
        Answer answer = pipe_ask(&(Entry){.opcode = REPORT, .space = spaces + 1});
        status = answer.status;
        drop_bytes(&answer.data);
    } while (status == DONE && ++spaces < NAMESPACES);
    return spaces;
}

uint64_t count_keys(int space) {
    Answer answer = pipe_ask(&(Entry){.opcode = REPORT, .space = space});
    uint64_t keys = answer.status == DONE ? get32(answer.data.at + 8) : 0;
    drop_bytes(&answer.data);
    return keys;
}

/* The values of the keys of one List. */
static uint64_t tell_values(int space, const char *at, uint32_t keys, Each *each, void *to) {
    Answer *answers = needed(calloc(keys, sizeof *answers));
    const char *place = at;
    for (uint32_t i = 0; i < keys; i++) {
        Entry entry = {.opcode = RETRIEVE, .space = space, .size = GREATEST_VALUE};
        entry.key = listed_key(&place, &entry.key_length);
        pipe_send(&entry, take_answer, &answers[i]);
    }
    pipe_finish();
    uint64_t unread = 0;
    for (uint32_t i = 0; i < keys; i++) {
        size_t length;
        const char *key = listed_key(&at, &length);
        unread += answers[i].status == READ_FAILED;
        if (answers[i].status == DONE) each(to, space, key, length, answers[i].data.at, answers[i].data.length);
        drop_bytes(&answers[i].data);
    }
    free(answers);
    return unread;
}

static uint64_t tell_keys(int space, const char *at, uint32_t keys, Each *each, void *to) {
    for (uint32_t i = 0; i < keys; i++) {
        size_t length;
        const char *key = listed_key(&at, &length);
        each(to, space, key, length, NULL, 0);
    }
    return 0;
}

/* The last key of an answer of List with keys. */
static size_t last_key(const char *at, uint32_t keys, char key[KEY_BYTES + 1]) {
    size_t length = 0;
    const char *last = NULL;
    for (uint32_t i = 0; i < keys; i++) last = listed_key(&at, &length);
    memcpy(key, last, length);
    return length;
}

uint64_t walk_space(int space, int values, Each *each, void *to) {
    char start[KEY_BYTES + 1];
    size_t length = 0;
    uint64_t unread = 0;
    do {
        Answer listed =
            pipe_ask(&(Entry){.opcode = LIST, .space = space, .key = start, .key_length = length, .size = LIST_BYTES});
        uint32_t keys = listed.status == DONE ? get32(listed.data.at) : 0;
        unread += listed.status != DONE;
        if (keys) {
            unread += (values ? tell_values : tell_keys)(space, listed.data.at + 4, keys, each, to);
            length = key_after(start, last_key(listed.data.at + 4, keys, start));
        }
        drop_bytes(&listed.data);
        if (!keys) break;
    } while (length);
    return unread;
}
