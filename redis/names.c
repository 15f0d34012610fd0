#include "names.h"

#include <stdlib.h>

#include "blake2b.h"

#ifndef PINK_TEST_DIGEST_BYTES
#define PINK_TEST_DIGEST_BYTES DIGEST_BYTES /* a test build has fewer, so that names meet */
#endif

int names_are_hashed;

void set_key(Part *part) {
    size_t length;
    const char *name = StringPtrLen(part->name, &length);
    if (names_are_hashed) {
        blake2b(name, length, part->key);
        memset(part->key + PINK_TEST_DIGEST_BYTES, 0, KEY_BYTES - PINK_TEST_DIGEST_BYTES);
        length = KEY_BYTES;
    } else {
        memcpy(part->key, name, length < KEY_BYTES ? length : KEY_BYTES);
    }
    part->key_length = (unsigned char)(length < 255 ? length : 255);
}

const Bytes *front_of(const Part *part) {
    static Bytes front;
    size_t length;
    const char *name = StringPtrLen(part->name, &length);
    char head[NAME_LENGTH_BYTES];
    put32(head, (uint32_t)length);
    front.length = 0;
    add_bytes(&front, head, sizeof head);
    add_bytes(&front, name, length);
    return &front;
}

int has_front(const Part *part, const Record *record) {
    const Bytes *front = front_of(part);
    return record->length >= front->length && !memcmp(record->data, front->at, front->length);
}

void take_front(Part *part) {
    Record record = {part->status, part->result, part->data, part->length};
    if (!has_front(part, &record)) {
        part->status = OTHER_NAME;
        return;
    }
    part->front = (uint32_t)front_of(part)->length;
    part->result -= part->front;
}

/* A table of the changes of a round by their keys, which are hashes: open addressing, at most half full. */
static struct { Part **at; size_t count, room; } met;

static Part **place_of(Part *const part) {
    size_t place = get32(part->key) & (met.room - 1);
    while (met.at[place] && (met.at[place]->space != part->space || memcmp(met.at[place]->key, part->key, KEY_BYTES)))
        place = (place + 1) & (met.room - 1);
    return &met.at[place];
}

static void grow_table(void) {
    Part **old = met.at;
    size_t room = met.room;
    met.room = room ? 2 * room : 256;
    met.at = needed(calloc(met.room, sizeof *met.at));
    for (size_t i = 0; i < room; i++)
        if (old[i]) *place_of(old[i]) = old[i];
    free(old);
}

int meet_name(Part *part) {
    if (2 * (met.count + 1) > met.room) grow_table();
    Part **place = place_of(part);
    if (!*place) {
        *place = part;
        met.count++;
        return DONE;
    }
    size_t length, before;
    const char *name = StringPtrLen(part->name, &length), *other = StringPtrLen((*place)->name, &before);
    return length == before && !memcmp(name, other, length) ? DONE : OTHER_NAME;
}

void forget_names(void) {
    if (met.count) memset(met.at, 0, met.room * sizeof *met.at);
    met.count = 0;
}

const char *name_under(int space, const char *key, size_t key_length, size_t *length) {
    static Answer answer;
    uint32_t room = NAME_LENGTH_BYTES + COMMON_FRONT;
    for (;;) {
        drop_bytes(&answer.data);
        answer = pipe_ask(&(Entry){.opcode = RETRIEVE, .space = space, .key = key, .key_length = key_length, .size = room});
        if (answer.status != DONE || answer.data.length < NAME_LENGTH_BYTES) return NULL;
        *length = get32(answer.data.at);
        if (*length + NAME_LENGTH_BYTES > answer.result) return NULL;
        if (*length + NAME_LENGTH_BYTES <= answer.data.length) return answer.data.at + NAME_LENGTH_BYTES;
        room = (uint32_t)*length + NAME_LENGTH_BYTES;
    }
}
