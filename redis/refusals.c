#include "refusals.h"

#include <stdarg.h>
#include <stdio.h>

#include "names.h"

static Shape shape; /* no pages if the head cannot be read */

void read_shape(const char *image) {
    char head[32];
    FILE *file = fopen(image, "rb");
    if (!file) return;
    if (fread(head, sizeof head, 1, file) == 1 && !memcmp(head, "PINKIMG1", 8))
        shape = (Shape){get32(head + 8), get32(head + 12), get32(head + 16)};
    fclose(file);
}

static void say(Bytes *text, const char *format, ...) __attribute__((format(printf, 2, 3)));
static void say(Bytes *text, const char *format, ...) {
    char part[512];
    va_list arguments;
    va_start(arguments, format);
    int length = vsnprintf(part, sizeof part, format, arguments);
    va_end(arguments);
    add_bytes(text, part, (size_t)length < sizeof part ? (size_t)length : sizeof part - 1);
}

/* The name as Python prints bytes. */
static void say_name(Bytes *text, const Part *part) {
    size_t length;
    const char *name = part->name ? StringPtrLen(part->name, &length) : NULL;
    if (!name) {
        name = part->key;
        length = part->key_length;
    }
    char quote = memchr(name, '\'', length) && !memchr(name, '"', length) ? '"' : '\'';
    say(text, "b%c", quote);
    for (size_t i = 0; i < length; i++) {
        unsigned char byte = (unsigned char)name[i];
        if (byte == (unsigned char)quote || byte == '\\') say(text, "\\%c", byte);
        else if (byte == '\t') say(text, "\\t");
        else if (byte == '\n') say(text, "\\n");
        else if (byte == '\r') say(text, "\\r");
        else if (byte < 0x20 || byte > 0x7E) say(text, "\\x%02x", byte);
        else add_bytes(text, name + i, 1);
    }
    say(text, "%c", quote);
}

static void say_full(Bytes *text, const Part *part) {
    say(text, "no space for the key ");
    say_name(text, part);
    Answer report = pipe_ask(&(Entry){.opcode = REPORT, .space = part->space});
    uint32_t limit = report.status == DONE ? get32(report.data.at + 4) : 0;
    drop_bytes(&report.data);
    if (!shape.page_bytes || !limit) return;
    uint32_t pair = 2 * shape.page_bytes, pages = 2 * ((32 + entry_of(part).size + pair - 1) / pair);
    say(text, ": its value takes %u pages, and the values of its namespace at most %u", pages, limit);
}

static void say_too_long(Bytes *text, const Part *part) {
    say(text, "the value of ");
    say_name(text, part);
    say(text, " has %u bytes; the drive takes at most ", part->size);
    if (!shape.page_bytes) {
        say(text, "fewer");
        return;
    }
    uint32_t front = entry_of(part).size - part->size, most = shape.block_pages / 4 * shape.page_bytes - 32;
    say(text, "%u", most > front ? most - front : 0);
}

static void say_bad_key(Bytes *text, const Part *part) {
    say(text, "a key has 1 to %d bytes; ", KEY_BYTES);
    size_t length = part->key_length;
    if (part->name) StringPtrLen(part->name, &length);
    say_name(text, part);
    say(text, " has %zu", length);
}

static void say_read_failed(Bytes *text, const Part *part) {
    say(text, "reading the flash failed for ");
    say_name(text, part);
    say(text, "; pinkctl check prints the page");
}

static void say_other_name(Bytes *text, const Part *part) {
    say(text, "another name has the hash of ");
    say_name(text, part);
    say(text, ", which cannot be used");
}

void refusal_text(Bytes *text, const Part *part) {
    switch (part->status) {
    case FULL: say_full(text, part); break;
    case TOO_LONG: say_too_long(text, part); break;
    case BAD_KEY: say_bad_key(text, part); break;
    case READ_FAILED: say_read_failed(text, part); break;
    case NO_NAMESPACE: say(text, "the drive has no namespace %d", part->space); break;
    case OTHER_NAME: say_other_name(text, part); return;
    default:
        say(text, "status %02Xh for the key ", part->status);
        say_name(text, part);
        return;
    }
    say(text, " (status %02Xh)", part->status);
}

int reply_refusal(Ctx *ctx, const Part *part) {
    if (part->status == MOVED_AWAY)
        return ReplyWithError(ctx, "TRYAGAIN the slot of the key went to another server while clients were paused: nothing was done");
    Bytes text = {0};
    say(&text, "ERR ");
    refusal_text(&text, part);
    add_bytes(&text, "", 1);
    ReplyWithError(ctx, text.at);
    drop_bytes(&text);
    return API_OK;
}
