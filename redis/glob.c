#include "glob.h"

#include <string.h>

/* How many bytes of a pattern `[..]` there are, with what follows; 0 if this byte is not of it: bytes, ranges, and `^` for none of them. */
static size_t class_step(const char *pattern, size_t length, unsigned char byte) {
    size_t at = 1;
    int is_inverted = at < length && pattern[at] == '^', is_found = 0;
    at += (size_t)is_inverted;
    while (at < length && pattern[at] != ']') {
        if (pattern[at] == '\\' && at + 1 < length) at++;
        unsigned char low = (unsigned char)pattern[at], high = low;
        if (at + 2 < length && pattern[at + 1] == '-') {
            high = (unsigned char)pattern[at + 2];
            at += 2;
        }
        if ((low <= byte && byte <= high) || (high <= byte && byte <= low)) is_found = 1;
        at++;
    }
    return is_found != is_inverted ? at + 1 : 0;
}

/* How many bytes of the pattern take this byte of the name; 0 if they do not. */
static size_t step(const char *pattern, size_t length, char byte) {
    if (!length) return 0;
    if (*pattern == '?') return 1;
    if (*pattern == '\\' && length > 1) return pattern[1] == byte ? 2 : 0;
    if (*pattern == '[') return class_step(pattern, length, (unsigned char)byte);
    return *pattern == byte;
}

int glob_matches(const char *pattern, size_t pattern_length, const char *name, size_t length) {
    size_t at = 0, place = 0, star = 0, back = 0;
    int has_star = 0;
    while (place < length) {
        size_t taken = at < pattern_length ? step(pattern + at, pattern_length - at, name[place]) : 0;
        if (at < pattern_length && pattern[at] == '*') {
            has_star = 1;
            star = at++;
            back = place;
        } else if (taken) {
            at += taken;
            place++;
        } else if (has_star) {
            at = star + 1;
            place = ++back;
        } else {
            return 0;
        }
    }
    while (at < pattern_length && pattern[at] == '*') at++;
    return at >= pattern_length;
}

size_t fixed_prefix(const char *pattern, size_t length) {
    size_t at = 0;
    while (at < length && !strchr("*?[\\", pattern[at])) at++;
    return at;
}
