/* A program without a C library, for test_portable.py: the three functions that keywrap.c needs are its own. */

#include <stddef.h>

#include "keywrap.h"

void *memcpy(void *to, const void *from, size_t n) {
    char *t = to;
    const char *f = from;
    while (n--) *t++ = *f++;
    return to;
}

void *memset(void *to, int c, size_t n) {
    char *t = to;
    while (n--) *t++ = (char)c;
    return to;
}

void *memmove(void *to, const void *from, size_t n) {
    char *t = to;
    const char *f = from;
    if (t <= f) return memcpy(to, from, n);
    while (n--) t[n] = f[n];
    return to;
}

static uint8_t kek[32], key[16], wrapped[24];

void _start(void) {
    for (;;)
        if (keywrap_wrap(kek, 32, key, 16, wrapped, 24)) return;
}
