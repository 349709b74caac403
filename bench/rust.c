/* rust.c: times the calls of two shared objects, which take turns and must make the same bytes.
 * bench/rust.sh compiles and runs it. Writes CSV: the best nanoseconds of a call, or for many keys
 * of a key, and how many times as long the first one takes.
 *
 * usage: rust SECONDS LIBRARY OTHER     (SECONDS for each line) */

#define _GNU_SOURCE

#include "turns.h"

#include <dlfcn.h>
#include <keywrap.h>
#include <stdio.h>
#include <stdlib.h>
#include <string.h>

enum { KEK_LEN = 32, LONGEST = 4096, KEYS = 2400, KEY_LEN = 32, SLOT = KEY_LEN + 8 };

static struct library {
    __typeof__(keywrap_wrap) *wrap;
    __typeof__(keywrap_unwrap) *unwrap;
    __typeof__(keywrap_wrap_many) *wrap_many;
    __typeof__(keywrap_unwrap_many) *unwrap_many;
    __typeof__(keywrap_rewrap_many) *rewrap_many;
} libraries[2];

/* What is timed. A call with `many` is for all keys, which it changes in their slots. */
static const struct measured {
    const char *name;
    enum { WRAP, UNWRAP, WRAP_MANY, UNWRAP_MANY, REWRAP_MANY } call;
    size_t len;
    int is_kept, is_many;
} MEASURED[] = {
    {"wrap", WRAP, 32, 0, 0},
    {"unwrap", UNWRAP, 32, 0, 0},
    {"wrap", WRAP, LONGEST, 0, 0},
    {"unwrap", UNWRAP, LONGEST, 0, 0},
    {"wrap with a kept KEK", WRAP, 16, 1, 0},
    {"unwrap with a kept KEK", UNWRAP, 16, 1, 0},
    {"wrap with a kept KEK", WRAP, 32, 1, 0},
    {"unwrap with a kept KEK", UNWRAP, 32, 1, 0},
    {"wrap of 2400 keys", WRAP_MANY, KEY_LEN, 0, 1},
    {"unwrap of 2400 keys", UNWRAP_MANY, KEY_LEN, 0, 1},
    {"rewrap of 2400 keys", REWRAP_MANY, KEY_LEN, 0, 1},
};
static const struct measured *measured;

static uint8_t kek[KEK_LEN], new_kek[KEK_LEN], kept[KEYWRAP_KEK_LEN(KEK_LEN)];
static uint8_t key[LONGEST], text[LONGEST + 8];
static size_t key_lens[KEYS];
/* The keys or wrapped keys before a call for many keys. */
static uint8_t given[KEYS * SLOT];
/* What a call writes. */
static struct { uint8_t answer[LONGEST + 8], slots[KEYS * SLOT], statuses[KEYS]; } made, first;

static void *found(void *handle, const char *name) {
    void *call = dlsym(handle, name);
    if (!call) fprintf(stderr, "rust: %s\n", dlerror()), exit(1);
    return call;
}

static void load(struct library *library, const char *path) {
    void *handle = dlopen(path, RTLD_NOW | RTLD_LOCAL);
    if (!handle) fprintf(stderr, "rust: %s\n", dlerror()), exit(1);
    library->wrap = found(handle, "keywrap_wrap");
    library->unwrap = found(handle, "keywrap_unwrap");
    library->wrap_many = found(handle, "keywrap_wrap_many");
    library->unwrap_many = found(handle, "keywrap_unwrap_many");
    library->rewrap_many = found(handle, "keywrap_rewrap_many");
}

static int32_t call_once(const struct library *by) {
    const uint8_t *used = measured->is_kept ? kept : kek;
    const size_t used_len = measured->is_kept ? sizeof kept : sizeof kek;
    const size_t len = measured->len;
    switch (measured->call) {
    case WRAP: return by->wrap(used, used_len, key, len, made.answer, len + 8);
    case UNWRAP: return by->unwrap(used, used_len, text, len + 8, made.answer, len);
    case WRAP_MANY:
        return by->wrap_many(kek, KEK_LEN, made.slots, sizeof made.slots, len, 0, made.statuses,
                             KEYS);
    case UNWRAP_MANY:
        return by->unwrap_many(kek, KEK_LEN, made.slots, sizeof made.slots, 0, key_lens, KEYS,
                               made.statuses, KEYS);
    case REWRAP_MANY:
        return by->rewrap_many(kek, KEK_LEN, new_kek, KEK_LEN, made.slots, sizeof made.slots, 0,
                               made.statuses, KEYS);
    }
    return -1;
}

static void must_succeed(int32_t status) {
    if (status != KEYWRAP_OK)
        fprintf(stderr, "rust: %s: status %d\n", measured->name, (int)status), exit(1);
}

static double turn(int way, unsigned calls) {
    double spent = 0;
    if (!measured->is_many) {
        const double start = now();
        for (unsigned i = 0; i < calls; i++) must_succeed(call_once(libraries + way));
        return (now() - start) / calls;
    }
    for (unsigned i = 0; i < calls; i++) {
        memcpy(made.slots, given, sizeof given);
        const double start = now();
        must_succeed(call_once(libraries + way));
        spent += now() - start;
    }
    return spent / calls;
}

/* The keys to wrap are behind 8 bytes of their slots. The others are wrapped. */
static void prepare(void) {
    must_succeed(libraries[1].wrap(kek, KEK_LEN, key, measured->len, text, measured->len + 8));
    for (size_t i = 0; i < KEYS; i++) memcpy(given + i * SLOT + 8, key + i % 1000, KEY_LEN);
    if (measured->call == UNWRAP_MANY || measured->call == REWRAP_MANY)
        must_succeed(libraries[1].wrap_many(kek, KEK_LEN, given, sizeof given, KEY_LEN, 0,
                                            made.statuses, KEYS));
}

static void must_agree(void) {
    for (int way = 0; way < 2; way++) {
        memset(&made, 0, sizeof made);
        turn(way, 1);
        if (way == 0) first = made;
        else if (memcmp(&first, &made, sizeof made))
            fprintf(stderr, "rust: %s: other bytes\n", measured->name), exit(1);
    }
}

int main(int argc, char **argv) {
    if (argc != 4) return 2;
    for (size_t i = 0; i < KEK_LEN; i++) kek[i] = (uint8_t)(3 * i + 1), new_kek[i] = (uint8_t)~i;
    for (size_t i = 0; i < sizeof key; i++) key[i] = (uint8_t)(7 * i + i / 256);
    load(libraries, argv[2]);
    load(libraries + 1, argv[3]);
    __typeof__(keywrap_kek_init) *keep = found(dlopen(argv[3], RTLD_NOW), "keywrap_kek_init");
    if (keep(kek, KEK_LEN, kept, sizeof kept)) return 1;
    printf("call,key,ns,ns_of_the_other,ratio\n");
    for (size_t at = 0; at < sizeof MEASURED / sizeof *MEASURED; at++) {
        measured = MEASURED + at;
        prepare();
        must_agree();
        double best[2];
        take_turns(2, turn, atof(argv[1]) * 1e9, best);
        const double of = measured->is_many ? KEYS : 1;
        printf("%s,%zu,%.1f,%.1f,%.2f\n", measured->name, measured->len, best[0] / of, best[1] / of,
               best[0] / best[1]);
    }
    return 0;
}
