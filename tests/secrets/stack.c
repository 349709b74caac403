/* stack.c: how many bytes that depend on a KEK, or on the key, each call of the C library leaves
 * below the stack pointer. Each call runs on a stack of its own that is filled beforehand, and again
 * with another KEK, another new KEK, another key: a byte of the stack that differs afterwards depends
 * on what differed. Each call is made with KEKs of 16, 24 and 32 bytes and kept ones, in each way in
 * which it can end. Prints a line for each of these: the call, the way, the KEK's length, and then the count
 * for the KEK, the new KEK, the key, and of copies: 16 bytes in a row of a KEK or of the key; and how
 * many bytes of the stack the call took. */

#define _XOPEN_SOURCE 700

#include <stdio.h>
#include <stdlib.h>
#include <ucontext.h>

enum { STACK = 1 << 16, KEY_LEN = 32, ROOM = 128 };
#define PUBLIC(bytes) (void)(bytes)
#include "calls.h"

/* The ways in which a call ends, each with its status. */
enum way {
    DONE,
    DAMAGED,
    BAD_IV,
    BAD_KEK,
    BAD_NEW_KEK,
    SHORT,
    BAD_FLAGS,
    BAD_KEY,
    NOT_PLAIN,
    WAYS
};

static const struct {
    const char *name;
    int32_t status;
} ENDS[WAYS] = {
    {"done", KEYWRAP_OK},
    {"integrity", KEYWRAP_INTEGRITY},
    {"bad_iv", KEYWRAP_BAD_IV},
    {"bad_kek", KEYWRAP_BAD_KEK},
    {"bad_new_kek", KEYWRAP_BAD_KEK},
    {"bad_length", KEYWRAP_BAD_LENGTH},
    {"bad_flags", KEYWRAP_BAD_LENGTH},
    {"bad_key", KEYWRAP_BAD_LENGTH},
    {"not_plain", KEYWRAP_KEY_NOT_PLAIN},
};

CALL(wrap_short, keywrap_wrap_padded(kek, kek_len, key, 8, out, 16))
CALL(wrap_short_in_place, keywrap_wrap_padded_in_place(kek, kek_len, out, 16, 8))
CALL(self_test, keywrap_self_test())

/* With a text under the old KEK in the same call: the steps of the two are made apart. */
static void rewrap_two(void) {
    static uint8_t two[128];
    memcpy(two, out, text_len);
    status = keywrap_wrap(kek, kek_len, key, KEY_LEN, two + text_len, text_len);
    if (status != KEYWRAP_OK) return;
    status =
        keywrap_rewrap_many(kek, kek_len, new_kek, kek_len, two, 2 * text_len, forms, statuses, 2);
    if (statuses[0] != KEYWRAP_ALREADY_NEW || statuses[1] != KEYWRAP_OK) status = KEYWRAP_INTEGRITY;
}

static void kind_two(void) {
    static uint8_t two[128];
    memcpy(two, text, whole);
    memcpy(two + whole, text, whole);
    status = keywrap_kind_many(kek, kek_len, two, 2 * whole, out, whole - 8, slot_forms, 2,
                               slot_lens, 2, statuses, 2);
    if (statuses[1] != KEYWRAP_OK) status = KEYWRAP_INTEGRITY;
}

/* The calls, which one makes the text that is taken, the flags, and the ways. */
enum {
    WRAPS = 1 << DONE | 1 << BAD_KEK | 1 << SHORT,
    UNWRAPS = WRAPS | 1 << DAMAGED,
    REWRAPS = UNWRAPS | 1 << BAD_NEW_KEK | 1 << BAD_FLAGS
};

static const struct watched {
    const char *name;
    void (*run)(void), (*prepare)(void);
    uint32_t forms;
    unsigned ways;
} CALLS[] = {
    {"wrap", wrap, NULL, 0, WRAPS},
    {"wrap_with", wrap_with, NULL, 0, WRAPS | 1 << BAD_IV},
    {"wrap_in_place", wrap_in_place, NULL, 0, WRAPS},
    {"wrap_padded", wrap_padded, NULL, 0, WRAPS},
    {"wrap_padded_in_place", wrap_padded_in_place, NULL, 0, WRAPS},
    {"wrap_padded,8", wrap_short, NULL, 0, 1 << DONE},
    {"wrap_padded_in_place,8", wrap_short_in_place, NULL, 0, 1 << DONE},
    {"unwrap", unwrap, wrap, 0, UNWRAPS},
    {"unwrap_with", unwrap_with, wrap_with, 0, UNWRAPS | 1 << BAD_IV},
    {"unwrap_in_place", unwrap_in_place, wrap, 0, UNWRAPS},
    {"unwrap_padded", unwrap_padded, wrap_padded, 0, UNWRAPS},
    {"unwrap_padded_in_place", unwrap_padded_in_place, wrap_padded, 0, UNWRAPS},
    {"kind,plain", kind, wrap, 0, UNWRAPS},
    {"kind,padded", kind, wrap_padded, 0, UNWRAPS},
    {"unwrap_any,plain", unwrap_any, wrap, 0, UNWRAPS},
    {"unwrap_any,padded", unwrap_any, wrap_padded, 0, UNWRAPS},
    {"rewrap_in_place,plain", rewrap_in_place, wrap, 0, REWRAPS},
    {"rewrap_in_place,to_padded", rewrap_in_place, wrap, KEYWRAP_NEW_PADDED, REWRAPS},
    {"rewrap_in_place,to_plain", rewrap_in_place, wrap_padded, KEYWRAP_OLD_PADDED,
     REWRAPS | 1 << BAD_KEY},
    {"rewrap_in_place,padded", rewrap_in_place, wrap_padded, BOTH_PADDED, REWRAPS},
    {"rewrap,plain", rewrap, wrap, 0, REWRAPS},
    {"rewrap,to_plain", rewrap, wrap_padded, KEYWRAP_OLD_PADDED, REWRAPS | 1 << NOT_PLAIN},
    {"rewrap,keep_plain", rewrap, wrap, KEYWRAP_KEEP_FORM, REWRAPS},
    {"rewrap,keep_padded", rewrap, wrap_padded, KEYWRAP_KEEP_FORM, REWRAPS},
    {"rewrap,pass_new", rewrap, wrap_new, KEYWRAP_PASS_NEW, REWRAPS},
    {"wrap_many,plain", wrap_many, NULL, 0, WRAPS | 1 << BAD_FLAGS},
    {"wrap_many,padded", wrap_many, NULL, KEYWRAP_NEW_PADDED, WRAPS | 1 << BAD_FLAGS},
    {"unwrap_many,plain", unwrap_many, wrap, 0, UNWRAPS | 1 << BAD_FLAGS},
    {"unwrap_many,padded", unwrap_many, wrap_padded, KEYWRAP_OLD_PADDED, UNWRAPS | 1 << BAD_FLAGS},
    {"kind_many,plain", kind_many, wrap, 0, UNWRAPS},
    {"kind_many,padded", kind_many, wrap_padded, 0, UNWRAPS},
    {"kind_many,two", kind_two, wrap, 0, 1 << DONE},
    {"rewrap_many,plain", rewrap_many, wrap, 0, REWRAPS},
    {"rewrap_many,to_plain", rewrap_many, wrap_padded, KEYWRAP_OLD_PADDED,
     REWRAPS | 1 << NOT_PLAIN},
    {"rewrap_many,keep_padded", rewrap_many, wrap_padded, KEYWRAP_KEEP_FORM, REWRAPS},
    {"rewrap_many,pass_new", rewrap_many, wrap_new, KEYWRAP_PASS_NEW, REWRAPS},
    {"rewrap_many,apart", rewrap_two, wrap_new, KEYWRAP_PASS_NEW, 1 << DONE},
    {"kek_init", kek_init, NULL, 0, WRAPS},
    {"self_test", self_test, NULL, 0, 1 << DONE},
};

/* The secrets, of 32 bytes each, and the seed that fills them. */
static const struct secret {
    uint8_t *bytes;
    unsigned seed;
} SECRETS[] = {{from, 1}, {new_from, 3}, {key, 2}};

enum { SECRET_COUNT = sizeof SECRETS / sizeof *SECRETS };

/* The registers with which each call begins: a call saves some of them on its stack. */
static ucontext_t start;

/* The arguments of a call that is done, and the text that it takes. */
static void prepare(const struct watched *watched, enum way way, size_t len) {
    set_lengths(len, way == BAD_KEY || way == NOT_PLAIN ? KEY_LEN - 1 : KEY_LEN);
    slots = 1;
    forms = watched->forms;
    memset(iv, 1, sizeof iv);
    put_key();
    if (watched->prepare) {
        watched->prepare();
        memcpy(text, out, whole);
    }
}

/* The one argument by which it ends in another way. */
static void change(enum way way) {
    static const uint8_t reserved[8] = {0xA6, 0x59, 0x59, 0xA6};
    switch (way) {
    case DAMAGED: text[3] ^= 1, out[3] ^= 1; break;
    case BAD_IV: memcpy(iv, reserved, sizeof iv); break;
    case BAD_KEK: kek_len--; break;
    case BAD_NEW_KEK: new_kek_len--; break;
    case SHORT: text_len--; break;
    case BAD_FLAGS: forms |= 16; break;
    default: break;
    }
}

/* Runs a call on the stack, which is filled beforehand. It must end in this way. */
static void run_on(uint8_t *stack, const struct watched *watched, enum way way, size_t len) {
    static ucontext_t here, there;
    prepare(watched, way, len);
    change(way);
    memset(stack, 0x5A, STACK);
    there = start;
    there.uc_stack.ss_sp = stack;
    there.uc_stack.ss_size = STACK;
    there.uc_link = &here;
    makecontext(&there, watched->run, 0);
    if (swapcontext(&here, &there)) exit(2);
    if (status != ENDS[way].status) exit(3);
}

static void fill(uint8_t *bytes, size_t len, unsigned seed) {
    for (size_t i = 0; i < len; i++) {
        seed = seed * 1103515245u + 12345u;
        bytes[i] = (uint8_t)(seed >> 16);
    }
}

static unsigned differing(const uint8_t *a, const uint8_t *b) {
    unsigned count = 0;
    for (size_t i = 0; i < STACK; i++) count += a[i] != b[i];
    return count;
}

/* Counts copies of 16 bytes of a secret, from the secret's start or from its middle. */
static unsigned copies(const uint8_t *stack) {
    unsigned count = 0;
    for (size_t i = 0; i + 16 <= STACK; i++)
        for (int s = 0; s < SECRET_COUNT; s++)
            for (int half = 0; half < 32; half += 16)
                count += !memcmp(stack + i, SECRETS[s].bytes + half, 16);
    return count;
}

/* The bytes from the first that was written on. */
static unsigned taken(const uint8_t *stack) {
    unsigned first = 0;
    while (stack[first] == 0x5A) first++;
    return STACK - first;
}

static void watch(uint8_t *stack, const struct watched *watched, enum way way, size_t len) {
    static uint8_t first[STACK];
    run_on(stack, watched, way, len);
    memcpy(first, stack, STACK);
    printf("%s %s %u", watched->name, ENDS[way].name, (unsigned)len);
    for (const struct secret *secret = SECRETS; secret < SECRETS + SECRET_COUNT; secret++) {
        fill(secret->bytes, 32, secret->seed + 10);
        run_on(stack, watched, way, len);
        printf(" %u", differing(first, stack));
        fill(secret->bytes, 32, secret->seed);
    }
    printf(" %u %u\n", copies(first), taken(first));
}

int main(void) {
    uint8_t *stack = malloc(STACK);
    if (!stack || getcontext(&start)) return 2;
    for (int i = 0; i < SECRET_COUNT; i++) fill(SECRETS[i].bytes, 32, SECRETS[i].seed);
    for (size_t c = 0; c < sizeof CALLS / sizeof *CALLS; c++)
        for (enum way way = DONE; way < WAYS; way++)
            for (int i = 0; i < (CALLS[c].run == kek_init ? 3 : 6) && CALLS[c].ways >> way & 1; i++)
                watch(stack, CALLS + c, way, KEK_LENS[i]);
    free(stack);
    return 0;
}
