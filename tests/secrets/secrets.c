/* secrets.c: runs each call of the C library under valgrind's memcheck, with the KEK, the key and
 * the wrapped key marked as undefined. A branch or an address that depends on an undefined byte is
 * a report. tests/test_secrets.py compiles it, runs it and reads what it prints: a line for each call
 * with the reports that no suppression took, over all KEK sizes and lengths of key. */

#include <stdio.h>
#include <stdlib.h>
#include <valgrind/memcheck.h>

#include "one_table.h"

enum { LONGEST = 1024, ROOM = LONGEST + 8, LONGEST_DAMAGED = 40 };
#define PUBLIC(bytes) (void)VALGRIND_MAKE_MEM_DEFINED(bytes, sizeof bytes)
#include "calls.h"

#ifdef __aarch64__
/* In this build the decision returns its outcome as a value, and its callers branch on it again.
 * The status reveals the outcome anyway, so a branch that depends only on the outcome is not
 * reported: this wrapper is between the callers and the decision. The outcome is in both registers
 * of the result. */
struct outcome {
    uint64_t first, second;
};
struct outcome I_WRAP_SONAME_FNNAME_ZZ(NONE, key_wrap_coreZcZcchecksZcZcdecide)(uint64_t, uint8_t *,
                                                                                size_t);
struct outcome I_WRAP_SONAME_FNNAME_ZZ(NONE, key_wrap_coreZcZcchecksZcZcdecide)(uint64_t difference,
                                                                                uint8_t *bytes,
                                                                                size_t len) {
    OrigFn decide;
    uint64_t answer;
    VALGRIND_GET_ORIG_FN(decide);
    CALL_FN_W_WWW(answer, decide, difference, bytes, len);
    (void)VALGRIND_MAKE_MEM_DEFINED(&answer, sizeof answer);
    return (struct outcome){answer, answer};
}
#endif

/* Puts the wrapped key where the calls in place and in slots take it. */
static void put_text(void) {
    for (size_t i = 1; i < slots; i++) memcpy(text + i * whole, text, whole);
    memcpy(out, text, slots * whole);
}

CALL(wrap_new_padded, keywrap_wrap_padded(new_kek, kek_len, key, key_len, out, text_len))

/* An AES that looks its tables up by secrets, to see that memcheck reports it. */
static void tables(void) {
    struct one_table keys;
    one_table_schedule(&keys, kek, kek_len);
    one_table_wrap(&keys, 0xA6A6A6A6A6A6A6A6u, key, key_len, out);
    status = KEYWRAP_OK;
}

/* The lengths of keys that each form has. */
#define PLAIN 16, 8, LONGEST
#define PADDED 1, 1, LONGEST

/* The calls: which one makes the text that it takes, the lengths of its keys, the flags, and the
 * status if the text is not damaged. */
static const struct watched {
    const char *name;
    void (*run)(void), (*prepare)(void);
    size_t shortest, step, most;
    uint32_t forms;
    int32_t ends;
} CALLS[] = {
    {"keywrap_kek_init", kek_init, NULL, 16, 8, 16, 0, 0},
    {"keywrap_wrap", wrap, NULL, PLAIN, 0, 0},
    {"keywrap_wrap_with", wrap_with, NULL, PLAIN, 0, 0},
    {"keywrap_wrap_in_place", wrap_in_place, NULL, PLAIN, 0, 0},
    {"keywrap_wrap_padded", wrap_padded, NULL, PADDED, 0, 0},
    {"keywrap_wrap_padded_in_place", wrap_padded_in_place, NULL, PADDED, 0, 0},
    {"keywrap_unwrap", unwrap, wrap, PLAIN, 0, 0},
    {"keywrap_unwrap_with", unwrap_with, wrap_with, PLAIN, 0, 0},
    {"keywrap_unwrap_in_place", unwrap_in_place, wrap, PLAIN, 0, 0},
    {"keywrap_unwrap_padded", unwrap_padded, wrap_padded, PADDED, 0, 0},
    {"keywrap_unwrap_padded_in_place", unwrap_padded_in_place, wrap_padded, PADDED, 0, 0},
    {"keywrap_kind", kind, wrap, PLAIN, 0, 0},
    {"keywrap_kind, padded", kind, wrap_padded, PADDED, 0, 0},
    {"keywrap_unwrap_any", unwrap_any, wrap, PLAIN, 0, 0},
    {"keywrap_unwrap_any, padded", unwrap_any, wrap_padded, PADDED, 0, 0},
    {"keywrap_rewrap_in_place", rewrap_in_place, wrap, PLAIN, 0, 0},
    {"keywrap_rewrap_in_place, to padded", rewrap_in_place, wrap, PLAIN, KEYWRAP_NEW_PADDED, 0},
    {"keywrap_rewrap_in_place, to plain", rewrap_in_place, wrap_padded, PLAIN, KEYWRAP_OLD_PADDED,
     0},
    {"keywrap_rewrap_in_place, padded", rewrap_in_place, wrap_padded, PADDED, BOTH_PADDED, 0},
    {"keywrap_rewrap", rewrap, wrap, PLAIN, 0, 0},
    {"keywrap_rewrap, to padded", rewrap, wrap, PLAIN, KEYWRAP_NEW_PADDED, 0},
    {"keywrap_rewrap, to plain", rewrap, wrap_padded, PLAIN, KEYWRAP_OLD_PADDED, 0},
    {"keywrap_rewrap, to plain, not plain", rewrap, wrap_padded, 17, 8, LONGEST,
     KEYWRAP_OLD_PADDED | KEYWRAP_PASS_NEW, KEYWRAP_KEY_NOT_PLAIN},
    {"keywrap_rewrap, padded", rewrap, wrap_padded, PADDED, BOTH_PADDED, 0},
    {"keywrap_rewrap, plain and kept", rewrap, wrap, PLAIN, KEYWRAP_KEEP_FORM, 0},
    {"keywrap_rewrap, padded and kept", rewrap, wrap_padded, PADDED, KEYWRAP_KEEP_FORM, 0},
    {"keywrap_rewrap, plain and new", rewrap, wrap_new, PLAIN, KEYWRAP_PASS_NEW, 0},
    {"keywrap_rewrap, padded and new", rewrap, wrap_new_padded, PADDED,
     KEYWRAP_KEEP_FORM | KEYWRAP_PASS_NEW, 0},
    {"keywrap_wrap_many", wrap_many, NULL, PLAIN, 0, 0},
    {"keywrap_wrap_many, padded", wrap_many, NULL, PADDED, KEYWRAP_NEW_PADDED, 0},
    {"keywrap_unwrap_many", unwrap_many, wrap, PLAIN, 0, 0},
    {"keywrap_unwrap_many, padded", unwrap_many, wrap_padded, PADDED, KEYWRAP_OLD_PADDED, 0},
    {"keywrap_kind_many", kind_many, wrap, PLAIN, 0, 0},
    {"keywrap_kind_many, padded", kind_many, wrap_padded, PADDED, 0, 0},
    {"keywrap_rewrap_many", rewrap_many, wrap, PLAIN, 0, 0},
    {"keywrap_rewrap_many, to plain", rewrap_many, wrap_padded, PLAIN, KEYWRAP_OLD_PADDED, 0},
    {"keywrap_rewrap_many, padded", rewrap_many, wrap_padded, PADDED, BOTH_PADDED, 0},
    {"keywrap_rewrap_many, padded and kept", rewrap_many, wrap_padded, PADDED, KEYWRAP_KEEP_FORM,
     0},
    {"keywrap_rewrap_many, plain and new", rewrap_many, wrap_new, PLAIN,
     KEYWRAP_KEEP_FORM | KEYWRAP_PASS_NEW, 0},
    {"tables", tables, NULL, 16, 8, 48, 0, 0},
};

/* The mark of a kept KEK is public. */
static void mark(int undefined) {
    const size_t mark_len = kek_len > 32 ? 8 : 0, secret_len = kek_len - mark_len;
    uint8_t *secrets[] = {kek + mark_len, new_kek + mark_len, key, text};
    size_t lens[] = {secret_len, secret_len, sizeof key, sizeof text};
    for (int i = 0; i < 4; i++) {
        if (undefined) (void)VALGRIND_MAKE_MEM_UNDEFINED(secrets[i], lens[i]);
        else (void)VALGRIND_MAKE_MEM_DEFINED(secrets[i], lens[i]);
    }
}

/* The reports of one call on secret bytes. The same call on bytes that are not secret must have the
 * same result. With damage the text fails its integrity check. */
static unsigned reports(const struct watched *watched, size_t of_kek, size_t of_key, int damage) {
    static uint8_t expected[2 * ROOM];
    int32_t wanted = damage ? KEYWRAP_INTEGRITY : watched->ends;
    forms = watched->forms;
    slots = 2;
    set_lengths(of_kek, of_key);
    mark(0);
    if (watched->prepare) {
        watched->prepare();
        if (status != KEYWRAP_OK) exit(2);
        memcpy(text, out, whole);
    }
    if (damage) text[0] ^= 1;
    watched->prepare ? put_text() : put_key();
    watched->run();
    if (status != wanted) exit(2);
    memcpy(expected, out, sizeof expected);

    mark(1);
    watched->prepare ? put_text() : put_key();
    unsigned before = (unsigned)VALGRIND_COUNT_ERRORS;
    watched->run();
    unsigned found = (unsigned)VALGRIND_COUNT_ERRORS - before;
    (void)VALGRIND_MAKE_MEM_DEFINED(&status, sizeof status);
    (void)VALGRIND_MAKE_MEM_DEFINED(out, sizeof out);
    if (status != wanted || memcmp(out, expected, sizeof out)) exit(3);
    return found;
}

/* Watches a call with all lengths of KEK and keys of up to this length, and prints its line. With kept
 * KEKs the keys are short. */
static void watch(const struct watched *watched, size_t longest, int damage) {
    const int takes_kept = watched->run != kek_init && watched->run != tables;
    unsigned found = 0, calls = 0;
    for (int i = 0; i < (takes_kept ? 6 : 3); i++)
        for (size_t len = watched->shortest;
             len <= longest && len <= watched->most && (i < 3 || len <= LONGEST_DAMAGED);
             len += watched->step, calls++)
            found += reports(watched, KEK_LENS[i], len, damage);
    printf("%s%s: %u reports in %u calls\n", watched->name, damage ? ", damaged" : "", found,
           calls);
    fflush(stdout);
}

/* usage: secrets LENGTHS        keys of up to LENGTHS bytes, damaged ones of up to 40 */
int main(int argc, char **argv) {
    size_t longest = argc == 2 ? strtoul(argv[1], NULL, 10) : 0;
    if (longest < 16 || longest > LONGEST || !RUNNING_ON_VALGRIND) return 64;
    one_table_start();
    memcpy(iv, "keywrap", sizeof iv);
    for (size_t i = 0; i < sizeof from; i++) {
        from[i] = (uint8_t)(7 * i + 1);
        new_from[i] = (uint8_t)(5 * i + 2);
    }
    for (size_t i = 0; i < sizeof key; i++) key[i] = (uint8_t)(11 * i + 3);
    for (size_t c = 0; c < sizeof CALLS / sizeof *CALLS; c++) {
        watch(CALLS + c, longest, 0);
        if (CALLS[c].prepare)
            watch(CALLS + c, longest < LONGEST_DAMAGED ? longest : LONGEST_DAMAGED, 1);
    }
    return 0;
}
