/* lengths.c: the longest keys, and lengths that are legal only in their low 32 bits, over keywrap.c of dist/. */

#include <keywrap.h>
#include <keywrap_steps.h>
#include <stdio.h>
#include <stdlib.h>
#include <string.h>

enum { MAX = KEYWRAP_MAX_KEY, CALLS = 14 };

static uint8_t kek[32], iv[8] = {1}, key[MAX + 16], out[MAX + 16], wrapped[MAX + 16], form[1];
static size_t key_len;
static uint32_t number;

/* Makes the call of this number with a key of this length, and returns its status. */
static int32_t call(int name, size_t len) {
    const size_t text = len + 8;
    switch (name) {
    case 0: return keywrap_wrap(kek, 32, key, len, out, text);
    case 1: return keywrap_wrap_with(kek, 32, iv, 8, key, len, out, text);
    case 2: return keywrap_wrap_padded(kek, 32, key, len, out, text);
    case 3: return keywrap_wrap_in_place(kek, 32, out, text);
    case 4: return keywrap_wrap_padded_in_place(kek, 32, out, text, len);
    case 5: return keywrap_unwrap(kek, 32, wrapped, text, out, len);
    case 6: return keywrap_unwrap_with(kek, 32, iv, 8, wrapped, text, out, len);
    case 7: return keywrap_unwrap_in_place(kek, 32, out, text);
    case 8: return keywrap_rewrap_in_place(kek, 32, kek, 16, out, text, 0);
    case 9: return keywrap_unwrap_padded(kek, 32, wrapped, text, out, len, &key_len);
    case 10: return keywrap_unwrap_padded_in_place(kek, 32, out, text, &key_len);
    case 11: return keywrap_kind(kek, 32, wrapped, text, out, len, &number, &key_len);
    case 12: return keywrap_unwrap_any(kek, 32, wrapped, text, out, len, &number, &key_len);
    default: return keywrap_rewrap(kek, 32, kek, 16, out, text, KEYWRAP_KEEP_FORM, &number);
    }
}

static void check(int right, const char *what, int name) {
    if (right) return;
    printf("FAILED: %s, call %d\n", what, name);
    exit(1);
}

static void refuses_huge_lengths(void) {
    volatile size_t huge = SIZE_MAX - UINT32_MAX; /* no compiler may warn of it */
    if (huge == 0) return;
    check(keywrap_wrap(kek, huge + 32, key, 16, out, 24) == KEYWRAP_BAD_KEK, "a huge KEK", 0);
    check(keywrap_wrap(kek, 32, key, huge + 16, out, 24) == KEYWRAP_BAD_LENGTH, "a huge key", 0);
    check(keywrap_wrap(kek, 32, key, 16, out, huge + 24) == KEYWRAP_BAD_LENGTH, "a huge text", 0);
    check(keywrap_wrap_with(kek, 32, iv, huge + 8, key, 16, out, 24) == KEYWRAP_BAD_IV,
          "a huge initial value", 1);
    check(keywrap_wrap_padded_in_place(kek, 32, out, 24, huge + 16) == KEYWRAP_BAD_LENGTH,
          "a huge number", 4);
    check(keywrap_rewrap_many(kek, 32, kek, 32, out, huge + 48, 0, key, 2) == KEYWRAP_BAD_LENGTH,
          "huge slots", 15);
    check(keywrap_wrap_many(kek, 32, out, huge + 24, 16, 0, key, 1) == KEYWRAP_BAD_LENGTH,
          "a huge slot", 16);
    check(keywrap_wrap_many(kek, 32, out, 24, huge + 16, 0, key, 1) == KEYWRAP_BAD_LENGTH,
          "a huge key of a slot", 16);
    check(keywrap_unwrap_many(kek, 32, out, huge + 24, 0, &key_len, 1, key, 1)
              == KEYWRAP_BAD_LENGTH,
          "a huge wrapped key of a slot", 17);
    check(keywrap_kind_many(kek, 32, wrapped, huge + 24, out, 16, form, 1, &key_len, 1, key, 1)
              == KEYWRAP_BAD_LENGTH,
          "a huge slot of a check", 18);
}

/* More than 1 GiB of wrapped keys and of blocks. */
static void refuses_steps_of_too_many(void) {
    const size_t count = ((size_t)1 << 26) + 1, len = 24, texts = count * len, blocks = count * 16;
    uint64_t steps = 0;
    check(keywrap_begin_wrap_many(iv, 8, key, texts, len, &steps, out, blocks)
              == KEYWRAP_BAD_LENGTH,
          "steps of too many", 0);
    check(keywrap_step_wrap_many(out, texts, len, &steps, wrapped, blocks) == KEYWRAP_BAD_LENGTH,
          "steps of too many", 1);
    check(keywrap_end_wrap_many(out, texts, len, 12, key, blocks) == KEYWRAP_BAD_LENGTH,
          "steps of too many", 2);
    check(keywrap_begin_unwrap_many(key, texts, len, &steps, out, blocks) == KEYWRAP_BAD_LENGTH,
          "steps of too many", 3);
    steps = 12;
    check(keywrap_step_unwrap_many(out, texts, len, &steps, wrapped, blocks) == KEYWRAP_BAD_LENGTH,
          "steps of too many", 4);
    check(keywrap_end_unwrap_many(iv, 8, out, texts, len, 0, wrapped, blocks, key, count)
              == KEYWRAP_BAD_LENGTH,
          "steps of too many", 5);
}

int main(void) {
    refuses_huge_lengths();
    refuses_steps_of_too_many();
    for (int name = 0; name < CALLS; name++) {
        check(call(name, MAX) == (name < 5 ? KEYWRAP_OK : KEYWRAP_INTEGRITY), "the longest", name);
        check(call(name, MAX + 8) == (name != 11 ? KEYWRAP_BAD_LENGTH : KEYWRAP_INTEGRITY),
              "a longer one", name);
    }
    for (size_t i = 0; i < MAX; i++) key[i] = (uint8_t)(i * i >> 3);
    check(keywrap_wrap(kek, 32, key, MAX, wrapped, MAX + 8) == KEYWRAP_OK, "a wrap", 0);
    check(keywrap_unwrap(kek, 32, wrapped, MAX + 8, out, MAX) == KEYWRAP_OK, "its unwrap", 5);
    check(memcmp(key, out, MAX) == 0, "the longest key", 5);
    puts("all are right");
    return 0;
}
