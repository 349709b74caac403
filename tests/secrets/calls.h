/* calls.h: the calls of the C library, as secrets.c and stack.c make them: with these buffers, lengths
 * and flags. A program that includes it defines ROOM, and `PUBLIC(statuses)`, which comes before the
 * statuses of slots are read. */

#include <keywrap.h>
#include <stdlib.h>
#include <string.h>

/* The KEKs, and what the calls take: the first bytes of them, or kept KEKs. */
static uint8_t from[32], new_from[32], kek[KEYWRAP_KEK_LEN(32)], new_kek[KEYWRAP_KEK_LEN(32)];
static uint8_t key[ROOM], text[2 * ROOM], out[2 * ROOM], iv[8];
static const size_t KEK_LENS[] = {
    16, 24, 32, KEYWRAP_KEK_LEN(16), KEYWRAP_KEK_LEN(24), KEYWRAP_KEK_LEN(32)};
/* `whole` is the length of a wrapped key, and so is text_len, if that is not the length that is wrong. */
static size_t kek_len, new_kek_len, key_len, whole, text_len, out_len;
static uint32_t forms, padded, already;
enum { BOTH_PADDED = KEYWRAP_OLD_PADDED | KEYWRAP_NEW_PADDED };
static int32_t status;

/* The calls for many keys have one slot or two. Their status is that of the last slot. */
static size_t slots, slot_lens[2];
static uint8_t statuses[2], slot_forms[2];

static void put_kek(uint8_t *to, const uint8_t *bytes) {
    if (kek_len <= 32) memcpy(to, bytes, kek_len);
    else if (keywrap_kek_init(bytes, kek_len / 4 - 30, to, kek_len) != KEYWRAP_OK) exit(4);
}

/* Sets the lengths for a key of this length, and puts KEKs of this length, or kept ones, in place. */
static void set_lengths(size_t of_kek, size_t of_key) {
    kek_len = new_kek_len = of_kek;
    put_kek(kek, from);
    put_kek(new_kek, new_from);
    key_len = of_key;
    whole = text_len = KEYWRAP_PADDED_TEXT_LEN(of_key);
}

/* Puts the key where the calls in place and in slots take it. */
static void put_key(void) {
    for (size_t i = 0; i < slots; i++) memcpy(out + 8 + i * whole, key, key_len);
}

/* The status of a call for many keys that returned this one. */
static int32_t of_slots(int32_t answer) {
    if (answer != KEYWRAP_OK) return answer;
    PUBLIC(statuses);
    return statuses[slots - 1] == KEYWRAP_ALREADY_NEW ? KEYWRAP_OK : statuses[slots - 1];
}

/* A function that makes the call, and keeps its status. */
#define CALL(name, call)     \
    static void name(void) { \
        status = (call);     \
    }

CALL(kek_init, keywrap_kek_init(kek, kek_len, out, KEYWRAP_KEK_LEN(kek_len) + text_len - whole))
CALL(wrap, keywrap_wrap(kek, kek_len, key, key_len, out, text_len))
CALL(wrap_with, keywrap_wrap_with(kek, kek_len, iv, 8, key, key_len, out, text_len))
CALL(wrap_in_place, keywrap_wrap_in_place(kek, kek_len, out, text_len))
CALL(wrap_padded, keywrap_wrap_padded(kek, kek_len, key, key_len, out, text_len))
CALL(wrap_padded_in_place, keywrap_wrap_padded_in_place(kek, kek_len, out, text_len, key_len))
CALL(unwrap, keywrap_unwrap(kek, kek_len, text, text_len, out, whole - 8))
CALL(unwrap_with, keywrap_unwrap_with(kek, kek_len, iv, 8, text, text_len, out, whole - 8))
CALL(unwrap_in_place, keywrap_unwrap_in_place(kek, kek_len, out, text_len))
CALL(unwrap_padded, keywrap_unwrap_padded(kek, kek_len, text, text_len, out, whole - 8, &out_len))
CALL(unwrap_padded_in_place, keywrap_unwrap_padded_in_place(kek, kek_len, out, text_len, &out_len))
/* The wrong length is the scratch buffer's, or the key's buffer's. */
CALL(kind, keywrap_kind(kek, kek_len, text, whole, out, text_len - 8, &padded, &out_len))
CALL(unwrap_any,
     keywrap_unwrap_any(kek, kek_len, text, whole, out, text_len - 8, &padded, &out_len))
CALL(rewrap_in_place,
     keywrap_rewrap_in_place(kek, kek_len, new_kek, new_kek_len, out, text_len, forms))
CALL(rewrap, keywrap_rewrap(kek, kek_len, new_kek, new_kek_len, out, text_len, forms, &already))
/* A wrapped key that is already under the new KEK. */
CALL(wrap_new, keywrap_wrap(new_kek, kek_len, key, key_len, out, text_len))
CALL(wrap_many, of_slots(keywrap_wrap_many(kek, kek_len, out, slots *text_len, key_len, forms,
                                           statuses, slots)))
CALL(unwrap_many, of_slots(keywrap_unwrap_many(kek, kek_len, out, slots *text_len, forms, slot_lens,
                                               slots, statuses, slots)))
CALL(kind_many, of_slots(keywrap_kind_many(kek, kek_len, text, slots *whole, out, text_len - 8,
                                           slot_forms, slots, slot_lens, slots, statuses, slots)))
CALL(rewrap_many, of_slots(keywrap_rewrap_many(kek, kek_len, new_kek, new_kek_len, out,
                                               slots *text_len, forms, statuses, slots)))
