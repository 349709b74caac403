/* lengths.c: every length from 0 to 200 in both directions, by each cipher, in each place of the
 * output: right inputs, damaged ones, ones wrapped under another KEK; updated twice. */

#include <string.h>

#include "sides.h"

enum { LONGEST = 200 };

/* Two buffers; in place; the output a little before and after the input; no output. */
static const struct place PLACES[] = {{64, 600, 0},
                                      {INSIDE, INSIDE, 0},
                                      {INSIDE, INSIDE + 8, 0},
                                      {INSIDE, INSIDE - 8, 0},
                                      {INSIDE, INSIDE + 3, 0},
                                      {INSIDE, INSIDE + 190, 0},
                                      {64, 600, 1}};
enum { PLACE_COUNT = sizeof PLACES / sizeof *PLACES };

static const uint8_t *const NO_VALUE = NULL;

/* A wrapped key of this length by OpenSSL's own provider; any bytes if no key has one. */
static void wrapping(int which, const uint8_t *kek, const uint8_t *iv, int len, uint8_t *text) {
    uint8_t key[LONGEST], room[LONGEST + 32];
    int short_by = is_padded(which) ? (int)below(8) : 0, text_len = 0;
    fill(key, sizeof key);
    fill(text, LONGEST);
    if (len < 16 || len % 8 != 0 || (!is_padded(which) && len < 24)) return;
    EVP_CIPHER_CTX *ctx = EVP_CIPHER_CTX_new();
    if (EVP_EncryptInit_ex(ctx, sides[THEIRS].ciphers[which], NULL, kek, iv)
        && EVP_EncryptUpdate(ctx, room, &text_len, key, len - 8 - short_by) && text_len == len)
        memcpy(text, room, (size_t)len);
    EVP_CIPHER_CTX_free(ctx);
}

/* One input, in both sides: begun, updated twice, ended twice. */
static void one(int which, const uint8_t *kek, const uint8_t *iv, int wraps, const uint8_t *input,
                int len, const struct place *place) {
    for (struct side *side = sides; side < sides + 2; side++) {
        begin(side, which, kek, iv, wraps);
        run_update(side, *place, input, len, 0, NULL);
        run_update(side, *place, input, len, 0, NULL);
        run_final(side);
        run_update(side, *place, input, len, 1, NULL);
        run_final(side);
    }
    compare("%s, %s %d bytes at %d into %d%s, %s initial value", CIPHER_NAMES[which],
            wraps ? "wrap" : "unwrap", len, place->in, place->out, place->out_null ? ", NULL" : "",
            iv == NULL ? "no" : "an");
}

static void at_length(int which, int len, const uint8_t *iv) {
    uint8_t kek[32], other[32], input[LONGEST];
    fill(kek, sizeof kek);
    fill(other, sizeof other);
    for (int i = 0; i < PLACE_COUNT; i++) {
        fill(input, sizeof input);
        one(which, kek, iv, 1, input, len, PLACES + i);
        wrapping(which, kek, iv, len, input);
        one(which, kek, iv, 0, input, len, PLACES + i);
        one(which, other, iv, 0, input, len, PLACES + i);
        input[below(len > 0 ? (unsigned)len : 1)] ^= (uint8_t)(1 << below(8));
        one(which, kek, iv, 0, input, len, PLACES + i);
    }
}

/* Each length has inputs that are wrapped keys: otherwise only refusals would be compared. */
static void are_wrappings(int which) {
    uint8_t kek[32], input[LONGEST];
    for (int len = is_padded(which) ? 16 : 24; len <= LONGEST; len += 8) {
        fill(kek, sizeof kek);
        wrapping(which, kek, NO_VALUE, len, input);
        begin(sides + OURS, which, kek, NO_VALUE, 0);
        check(run_update(sides + OURS, PLACES[0], input, len, 0, NULL) > len - 16,
              "%s: no wrapping of %d bytes", CIPHER_NAMES[which], len);
        sides[OURS].recorded = 0;
    }
}

void try_lengths(void) {
    static const uint8_t plain[8] = {1, 2, 3, 4, 5, 6, 7, 8}, padded[4] = {0xA6, 0x59, 0x59, 0xA6};
    static const uint8_t zeros[8] = {0}, same[8] = {0xA6, 0xA6, 0xA6, 0xA6, 0xA6, 0xA6, 0xA6, 0xA6};
    for (int which = 0; which < CIPHERS; which++) {
        are_wrappings(which);
        for (int len = 0; len <= LONGEST; len++) {
            at_length(which, len, NO_VALUE);
            at_length(which, len, is_padded(which) ? padded : plain);
            if (!is_padded(which) && len % 40 == 0) {
                at_length(which, len, zeros);
                at_length(which, len, same);
            }
        }
    }
}
