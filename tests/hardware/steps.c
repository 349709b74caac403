/* steps.c: the calls of keywrap_steps.h around OpenSSL's AES: every form and length against the
 * calls of keywrap.h, one by one and many at once, and tampered texts. STEPS_OF_WORD and
 * STEPS_OF_ONE_WORD are the header's numbers of steps. The last line is 'N passed, M failed'. */

#include <keywrap.h>
#include <keywrap_steps.h>
#include <openssl/evp.h>
#include <stdio.h>
#include <string.h>

enum { LONGEST = 264 };

static const uint8_t IV[8] = {0xa6, 0xa6, 0xa6, 0xa6, 0xa6, 0xa6, 0xa6, 0xa6};
static uint8_t kek[32];
static EVP_CIPHER_CTX *encrypting, *decrypting;
static unsigned passed, failed;

static void check(int holds, const char *what, size_t at) {
    if (holds) {
        passed++;
    } else {
        failed++;
        printf("FAILED: %s at %zu\n", what, at);
    }
}

static void ecb(EVP_CIPHER_CTX *context, uint8_t *block) {
    int len;
    EVP_CipherUpdate(context, block, &len, block, 16);
}

static EVP_CIPHER_CTX *keyed(size_t kek_len, int encrypt) {
    EVP_CIPHER_CTX *context = EVP_CIPHER_CTX_new();
    const EVP_CIPHER *cipher = kek_len == 16   ? EVP_aes_128_ecb()
                               : kek_len == 24 ? EVP_aes_192_ecb()
                                               : EVP_aes_256_ecb();
    EVP_CipherInit_ex(context, cipher, NULL, kek, NULL, encrypt);
    EVP_CIPHER_CTX_set_padding(context, 0);
    return context;
}

/* Makes the steps of a wrapping that has begun, and ends it. Counts them. */
static uint64_t wrapped_by(uint8_t *text, size_t len, uint8_t *block) {
    uint64_t done = 0;
    while (keywrap_end_wrap(text, text + 8, len, done, block) != KEYWRAP_OK) {
        ecb(encrypting, block);
        if (keywrap_step_wrap(text + 8, len, &done, block) != KEYWRAP_OK) return 0;
    }
    return done;
}

static uint64_t undone_by(uint8_t *registers, size_t len, uint64_t left, uint8_t *block) {
    uint64_t steps = 0;
    while (left > 0) {
        ecb(decrypting, block);
        if (keywrap_step_unwrap(registers, len, &left, block) != KEYWRAP_OK) return 0;
        steps++;
    }
    return steps;
}

static int is_zero(const uint8_t *bytes, size_t len) {
    uint8_t all = 0;
    for (size_t i = 0; i < len; i++) all |= bytes[i];
    return all == 0;
}

static void plain(size_t kek_len, size_t len) {
    uint8_t key[LONGEST], text[LONGEST + 8], expected[LONGEST + 8], block[16];
    uint64_t done = 7, left = 7;
    for (size_t i = 0; i < len; i++) key[i] = (uint8_t)(len + 31 * i);
    memcpy(text + 8, key, len);
    int begun = keywrap_begin_wrap(IV, 8, text + 8, len, &done, block);
    if (keywrap_wrap(kek, kek_len, key, len, expected, len + 8) != KEYWRAP_OK) {
        check(begun == KEYWRAP_BAD_LENGTH && done == 7, "plain, a length that is refused", len);
        check(keywrap_begin_unwrap(text, text + 8, len, &left, block) == KEYWRAP_BAD_LENGTH
                  && left == 7,
              "plain, a text that is refused", len);
        return;
    }
    check(begun == KEYWRAP_OK && done == 0, "plain, begun", len);
    check(wrapped_by(text, len, block) == STEPS_OF_WORD * (len / 8), "plain, the number of steps",
          len);
    check(!memcmp(text, expected, len + 8), "plain, wrapped", len);

    int opened = keywrap_begin_unwrap(text, text + 8, len, &left, block);
    check(opened == KEYWRAP_OK && left == 6 * (len / 8), "plain, unwrapping begun", len);
    check(undone_by(text + 8, len, left, block) == left, "plain, unwrapped", len);
    check(keywrap_end_unwrap(IV, 8, text + 8, len, 0, block) == KEYWRAP_OK, "plain, ends", len);
    check(!memcmp(text + 8, key, len) && is_zero(block, 16), "plain, the key", len);

    memcpy(text, expected, len + 8);
    text[len % (len + 8)] ^= 1;
    opened = keywrap_begin_unwrap(text, text + 8, len, &left, block);
    check(opened == KEYWRAP_OK && undone_by(text + 8, len, left, block) == left, "tampered", len);
    check(keywrap_end_unwrap(IV, 8, text + 8, len, 0, block) == KEYWRAP_INTEGRITY,
          "plain, tampered", len);
    check(is_zero(text + 8, len) && is_zero(block, 16), "plain, all zeros", len);
}

static void padded(size_t kek_len, size_t len) {
    uint8_t key[LONGEST], text[LONGEST + 8], expected[LONGEST + 8], block[16];
    size_t room = (len + 7) / 8 * 8, found = 7;
    uint64_t steps = room == 8 ? STEPS_OF_ONE_WORD : STEPS_OF_WORD * (room / 8);
    uint64_t done = 7, left = 7;
    for (size_t i = 0; i < len; i++) key[i] = (uint8_t)(len + 17 * i);
    memset(text, 0xee, sizeof text);
    memcpy(text + 8, key, len);
    if (keywrap_wrap_padded(kek, kek_len, key, len, expected, room + 8) != KEYWRAP_OK) return;
    check(keywrap_begin_wrap_padded(len, text + 8, room, &done, block) == KEYWRAP_OK && done == 0,
          "padded, begun", len);
    check(wrapped_by(text, room, block) == steps, "padded, the number of steps", len);
    check(!memcmp(text, expected, room + 8), "padded, wrapped", len);

    int opened = keywrap_begin_unwrap_padded(text, text + 8, room, &left, block);
    check(opened == KEYWRAP_OK && left == steps, "padded, unwrapping begun", len);
    check(undone_by(text + 8, room, left, block) == left, "padded, unwrapped", len);
    check(keywrap_end_unwrap_padded(text + 8, room, 0, block, &found) == KEYWRAP_OK && found == len,
          "padded, ends", len);
    check(!memcmp(text + 8, key, len) && is_zero(text + 8 + len, room - len) && is_zero(block, 16),
          "padded, the key and zeros", len);

    memcpy(text, expected, room + 8);
    text[3] ^= 1;
    opened = keywrap_begin_unwrap_padded(text, text + 8, room, &left, block);
    check(opened == KEYWRAP_OK && undone_by(text + 8, room, left, block) == left, "tampered", len);
    found = 7;
    check(keywrap_end_unwrap_padded(text + 8, room, 0, block, &found) == KEYWRAP_INTEGRITY
              && found == 0,
          "padded, tampered", len);
    check(is_zero(text + 8, room) && is_zero(block, 16), "padded, all zeros", len);
}

enum { LANES = 25 };

static uint8_t texts[LANES * (LONGEST + 8)], expected[LANES * (LONGEST + 8)], blocks[LANES * 16];

/* The block of each lane, encrypted or decrypted. */
static void all_blocks(EVP_CIPHER_CTX *context, size_t count) {
    for (size_t i = 0; i < count; i++) ecb(context, blocks + 16 * i);
}

/* The text that is damaged, and at which byte: the last, the first, or one between. */
static int is_damaged(size_t lane) {
    return lane % 3 == 1;
}

static void damage(uint8_t *text, size_t lane, size_t text_len) {
    if (is_damaged(lane)) text[lane % 2 ? text_len - 1 : lane % text_len] ^= 0x10;
}

/* Unwraps what is in texts, some of it damaged, and compares each text and its status. */
static void many_undone(size_t len, size_t count) {
    const size_t text_len = len + 8;
    uint8_t statuses[LANES + 1];
    uint64_t left = 7;
    memset(statuses, 0xee, sizeof statuses);
    for (size_t i = 0; i < count; i++) damage(texts + i * text_len, i, text_len);
    memcpy(expected, texts, count * text_len);
    int is = keywrap_begin_unwrap_many(texts, count * text_len, text_len, &left, blocks, 16 * count)
                 == KEYWRAP_OK
             && left == 6 * (len / 8);
    while (is && left > 0) {
        all_blocks(decrypting, count);
        is = keywrap_step_unwrap_many(texts, count * text_len, text_len, &left, blocks, 16 * count)
             == KEYWRAP_OK;
    }
    check(is, "many, unwrapped", count);
    check(keywrap_end_unwrap_many(IV, 8, texts, count * text_len, text_len, 0, blocks, 16 * count,
                                  statuses, count)
              == KEYWRAP_OK,
          "many, ended", count);
    check(is_zero(blocks, 16 * count) && statuses[count] == 0xee, "many, zeros in blocks", count);
    for (size_t i = 0; i < count; i++) {
        const uint8_t *text = texts + i * text_len;
        check(!memcmp(text, expected + i * text_len, 8), "many, the first bytes stay", i);
        is = is_damaged(i) ? statuses[i] == KEYWRAP_INTEGRITY && is_zero(text + 8, len)
                           : statuses[i] == KEYWRAP_OK;
        for (size_t j = 0; j < len && !is_damaged(i); j++)
            is = is && text[8 + j] == (uint8_t)(len + 31 * j + 7 * i);
        check(is, "many, a text and its status", i);
    }
}

/* As many texts as lanes, each with a key of its own, against the call for one. */
static void many(size_t kek_len, size_t len, size_t count) {
    const size_t text_len = len + 8;
    uint64_t done = 7;
    memset(texts, 0xee, sizeof texts);
    for (size_t i = 0; i < count; i++) {
        uint8_t *key = texts + i * text_len + 8;
        for (size_t j = 0; j < len; j++) key[j] = (uint8_t)(len + 31 * j + 7 * i);
        check(keywrap_wrap(kek, kek_len, key, len, expected + i * text_len, text_len) == KEYWRAP_OK,
              "the call for one", len);
    }
    int is =
        keywrap_begin_wrap_many(IV, 8, texts, count * text_len, text_len, &done, blocks, 16 * count)
            == KEYWRAP_OK
        && done == 0;
    while (is && done < 6 * (len / 8)) {
        all_blocks(encrypting, count);
        is = keywrap_step_wrap_many(texts, count * text_len, text_len, &done, blocks, 16 * count)
             == KEYWRAP_OK;
    }
    check(is, "many, wrapped", count);
    check(keywrap_end_wrap_many(texts, count * text_len, text_len, done, blocks, 16 * count)
              == KEYWRAP_OK,
          "many, ended", count);
    check(!memcmp(texts, expected, count * text_len), "many, as one by one", count);
    many_undone(len, count);
}

int main(void) {
    for (size_t kek_len = 16; kek_len <= sizeof kek; kek_len += 8) {
        for (size_t i = 0; i < sizeof kek; i++) kek[i] = (uint8_t)(kek_len * 3 + i);
        encrypting = keyed(kek_len, 1);
        decrypting = keyed(kek_len, 0);
        for (size_t len = 0; len <= LONGEST; len++) plain(kek_len, len);
        for (size_t len = 1; len <= LONGEST; len++) padded(kek_len, len);
        for (size_t len = 16; len <= LONGEST; len += len < 64 ? 8 : 96)
            for (size_t count = 0; count <= LANES; count += count < 3 ? 1 : 11)
                many(kek_len, len, count);
        EVP_CIPHER_CTX_free(encrypting);
        EVP_CIPHER_CTX_free(decrypting);
    }
    printf("%u passed, %u failed\n", passed, failed);
    return failed != 0;
}
