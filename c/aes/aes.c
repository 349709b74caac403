/* aes.c: whether the processor's AES is used, and the blocks that are not a whole group. */

#include "aes.h"

static void crypt_groups(bool decrypts, const uint8_t *schedule, size_t len, uint8_t *blocks,
                         size_t blocks_len) {
    if (decrypts) keywrap_aes_decrypt_groups(schedule, len, blocks, blocks_len);
    else keywrap_aes_encrypt_groups(schedule, len, blocks, blocks_len);
}

/* The blocks behind the last whole group become a group of their own. */
static void crypt_many(bool decrypts, const uint8_t *schedule, size_t len, uint8_t *blocks,
                       size_t blocks_len) {
    const size_t rest = blocks_len % (GROUP * BLOCK);
    uint8_t *const last = blocks + blocks_len - rest;
    if (last != blocks) crypt_groups(decrypts, schedule, len, blocks, blocks_len - rest);
    if (rest != 0) {
        uint8_t group[GROUP * BLOCK] = {0};
        memcpy(group, last, rest);
        crypt_groups(decrypts, schedule, len, group, sizeof group);
        memcpy(last, group, rest);
        wipe(group, sizeof group);
    }
}

void keywrap_aes_encrypt_many(const uint8_t *schedule, size_t len, uint8_t *blocks,
                              size_t blocks_len) {
    crypt_many(false, schedule, len, blocks, blocks_len);
}

void keywrap_aes_decrypt_many(const uint8_t *schedule, size_t len, uint8_t *blocks,
                              size_t blocks_len) {
    crypt_many(true, schedule, len, blocks, blocks_len);
}

/* 16 bytes at any address. */
typedef uint64_t zeros __attribute__((vector_size(16), aligned(1), may_alias));

/* gcc would make one slow instruction of memset. The empty asm keeps these stores. */
static inline void write_zeros(uint8_t *memory, size_t len) {
    for (size_t i = 0; i < len; i += 16) {
        *(zeros *)(memory + i) = (zeros){0, 0};
        __asm__ volatile("" : : "r"(memory) : "memory");
    }
}

void keywrap_aes_clear(uint8_t room[SCHEDULE]) {
    uint8_t cover[384];
    write_zeros(room, SCHEDULE);
    write_zeros(cover, sizeof cover);
}

/* FIPS 197, appendix C: 00112233445566778899aabbccddeeff under the keys that count from 00. */
static const uint8_t CIPHERTEXTS[3][BLOCK] = {
    {0x69, 0xc4, 0xe0, 0xd8, 0x6a, 0x7b, 0x04, 0x30, 0xd8, 0xcd, 0xb7, 0x80, 0x70, 0xb4, 0xc5,
     0x5a},
    {0xdd, 0xa9, 0x7c, 0xa4, 0x86, 0x4c, 0xdf, 0xe0, 0x6e, 0xaf, 0x70, 0xa0, 0xec, 0x0d, 0x71,
     0x91},
    {0x8e, 0xa2, 0xb7, 0xca, 0x51, 0x67, 0x45, 0xbf, 0xea, 0xfc, 0x49, 0x90, 0x4b, 0x49, 0x60,
     0x89},
};

/* A group and the blocks of most of another. */
enum { TESTED = 2 * GROUP - 1 };

/* Whether each of these blocks is this one. */
static bool are_all(const uint8_t blocks[TESTED * BLOCK], const uint8_t block[BLOCK]) {
    bool same = true;
    for (unsigned i = 0; i < TESTED; i++) same &= memcmp(blocks + BLOCK * i, block, BLOCK) == 0;
    return same;
}

bool keywrap_aes_known_answers(void) {
    uint8_t kek[32], plaintext[BLOCK], block[BLOCK], blocks[TESTED * BLOCK];
    uint8_t schedule[SCHEDULE];
    for (unsigned i = 0; i < sizeof kek; i++) kek[i] = (uint8_t)i;
    for (unsigned i = 0; i < BLOCK; i++) block[i] = plaintext[i] = (uint8_t)(0x11 * i);
    for (unsigned i = 0; i < TESTED; i++) memcpy(blocks + BLOCK * i, plaintext, BLOCK);
    for (unsigned i = 0; i < 3; i++) {
        const size_t len = 176 + 32 * i;
        keywrap_aes_expand(kek, 16 + 8 * i, schedule, len);
        keywrap_aes_encrypt(schedule, len, block);
        keywrap_aes_encrypt_many(schedule, len, blocks, sizeof blocks);
        if (memcmp(block, CIPHERTEXTS[i], BLOCK) != 0 || !are_all(blocks, block)) return false;
        keywrap_aes_decrypt(schedule, len, block);
        keywrap_aes_decrypt_many(schedule, len, blocks, sizeof blocks);
        if (memcmp(block, plaintext, BLOCK) != 0 || !are_all(blocks, block)) return false;
    }
    return true;
}

bool keywrap_aes_available(void) {
    enum { UNKNOWN, WORKS, MISSING };
    static int state = UNKNOWN;
    int known = __atomic_load_n(&state, __ATOMIC_ACQUIRE);
    if (known == UNKNOWN) {
        const bool works = keywrap_aes_has_instructions() && keywrap_aes_known_answers();
        known = works ? WORKS : MISSING;
        __atomic_store_n(&state, known, __ATOMIC_RELEASE);
    }
    return known == WORKS;
}
