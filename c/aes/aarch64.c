/* aarch64.c: AES by the Arm cryptographic extension. AESE and AESD add the round key first, so the
 * last round key needs an addition of its own. */

#ifdef __aarch64__

#include <arm_neon.h>
#ifndef __ARM_FEATURE_AES
#include <sys/auxv.h>
#endif

#include "aes.h"

#ifdef __clang__
#define BY_AES __attribute__((target("aes")))
#else
#define BY_AES __attribute__((target("+crypto")))
#endif

/* The compiler knows it of every processor of Apple. Otherwise Linux is asked: HWCAP_AES of asm/hwcap.h. */
bool keywrap_aes_has_instructions(void) {
#ifdef __ARM_FEATURE_AES
    return 1;
#else
    enum { HAS_AES = 1 << 3 };
    return (getauxval(AT_HWCAP) & HAS_AES) != 0;
#endif
}

/* ShiftRows changes nothing in a block of four equal columns. */
BY_AES static uint32_t sub_word(uint32_t word) {
    uint8x16_t columns = vreinterpretq_u8_u32(vdupq_n_u32(word));
    return vgetq_lane_u32(vreinterpretq_u32_u8(vaeseq_u8(columns, vdupq_n_u8(0))), 0);
}

static uint32_t word_at(const uint8_t *schedule, size_t i) {
    uint32_t word;
    memcpy(&word, schedule + 4 * i, 4);
    return word;
}

/* Words are in the order of their bytes in memory. */
void keywrap_aes_expand(const uint8_t *kek, size_t kek_len, uint8_t *schedule, size_t len) {
    const size_t n = kek_len / 4;
    uint32_t constant = 1;
    memcpy(schedule, kek, kek_len);
    for (size_t i = n; i < len / 4; i++) {
        uint32_t word = word_at(schedule, i - 1);
        if (i % n == 0) {
            word = sub_word(word >> 8 | word << 24) ^ constant;
            constant = constant << 1 ^ (constant >> 7) * 0x11b;
        } else if (n == 8 && i % n == 4) {
            word = sub_word(word);
        }
        word ^= word_at(schedule, i - n);
        memcpy(schedule + 4 * i, &word, 4);
    }
}

static uint8x16_t round_key(const uint8_t *schedule, size_t i) {
    return vld1q_u8(schedule + BLOCK * i);
}

static void set_round_key(uint8_t *schedule, size_t i, uint8x16_t key) {
    vst1q_u8(schedule + BLOCK * i, key);
}

static uint8x16_t load(const uint8_t block[BLOCK]) {
    return vcombine_u8(vld1_u8(block), vld1_u8(block + 8));
}

BY_AES void keywrap_aes_encrypt(const uint8_t *schedule, size_t len, uint8_t block[BLOCK]) {
    const size_t last = len / BLOCK - 2;
    uint8x16_t state = load(block);
    for (size_t i = 0; i < last; i++) state = vaesmcq_u8(vaeseq_u8(state, round_key(schedule, i)));
    state = vaeseq_u8(state, round_key(schedule, last));
    vst1q_u8(block, veorq_u8(state, round_key(schedule, last + 1)));
}

/* The equivalent inverse cipher (section 5.3.5). Its round keys are made on the way: this does not
 * wait for the block. */
BY_AES void keywrap_aes_decrypt(const uint8_t *schedule, size_t len, uint8_t block[BLOCK]) {
    size_t i = len / BLOCK - 1;
    uint8x16_t state = vaesimcq_u8(vaesdq_u8(load(block), round_key(schedule, i)));
    while (--i > 1) state = vaesimcq_u8(vaesdq_u8(state, vaesimcq_u8(round_key(schedule, i))));
    state = vaesdq_u8(state, vaesimcq_u8(round_key(schedule, 1)));
    vst1q_u8(block, veorq_u8(state, round_key(schedule, 0)));
}

#define EACH(X) X(0) X(1) X(2) X(3) X(4) X(5) X(6) X(7)
#define BEGIN(i) uint8x16_t b##i = load(blocks + BLOCK * i);
#define END(i) vst1q_u8(blocks + BLOCK * i, veorq_u8(b##i, key));
#define ENCRYPT(i) b##i = vaesmcq_u8(vaeseq_u8(b##i, key));
#define ENCRYPT_LAST(i) b##i = vaeseq_u8(b##i, key);
#define DECRYPT(i) b##i = vaesimcq_u8(vaesdq_u8(b##i, key));
#define DECRYPT_LAST(i) b##i = vaesdq_u8(b##i, key);

BY_AES static void encrypt_8(const uint8_t *schedule, size_t rounds, uint8_t *blocks) {
    uint8x16_t key = round_key(schedule, 0);
    EACH(BEGIN)
    for (size_t i = 1; i < rounds; i++) {
        EACH(ENCRYPT)
        key = round_key(schedule, i);
    }
    EACH(ENCRYPT_LAST)
    key = round_key(schedule, rounds);
    EACH(END)
}

/* By a schedule that is inverted. */
BY_AES static void decrypt_8(const uint8_t *inverted, size_t rounds, uint8_t *blocks) {
    uint8x16_t key = round_key(inverted, 0);
    EACH(BEGIN)
    for (size_t i = 1; i < rounds; i++) {
        EACH(DECRYPT)
        key = round_key(inverted, i);
    }
    EACH(DECRYPT_LAST)
    key = round_key(inverted, rounds);
    EACH(END)
}

/* The schedule of the equivalent inverse cipher (section 5.3.5): in the other order, with all round
 * keys but the outer two mixed. */
BY_AES static void invert(const uint8_t *schedule, size_t rounds, uint8_t *inverted) {
    set_round_key(inverted, 0, round_key(schedule, rounds));
    for (size_t i = 1; i < rounds; i++)
        set_round_key(inverted, i, vaesimcq_u8(round_key(schedule, rounds - i)));
    set_round_key(inverted, rounds, round_key(schedule, 0));
}

void keywrap_aes_encrypt_groups(const uint8_t *schedule, size_t len, uint8_t *blocks,
                                size_t blocks_len) {
    for (size_t at = 0; at < blocks_len; at += GROUP * BLOCK)
        encrypt_8(schedule, len / BLOCK - 1, blocks + at);
}

void keywrap_aes_decrypt_groups(const uint8_t *schedule, size_t len, uint8_t *blocks,
                                size_t blocks_len) {
    uint8_t inverted[SCHEDULE];
    invert(schedule, len / BLOCK - 1, inverted);
    for (size_t at = 0; at < blocks_len; at += GROUP * BLOCK)
        decrypt_8(inverted, len / BLOCK - 1, blocks + at);
    wipe(inverted, len);
}

#else
typedef int of_another_processor;
#endif
