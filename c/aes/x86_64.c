/* x86_64.c: AES by AES-NI. The block is loaded as two words of 8 bytes: a load of 16 bytes would
 * wait for the two stores of the step before. */

#ifdef __x86_64__

#include <cpuid.h>
#include <wmmintrin.h>

#include "aes.h"

#define BY_AES __attribute__((target("aes,sse2")))

bool keywrap_aes_has_instructions(void) {
    unsigned a, b, c, d;
    return __get_cpuid(1, &a, &b, &c, &d) && (c & bit_AES);
}

BY_AES static __m128i round_key(const uint8_t *schedule, size_t i) {
    return _mm_loadu_si128((const __m128i *)(schedule + BLOCK * i));
}

BY_AES static void set_round_key(uint8_t *schedule, size_t i, __m128i key) {
    _mm_storeu_si128((__m128i *)(schedule + BLOCK * i), key);
}

/* Each word is the sum of the words up to it. */
BY_AES static __m128i sums(__m128i words) {
    words = _mm_xor_si128(words, _mm_slli_si128(words, 4));
    return _mm_xor_si128(words, _mm_slli_si128(words, 8));
}

/* SubWord and an addition, in four equal words: ShiftRows changes nothing in equal columns. This is
 * several times as fast as AESKEYGENASSIST. */
BY_AES static __m128i sub_words(__m128i words, __m128i constant) {
    return _mm_aesenclast_si128(words, constant);
}

/* RotWord, in four equal words. */
BY_AES static __m128i rotated(__m128i words) {
    return _mm_or_si128(_mm_srli_epi32(words, 8), _mm_slli_epi32(words, 24));
}

BY_AES static void expand_16(uint8_t *schedule, __m128i a) {
    __m128i constant = _mm_set1_epi32(1);
    set_round_key(schedule, 0, a);
    for (unsigned i = 1; i <= 10; i++) {
        __m128i last = rotated(_mm_shuffle_epi32(a, 0xff));
        if (i == 9) constant = _mm_set1_epi32(0x1b);
        a = _mm_xor_si128(sums(a), sub_words(last, constant));
        set_round_key(schedule, i, a);
        constant = _mm_slli_epi32(constant, 1);
    }
}

/* Turns: six words each, in a and the lower half of b. */
BY_AES static void expand_24(uint8_t *at, __m128i a, __m128i b) {
    __m128i constant = _mm_set1_epi32(1);
    for (unsigned turn = 0;; turn++, at += 24) {
        _mm_storeu_si128((__m128i *)at, a);
        if (turn == 8) break;
        _mm_storel_epi64((__m128i *)(at + 16), b);
        __m128i last = rotated(_mm_shuffle_epi32(b, 0x55));
        a = _mm_xor_si128(sums(a), sub_words(last, constant));
        b = _mm_xor_si128(sums(b), _mm_shuffle_epi32(a, 0xff));
        constant = _mm_slli_epi32(constant, 1);
    }
}

BY_AES static void expand_32(uint8_t *schedule, __m128i a, __m128i b) {
    __m128i constant = _mm_set1_epi32(1);
    set_round_key(schedule, 0, a);
    set_round_key(schedule, 1, b);
    for (unsigned i = 2;; i += 2) {
        a = _mm_xor_si128(sums(a), sub_words(rotated(_mm_shuffle_epi32(b, 0xff)), constant));
        set_round_key(schedule, i, a);
        if (i == 14) break;
        b = _mm_xor_si128(sums(b), sub_words(_mm_shuffle_epi32(a, 0xff), _mm_setzero_si128()));
        set_round_key(schedule, i + 1, b);
        constant = _mm_slli_epi32(constant, 1);
    }
}

BY_AES void keywrap_aes_expand(const uint8_t *kek, size_t kek_len, uint8_t *schedule, size_t len) {
    __m128i a = _mm_loadu_si128((const __m128i *)kek);
    (void)len;
    if (kek_len == 16) expand_16(schedule, a);
    else if (kek_len == 24) expand_24(schedule, a, _mm_loadl_epi64((const __m128i *)(kek + 16)));
    else expand_32(schedule, a, _mm_loadu_si128((const __m128i *)(kek + 16)));
}

BY_AES static __m128i load(const uint8_t block[BLOCK]) {
    __m128i low = _mm_loadl_epi64((const __m128i *)block);
    __m128i high = _mm_loadl_epi64((const __m128i *)(block + 8));
    return _mm_unpacklo_epi64(low, high);
}

/* Adds the first round key. Only the lower half of a block depends on the AES of the block before, so
 * it is added last: the empty asm keeps the compiler from another order. */
BY_AES static __m128i begin(__m128i key, const uint8_t block[BLOCK]) {
    __m128i high = _mm_loadl_epi64((const __m128i *)(block + 8));
    __m128i state = _mm_xor_si128(_mm_slli_si128(high, 8), key);
    __asm__("" : "+x"(state));
    return _mm_xor_si128(state, _mm_loadl_epi64((const __m128i *)block));
}

BY_AES void keywrap_aes_encrypt(const uint8_t *schedule, size_t len, uint8_t block[BLOCK]) {
    const size_t rounds = len / BLOCK - 1;
    __m128i state = begin(round_key(schedule, 0), block);
    for (size_t i = 1; i < rounds; i++) state = _mm_aesenc_si128(state, round_key(schedule, i));
    state = _mm_aesenclast_si128(state, round_key(schedule, rounds));
    _mm_storeu_si128((__m128i *)block, state);
}

/* The equivalent inverse cipher (section 5.3.5). Its round keys are made on the way: this does not
 * wait for the block, and so takes no time. */
BY_AES void keywrap_aes_decrypt(const uint8_t *schedule, size_t len, uint8_t block[BLOCK]) {
    size_t i = len / BLOCK - 1;
    __m128i state = begin(round_key(schedule, i), block);
    while (--i > 0) state = _mm_aesdec_si128(state, _mm_aesimc_si128(round_key(schedule, i)));
    state = _mm_aesdeclast_si128(state, round_key(schedule, 0));
    _mm_storeu_si128((__m128i *)block, state);
}

/* The processor begins a round of each block before the round of the first one ends. */
#define EACH(X) X(0) X(1) X(2) X(3) X(4) X(5) X(6) X(7)
#define BEGIN(i) __m128i b##i = _mm_xor_si128(load(blocks + BLOCK * i), key);
#define END(i) _mm_storeu_si128((__m128i *)(blocks + BLOCK * i), b##i);
#define ENCRYPT(i) b##i = _mm_aesenc_si128(b##i, key);
#define ENCRYPT_LAST(i) b##i = _mm_aesenclast_si128(b##i, key);
#define DECRYPT(i) b##i = _mm_aesdec_si128(b##i, key);
#define DECRYPT_LAST(i) b##i = _mm_aesdeclast_si128(b##i, key);

BY_AES static void encrypt_8(const uint8_t *schedule, size_t rounds, uint8_t *blocks) {
    __m128i key = round_key(schedule, 0);
    EACH(BEGIN)
    for (size_t i = 1; i < rounds; i++) {
        key = round_key(schedule, i);
        EACH(ENCRYPT)
    }
    key = round_key(schedule, rounds);
    EACH(ENCRYPT_LAST)
    EACH(END)
}

/* By a schedule that is inverted. */
BY_AES static void decrypt_8(const uint8_t *inverted, size_t rounds, uint8_t *blocks) {
    __m128i key = round_key(inverted, 0);
    EACH(BEGIN)
    for (size_t i = 1; i < rounds; i++) {
        key = round_key(inverted, i);
        EACH(DECRYPT)
    }
    key = round_key(inverted, rounds);
    EACH(DECRYPT_LAST)
    EACH(END)
}

/* The schedule of the equivalent inverse cipher (section 5.3.5): in the other order, with all round
 * keys but the outer two mixed. */
BY_AES static void invert(const uint8_t *schedule, size_t rounds, uint8_t *inverted) {
    set_round_key(inverted, 0, round_key(schedule, rounds));
    for (size_t i = 1; i < rounds; i++)
        set_round_key(inverted, i, _mm_aesimc_si128(round_key(schedule, rounds - i)));
    set_round_key(inverted, rounds, round_key(schedule, 0));
}

/* Clears a schedule. gcc would make one slow instruction of memset. */
BY_AES static void forget(uint8_t *schedule, size_t rounds) {
    for (size_t i = 0; i <= rounds; i++) {
        set_round_key(schedule, i, _mm_setzero_si128());
        __asm__ volatile("" : : "r"(schedule) : "memory");
    }
}

void keywrap_aes_encrypt_groups(const uint8_t *schedule, size_t len, uint8_t *blocks,
                                size_t blocks_len) {
    for (size_t at = 0; at < blocks_len; at += GROUP * BLOCK)
        encrypt_8(schedule, len / BLOCK - 1, blocks + at);
}

void keywrap_aes_decrypt_groups(const uint8_t *schedule, size_t len, uint8_t *blocks,
                                size_t blocks_len) {
    uint8_t inverted[SCHEDULE];
    invert(schedule, len / BLOCK - 1, inverted);
    for (size_t at = 0; at < blocks_len; at += GROUP * BLOCK)
        decrypt_8(inverted, len / BLOCK - 1, blocks + at);
    forget(inverted, len / BLOCK - 1);
}

#else
typedef int of_another_processor;
#endif
