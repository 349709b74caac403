/* aes.c: the processor's AES, which the program's module calls in the place of a few proved functions. If the processor
 * has none, or it fails a known-answer test, the module uses its own AES, which is proved.
 * `make dist-sources` of the repository writes this file from c/aes; do not edit it. */

#include <stdbool.h>
#include <stddef.h>

#include "module.h"

/* Whether the compiler makes AES by the processor's instructions. */
#if defined(__aarch64__) && !defined(__AARCH64EB__) \
    && (defined(__linux__) || defined(__ARM_FEATURE_AES))
#define AARCH64_WITH_AES
#endif
#if (defined(__GNUC__) || defined(__clang__))                                                      \
    && (defined(__x86_64__) || defined(AARCH64_WITH_AES)) && !defined(KEYWRAP_NO_AES_INSTRUCTIONS) \
    && !defined(KEYWRAP_STEPS_ONLY)
#define WITH_AES
#endif

#ifdef WITH_AES

#define APART __attribute__((noinline, unused))

/* aes.h: AES by the processor's instructions (FIPS 197), chosen at run time. A key schedule is the
 * standard's, 16 bytes for each round key: 176, 208 or 240 bytes. */

#ifndef KEYWRAP_AES_H
#define KEYWRAP_AES_H

#include <stdbool.h>

/* The bytes of a block and of the longest key schedule; the blocks that are worked on at once. */
enum { BLOCK = 16, SCHEDULE = 240, GROUP = 8 };

/* Returns whether the processor has the instructions and they passed a known-answer test. The first
 * call decides. Threads may make it at once. */
static APART bool keywrap_aes_available(void);

/* Makes that test. The processor needs the instructions for it, as for all functions below. */
static APART bool keywrap_aes_known_answers(void);

/* Writes the key schedule of a KEK of 16, 24 or 32 bytes. */
static APART void keywrap_aes_expand(const uint8_t *kek, size_t kek_len, uint8_t *schedule, size_t len);

/* Encrypts or decrypts one block. */
static APART void keywrap_aes_encrypt(const uint8_t *schedule, size_t len, uint8_t block[BLOCK]);
static APART void keywrap_aes_decrypt(const uint8_t *schedule, size_t len, uint8_t block[BLOCK]);

/* Encrypts or decrypts each block of a buffer of whole blocks. */
static APART void keywrap_aes_encrypt_many(const uint8_t *schedule, size_t len, uint8_t *blocks,
                              size_t blocks_len);
static APART void keywrap_aes_decrypt_many(const uint8_t *schedule, size_t len, uint8_t *blocks,
                              size_t blocks_len);

/* Clears the memory of a key schedule, and what the call that used it has left below this function's
 * frame: the block of the last step, and words of it. */
static APART void keywrap_aes_clear(uint8_t room[SCHEDULE]);

/* x86_64.c and aarch64.c have these, and the functions above for a KEK and for one block. The first
 * returns whether the processor has the instructions. The others work on whole groups of blocks. */
static APART bool keywrap_aes_has_instructions(void);
static APART void keywrap_aes_encrypt_groups(const uint8_t *schedule, size_t len, uint8_t *blocks,
                                size_t blocks_len);
static APART void keywrap_aes_decrypt_groups(const uint8_t *schedule, size_t len, uint8_t *blocks,
                                size_t blocks_len);

/* Clears memory even if nothing reads it afterwards. */
static inline void wipe(void *memory, size_t len) {
    memset(memory, 0, len);
    __asm__ volatile("" : : "r"(memory) : "memory");
}

#endif

/* x86_64.c: AES by AES-NI. The block is loaded as two words of 8 bytes: a load of 16 bytes would
 * wait for the two stores of the step before. */

#ifdef __x86_64__

#include <cpuid.h>
#include <wmmintrin.h>


#define BY_AES __attribute__((target("aes,sse2")))

bool keywrap_aes_has_instructions(void) {
    unsigned a, b, c, d;
    return __get_cpuid(1, &a, &b, &c, &d) && (c & bit_AES);
}

BY_AES static __m128i round_key(const uint8_t *schedule, size_t i) {
    return _mm_loadu_si128((const __m128i *)(schedule + BLOCK * i));
}

BY_AES static void set_round_key(uint8_t *schedule, size_t i, __m128i key) {
    _mm_storeu_si128((__m128i *)(schedule + BLOCK * i), key);
}

/* Each word is the sum of the words up to it. */
BY_AES static __m128i sums(__m128i words) {
    words = _mm_xor_si128(words, _mm_slli_si128(words, 4));
    return _mm_xor_si128(words, _mm_slli_si128(words, 8));
}

/* SubWord and an addition, in four equal words: ShiftRows changes nothing in equal columns. This is
 * several times as fast as AESKEYGENASSIST. */
BY_AES static __m128i sub_words(__m128i words, __m128i constant) {
    return _mm_aesenclast_si128(words, constant);
}

/* RotWord, in four equal words. */
BY_AES static __m128i rotated(__m128i words) {
    return _mm_or_si128(_mm_srli_epi32(words, 8), _mm_slli_epi32(words, 24));
}

BY_AES static void expand_16(uint8_t *schedule, __m128i a) {
    __m128i constant = _mm_set1_epi32(1);
    set_round_key(schedule, 0, a);
    for (unsigned i = 1; i <= 10; i++) {
        __m128i last = rotated(_mm_shuffle_epi32(a, 0xff));
        if (i == 9) constant = _mm_set1_epi32(0x1b);
        a = _mm_xor_si128(sums(a), sub_words(last, constant));
        set_round_key(schedule, i, a);
        constant = _mm_slli_epi32(constant, 1);
    }
}

/* Turns: six words each, in a and the lower half of b. */
BY_AES static void expand_24(uint8_t *at, __m128i a, __m128i b) {
    __m128i constant = _mm_set1_epi32(1);
    for (unsigned turn = 0;; turn++, at += 24) {
        _mm_storeu_si128((__m128i *)at, a);
        if (turn == 8) break;
        _mm_storel_epi64((__m128i *)(at + 16), b);
        __m128i last = rotated(_mm_shuffle_epi32(b, 0x55));
        a = _mm_xor_si128(sums(a), sub_words(last, constant));
        b = _mm_xor_si128(sums(b), _mm_shuffle_epi32(a, 0xff));
        constant = _mm_slli_epi32(constant, 1);
    }
}

BY_AES static void expand_32(uint8_t *schedule, __m128i a, __m128i b) {
    __m128i constant = _mm_set1_epi32(1);
    set_round_key(schedule, 0, a);
    set_round_key(schedule, 1, b);
    for (unsigned i = 2;; i += 2) {
        a = _mm_xor_si128(sums(a), sub_words(rotated(_mm_shuffle_epi32(b, 0xff)), constant));
        set_round_key(schedule, i, a);
        if (i == 14) break;
        b = _mm_xor_si128(sums(b), sub_words(_mm_shuffle_epi32(a, 0xff), _mm_setzero_si128()));
        set_round_key(schedule, i + 1, b);
        constant = _mm_slli_epi32(constant, 1);
    }
}

BY_AES void keywrap_aes_expand(const uint8_t *kek, size_t kek_len, uint8_t *schedule, size_t len) {
    __m128i a = _mm_loadu_si128((const __m128i *)kek);
    (void)len;
    if (kek_len == 16) expand_16(schedule, a);
    else if (kek_len == 24) expand_24(schedule, a, _mm_loadl_epi64((const __m128i *)(kek + 16)));
    else expand_32(schedule, a, _mm_loadu_si128((const __m128i *)(kek + 16)));
}

BY_AES static __m128i load(const uint8_t block[BLOCK]) {
    __m128i low = _mm_loadl_epi64((const __m128i *)block);
    __m128i high = _mm_loadl_epi64((const __m128i *)(block + 8));
    return _mm_unpacklo_epi64(low, high);
}

/* Adds the first round key. Only the lower half of a block depends on the AES of the block before, so
 * it is added last: the empty asm keeps the compiler from another order. */
BY_AES static __m128i begin(__m128i key, const uint8_t block[BLOCK]) {
    __m128i high = _mm_loadl_epi64((const __m128i *)(block + 8));
    __m128i state = _mm_xor_si128(_mm_slli_si128(high, 8), key);
    __asm__("" : "+x"(state));
    return _mm_xor_si128(state, _mm_loadl_epi64((const __m128i *)block));
}

BY_AES void keywrap_aes_encrypt(const uint8_t *schedule, size_t len, uint8_t block[BLOCK]) {
    const size_t rounds = len / BLOCK - 1;
    __m128i state = begin(round_key(schedule, 0), block);
    for (size_t i = 1; i < rounds; i++) state = _mm_aesenc_si128(state, round_key(schedule, i));
    state = _mm_aesenclast_si128(state, round_key(schedule, rounds));
    _mm_storeu_si128((__m128i *)block, state);
}

/* The equivalent inverse cipher (section 5.3.5). Its round keys are made on the way: this does not
 * wait for the block, and so takes no time. */
BY_AES void keywrap_aes_decrypt(const uint8_t *schedule, size_t len, uint8_t block[BLOCK]) {
    size_t i = len / BLOCK - 1;
    __m128i state = begin(round_key(schedule, i), block);
    while (--i > 0) state = _mm_aesdec_si128(state, _mm_aesimc_si128(round_key(schedule, i)));
    state = _mm_aesdeclast_si128(state, round_key(schedule, 0));
    _mm_storeu_si128((__m128i *)block, state);
}

/* The processor begins a round of each block before the round of the first one ends. */
#define EACH(X) X(0) X(1) X(2) X(3) X(4) X(5) X(6) X(7)
#define BEGIN(i) __m128i b##i = _mm_xor_si128(load(blocks + BLOCK * i), key);
#define END(i) _mm_storeu_si128((__m128i *)(blocks + BLOCK * i), b##i);
#define ENCRYPT(i) b##i = _mm_aesenc_si128(b##i, key);
#define ENCRYPT_LAST(i) b##i = _mm_aesenclast_si128(b##i, key);
#define DECRYPT(i) b##i = _mm_aesdec_si128(b##i, key);
#define DECRYPT_LAST(i) b##i = _mm_aesdeclast_si128(b##i, key);

BY_AES static void encrypt_8(const uint8_t *schedule, size_t rounds, uint8_t *blocks) {
    __m128i key = round_key(schedule, 0);
    EACH(BEGIN)
    for (size_t i = 1; i < rounds; i++) {
        key = round_key(schedule, i);
        EACH(ENCRYPT)
    }
    key = round_key(schedule, rounds);
    EACH(ENCRYPT_LAST)
    EACH(END)
}

/* By a schedule that is inverted. */
BY_AES static void decrypt_8(const uint8_t *inverted, size_t rounds, uint8_t *blocks) {
    __m128i key = round_key(inverted, 0);
    EACH(BEGIN)
    for (size_t i = 1; i < rounds; i++) {
        key = round_key(inverted, i);
        EACH(DECRYPT)
    }
    key = round_key(inverted, rounds);
    EACH(DECRYPT_LAST)
    EACH(END)
}

/* The schedule of the equivalent inverse cipher (section 5.3.5): in the other order, with all round
 * keys but the outer two mixed. */
BY_AES static void invert(const uint8_t *schedule, size_t rounds, uint8_t *inverted) {
    set_round_key(inverted, 0, round_key(schedule, rounds));
    for (size_t i = 1; i < rounds; i++)
        set_round_key(inverted, i, _mm_aesimc_si128(round_key(schedule, rounds - i)));
    set_round_key(inverted, rounds, round_key(schedule, 0));
}

/* Clears a schedule. gcc would make one slow instruction of memset. */
BY_AES static void forget(uint8_t *schedule, size_t rounds) {
    for (size_t i = 0; i <= rounds; i++) {
        set_round_key(schedule, i, _mm_setzero_si128());
        __asm__ volatile("" : : "r"(schedule) : "memory");
    }
}

void keywrap_aes_encrypt_groups(const uint8_t *schedule, size_t len, uint8_t *blocks,
                                size_t blocks_len) {
    for (size_t at = 0; at < blocks_len; at += GROUP * BLOCK)
        encrypt_8(schedule, len / BLOCK - 1, blocks + at);
}

void keywrap_aes_decrypt_groups(const uint8_t *schedule, size_t len, uint8_t *blocks,
                                size_t blocks_len) {
    uint8_t inverted[SCHEDULE];
    invert(schedule, len / BLOCK - 1, inverted);
    for (size_t at = 0; at < blocks_len; at += GROUP * BLOCK)
        decrypt_8(inverted, len / BLOCK - 1, blocks + at);
    forget(inverted, len / BLOCK - 1);
}

#else
typedef int of_another_processor;
#endif

/* aarch64.c: AES by the Arm cryptographic extension. AESE and AESD add the round key first, so the
 * last round key needs an addition of its own. */

#ifdef __aarch64__

#include <arm_neon.h>
#ifndef __ARM_FEATURE_AES
#include <sys/auxv.h>
#endif


#ifdef __clang__
#define BY_AES __attribute__((target("aes")))
#else
#define BY_AES __attribute__((target("+crypto")))
#endif

/* The compiler knows it of every processor of Apple. Otherwise Linux is asked: HWCAP_AES of asm/hwcap.h. */
bool keywrap_aes_has_instructions(void) {
#ifdef __ARM_FEATURE_AES
    return 1;
#else
    enum { HAS_AES = 1 << 3 };
    return (getauxval(AT_HWCAP) & HAS_AES) != 0;
#endif
}

/* ShiftRows changes nothing in a block of four equal columns. */
BY_AES static uint32_t sub_word(uint32_t word) {
    uint8x16_t columns = vreinterpretq_u8_u32(vdupq_n_u32(word));
    return vgetq_lane_u32(vreinterpretq_u32_u8(vaeseq_u8(columns, vdupq_n_u8(0))), 0);
}

static uint32_t word_at(const uint8_t *schedule, size_t i) {
    uint32_t word;
    memcpy(&word, schedule + 4 * i, 4);
    return word;
}

/* Words are in the order of their bytes in memory. */
void keywrap_aes_expand(const uint8_t *kek, size_t kek_len, uint8_t *schedule, size_t len) {
    const size_t n = kek_len / 4;
    uint32_t constant = 1;
    memcpy(schedule, kek, kek_len);
    for (size_t i = n; i < len / 4; i++) {
        uint32_t word = word_at(schedule, i - 1);
        if (i % n == 0) {
            word = sub_word(word >> 8 | word << 24) ^ constant;
            constant = constant << 1 ^ (constant >> 7) * 0x11b;
        } else if (n == 8 && i % n == 4) {
            word = sub_word(word);
        }
        word ^= word_at(schedule, i - n);
        memcpy(schedule + 4 * i, &word, 4);
    }
}

static uint8x16_t round_key(const uint8_t *schedule, size_t i) {
    return vld1q_u8(schedule + BLOCK * i);
}

static void set_round_key(uint8_t *schedule, size_t i, uint8x16_t key) {
    vst1q_u8(schedule + BLOCK * i, key);
}

static uint8x16_t load(const uint8_t block[BLOCK]) {
    return vcombine_u8(vld1_u8(block), vld1_u8(block + 8));
}

BY_AES void keywrap_aes_encrypt(const uint8_t *schedule, size_t len, uint8_t block[BLOCK]) {
    const size_t last = len / BLOCK - 2;
    uint8x16_t state = load(block);
    for (size_t i = 0; i < last; i++) state = vaesmcq_u8(vaeseq_u8(state, round_key(schedule, i)));
    state = vaeseq_u8(state, round_key(schedule, last));
    vst1q_u8(block, veorq_u8(state, round_key(schedule, last + 1)));
}

/* The equivalent inverse cipher (section 5.3.5). Its round keys are made on the way: this does not
 * wait for the block. */
BY_AES void keywrap_aes_decrypt(const uint8_t *schedule, size_t len, uint8_t block[BLOCK]) {
    size_t i = len / BLOCK - 1;
    uint8x16_t state = vaesimcq_u8(vaesdq_u8(load(block), round_key(schedule, i)));
    while (--i > 1) state = vaesimcq_u8(vaesdq_u8(state, vaesimcq_u8(round_key(schedule, i))));
    state = vaesdq_u8(state, vaesimcq_u8(round_key(schedule, 1)));
    vst1q_u8(block, veorq_u8(state, round_key(schedule, 0)));
}

#define EACH(X) X(0) X(1) X(2) X(3) X(4) X(5) X(6) X(7)
#define BEGIN(i) uint8x16_t b##i = load(blocks + BLOCK * i);
#define END(i) vst1q_u8(blocks + BLOCK * i, veorq_u8(b##i, key));
#define ENCRYPT(i) b##i = vaesmcq_u8(vaeseq_u8(b##i, key));
#define ENCRYPT_LAST(i) b##i = vaeseq_u8(b##i, key);
#define DECRYPT(i) b##i = vaesimcq_u8(vaesdq_u8(b##i, key));
#define DECRYPT_LAST(i) b##i = vaesdq_u8(b##i, key);

BY_AES static void encrypt_8(const uint8_t *schedule, size_t rounds, uint8_t *blocks) {
    uint8x16_t key = round_key(schedule, 0);
    EACH(BEGIN)
    for (size_t i = 1; i < rounds; i++) {
        EACH(ENCRYPT)
        key = round_key(schedule, i);
    }
    EACH(ENCRYPT_LAST)
    key = round_key(schedule, rounds);
    EACH(END)
}

/* By a schedule that is inverted. */
BY_AES static void decrypt_8(const uint8_t *inverted, size_t rounds, uint8_t *blocks) {
    uint8x16_t key = round_key(inverted, 0);
    EACH(BEGIN)
    for (size_t i = 1; i < rounds; i++) {
        EACH(DECRYPT)
        key = round_key(inverted, i);
    }
    EACH(DECRYPT_LAST)
    key = round_key(inverted, rounds);
    EACH(END)
}

/* The schedule of the equivalent inverse cipher (section 5.3.5): in the other order, with all round
 * keys but the outer two mixed. */
BY_AES static void invert(const uint8_t *schedule, size_t rounds, uint8_t *inverted) {
    set_round_key(inverted, 0, round_key(schedule, rounds));
    for (size_t i = 1; i < rounds; i++)
        set_round_key(inverted, i, vaesimcq_u8(round_key(schedule, rounds - i)));
    set_round_key(inverted, rounds, round_key(schedule, 0));
}

void keywrap_aes_encrypt_groups(const uint8_t *schedule, size_t len, uint8_t *blocks,
                                size_t blocks_len) {
    for (size_t at = 0; at < blocks_len; at += GROUP * BLOCK)
        encrypt_8(schedule, len / BLOCK - 1, blocks + at);
}

void keywrap_aes_decrypt_groups(const uint8_t *schedule, size_t len, uint8_t *blocks,
                                size_t blocks_len) {
    uint8_t inverted[SCHEDULE];
    invert(schedule, len / BLOCK - 1, inverted);
    for (size_t at = 0; at < blocks_len; at += GROUP * BLOCK)
        decrypt_8(inverted, len / BLOCK - 1, blocks + at);
    wipe(inverted, len);
}

#else
typedef int of_another_processor;
#endif

/* aes.c: whether the processor's AES is used, and the blocks that are not a whole group. */


static void crypt_groups(bool decrypts, const uint8_t *schedule, size_t len, uint8_t *blocks,
                         size_t blocks_len) {
    if (decrypts) keywrap_aes_decrypt_groups(schedule, len, blocks, blocks_len);
    else keywrap_aes_encrypt_groups(schedule, len, blocks, blocks_len);
}

/* The blocks behind the last whole group become a group of their own. */
static void crypt_many(bool decrypts, const uint8_t *schedule, size_t len, uint8_t *blocks,
                       size_t blocks_len) {
    const size_t rest = blocks_len % (GROUP * BLOCK);
    uint8_t *const last = blocks + blocks_len - rest;
    if (last != blocks) crypt_groups(decrypts, schedule, len, blocks, blocks_len - rest);
    if (rest != 0) {
        uint8_t group[GROUP * BLOCK] = {0};
        memcpy(group, last, rest);
        crypt_groups(decrypts, schedule, len, group, sizeof group);
        memcpy(last, group, rest);
        wipe(group, sizeof group);
    }
}

void keywrap_aes_encrypt_many(const uint8_t *schedule, size_t len, uint8_t *blocks,
                              size_t blocks_len) {
    crypt_many(false, schedule, len, blocks, blocks_len);
}

void keywrap_aes_decrypt_many(const uint8_t *schedule, size_t len, uint8_t *blocks,
                              size_t blocks_len) {
    crypt_many(true, schedule, len, blocks, blocks_len);
}

/* 16 bytes at any address. */
typedef uint64_t zeros __attribute__((vector_size(16), aligned(1), may_alias));

/* gcc would make one slow instruction of memset. The empty asm keeps these stores. */
static inline void write_zeros(uint8_t *memory, size_t len) {
    for (size_t i = 0; i < len; i += 16) {
        *(zeros *)(memory + i) = (zeros){0, 0};
        __asm__ volatile("" : : "r"(memory) : "memory");
    }
}

void keywrap_aes_clear(uint8_t room[SCHEDULE]) {
    uint8_t cover[384];
    write_zeros(room, SCHEDULE);
    write_zeros(cover, sizeof cover);
}

/* FIPS 197, appendix C: 00112233445566778899aabbccddeeff under the keys that count from 00. */
static const uint8_t CIPHERTEXTS[3][BLOCK] = {
    {0x69, 0xc4, 0xe0, 0xd8, 0x6a, 0x7b, 0x04, 0x30, 0xd8, 0xcd, 0xb7, 0x80, 0x70, 0xb4, 0xc5,
     0x5a},
    {0xdd, 0xa9, 0x7c, 0xa4, 0x86, 0x4c, 0xdf, 0xe0, 0x6e, 0xaf, 0x70, 0xa0, 0xec, 0x0d, 0x71,
     0x91},
    {0x8e, 0xa2, 0xb7, 0xca, 0x51, 0x67, 0x45, 0xbf, 0xea, 0xfc, 0x49, 0x90, 0x4b, 0x49, 0x60,
     0x89},
};

/* A group and the blocks of most of another. */
enum { TESTED = 2 * GROUP - 1 };

/* Whether each of these blocks is this one. */
static bool are_all(const uint8_t blocks[TESTED * BLOCK], const uint8_t block[BLOCK]) {
    bool same = true;
    for (unsigned i = 0; i < TESTED; i++) same &= memcmp(blocks + BLOCK * i, block, BLOCK) == 0;
    return same;
}

bool keywrap_aes_known_answers(void) {
    uint8_t kek[32], plaintext[BLOCK], block[BLOCK], blocks[TESTED * BLOCK];
    uint8_t schedule[SCHEDULE];
    for (unsigned i = 0; i < sizeof kek; i++) kek[i] = (uint8_t)i;
    for (unsigned i = 0; i < BLOCK; i++) block[i] = plaintext[i] = (uint8_t)(0x11 * i);
    for (unsigned i = 0; i < TESTED; i++) memcpy(blocks + BLOCK * i, plaintext, BLOCK);
    for (unsigned i = 0; i < 3; i++) {
        const size_t len = 176 + 32 * i;
        keywrap_aes_expand(kek, 16 + 8 * i, schedule, len);
        keywrap_aes_encrypt(schedule, len, block);
        keywrap_aes_encrypt_many(schedule, len, blocks, sizeof blocks);
        if (memcmp(block, CIPHERTEXTS[i], BLOCK) != 0 || !are_all(blocks, block)) return false;
        keywrap_aes_decrypt(schedule, len, block);
        keywrap_aes_decrypt_many(schedule, len, blocks, sizeof blocks);
        if (memcmp(block, plaintext, BLOCK) != 0 || !are_all(blocks, block)) return false;
    }
    return true;
}

bool keywrap_aes_available(void) {
    enum { UNKNOWN, WORKS, MISSING };
    static int state = UNKNOWN;
    int known = __atomic_load_n(&state, __ATOMIC_ACQUIRE);
    if (known == UNKNOWN) {
        const bool works = keywrap_aes_has_instructions() && keywrap_aes_known_answers();
        known = works ? WORKS : MISSING;
        __atomic_store_n(&state, known, __ATOMIC_RELEASE);
    }
    return known == WORKS;
}

/* The functions that the program's module calls: AES over its memory. The module has checked the lengths. */

u32 host_aes_available(void) {
#ifdef KEYWRAP_AES_INSTRUCTIONS_MUST_WORK
    if (!keywrap_aes_available()) abort();
#endif
    return keywrap_aes_available();
}

void host_aes_expand(u64 kek, u64 kek_len, u64 schedule, u64 len) {
    keywrap_aes_expand(POINTER(kek), (size_t)kek_len, POINTER(schedule), (size_t)len);
}

void host_aes_encrypt(u64 schedule, u64 len, u64 block) {
    keywrap_aes_encrypt(POINTER(schedule), (size_t)len, POINTER(block));
}

void host_aes_decrypt(u64 schedule, u64 len, u64 block) {
    keywrap_aes_decrypt(POINTER(schedule), (size_t)len, POINTER(block));
}
#else

u32 host_aes_available(void) {
    return 0;
}

/* The module never calls these. */
void host_aes_expand(u64 kek, u64 kek_len, u64 schedule, u64 len) {
    (void)kek, (void)kek_len, (void)schedule, (void)len;
    abort();
}

void host_aes_encrypt(u64 schedule, u64 len, u64 block) {
    (void)schedule, (void)len, (void)block;
    abort();
}

void host_aes_decrypt(u64 schedule, u64 len, u64 block) {
    (void)schedule, (void)len, (void)block;
    abort();
}

#endif
