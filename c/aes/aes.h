/* aes.h: AES by the processor's instructions (FIPS 197), chosen at run time. A key schedule is the
 * standard's, 16 bytes for each round key: 176, 208 or 240 bytes. */

#ifndef KEYWRAP_AES_H
#define KEYWRAP_AES_H

#include <stdbool.h>
#include <stddef.h>
#include <stdint.h>
#include <string.h>

/* The bytes of a block and of the longest key schedule; the blocks that are worked on at once. */
enum { BLOCK = 16, SCHEDULE = 240, GROUP = 8 };

/* Returns whether the processor has the instructions and they passed a known-answer test. The first
 * call decides. Threads may make it at once. */
bool keywrap_aes_available(void);

/* Makes that test. The processor needs the instructions for it, as for all functions below. */
bool keywrap_aes_known_answers(void);

/* Writes the key schedule of a KEK of 16, 24 or 32 bytes. */
void keywrap_aes_expand(const uint8_t *kek, size_t kek_len, uint8_t *schedule, size_t len);

/* Encrypts or decrypts one block. */
void keywrap_aes_encrypt(const uint8_t *schedule, size_t len, uint8_t block[BLOCK]);
void keywrap_aes_decrypt(const uint8_t *schedule, size_t len, uint8_t block[BLOCK]);

/* Encrypts or decrypts each block of a buffer of whole blocks. */
void keywrap_aes_encrypt_many(const uint8_t *schedule, size_t len, uint8_t *blocks,
                              size_t blocks_len);
void keywrap_aes_decrypt_many(const uint8_t *schedule, size_t len, uint8_t *blocks,
                              size_t blocks_len);

/* Clears the memory of a key schedule, and what the call that used it has left below this function's
 * frame: the block of the last step, and words of it. */
void keywrap_aes_clear(uint8_t room[SCHEDULE]);

/* x86_64.c and aarch64.c have these, and the functions above for a KEK and for one block. The first
 * returns whether the processor has the instructions. The others work on whole groups of blocks. */
bool keywrap_aes_has_instructions(void);
void keywrap_aes_encrypt_groups(const uint8_t *schedule, size_t len, uint8_t *blocks,
                                size_t blocks_len);
void keywrap_aes_decrypt_groups(const uint8_t *schedule, size_t len, uint8_t *blocks,
                                size_t blocks_len);

/* Clears memory even if nothing reads it afterwards. */
static inline void wipe(void *memory, size_t len) {
    memset(memory, 0, len);
    __asm__ volatile("" : : "r"(memory) : "memory");
}

#endif
