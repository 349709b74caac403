/* one_table.h: AES (FIPS 197) with one table of 256 words for each direction, and the plain key
 * wrap over it, in C without proofs: what the bench and the tests compare the library with. */

#ifndef ONE_TABLE_H
#define ONE_TABLE_H

#include <stddef.h>
#include <stdint.h>

/* The round keys, of 10, 12 or 14 rounds. */
struct one_table {
    uint32_t words[60];
    int rounds;
};

/* Fills the tables. Call it once, before the others. */
void one_table_start(void);

/* The key schedule of a KEK of 16, 24 or 32 bytes. */
void one_table_schedule(struct one_table *keys, const uint8_t *kek, size_t kek_len);

/* The block's encryption, as two words. */
void one_table_encrypt(const struct one_table *keys, uint64_t *high, uint64_t *low);

/* The block's decryption, as two words. */
void one_table_decrypt(const struct one_table *keys, uint64_t *high, uint64_t *low);

/* The wrapping (RFC 3394, 2.2.1) of `key`, of `len` bytes, from the initial value `a`, into the
 * len + 8 bytes at `text`. */
void one_table_wrap(const struct one_table *keys, uint64_t a, const uint8_t *key, size_t len,
                    uint8_t *text);

/* Unwraps (RFC 3394, 2.2.2) the len + 8 bytes at `text` into `key`, of `len` bytes, and returns the
 * initial value. */
uint64_t one_table_unwrap(const struct one_table *keys, const uint8_t *text, uint8_t *key,
                          size_t len);

/* Eight bytes as a word, the first the most significant, and back. */
uint64_t load_word(const uint8_t *bytes);
void store_word(uint8_t *bytes, uint64_t word);

#endif
