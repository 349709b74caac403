/* keywrap_steps.h: AES Key Wrap without the AES, for a KEK that never leaves a token, or for the
 * AES of a processor. The library computes which block to encrypt or decrypt next.
 *
 *     uint8_t wrapped[8 + 32], block[16];      the key is in wrapped + 8
 *     uint64_t done;
 *     if (keywrap_begin_wrap(iv, 8, wrapped + 8, 32, &done, block)) return 1;
 *     while (done < keywrap_step_count(32)) {
 *         encrypt(block);
 *         if (keywrap_step_wrap(wrapped + 8, 32, &done, block)) return 1;
 *     }
 *     if (keywrap_end_wrap(wrapped, wrapped + 8, 32, done, block)) return 1;
 *
 * The caller holds everything: the registers, which are the key (RFC 3394 calls its words R[1] ..
 * R[n]), the number of steps done or left, and the block. A wrapped key is `first`, its first 8
 * bytes, and then the registers; in one buffer, first is buffer and the registers are buffer + 8.
 * There are 6 steps for each 8 bytes of the registers, or 1 if they are 8 bytes long.
 *
 * Each call returns KEYWRAP_OK or a refusal. A refusal other than KEYWRAP_INTEGRITY changes nothing. A
 * rewrapping differs in both (below). A step after the last one, or an end before it, is refused with
 * KEYWRAP_BAD_LENGTH.
 *
 * The caller must keep these rules, too. Nothing checks them:
 *   - Between two calls the block is encrypted (to wrap) or decrypted (to unwrap), once.
 *   - Between two calls nothing else writes the registers, the number or the block. They do not
 *     overlap each other or `first`.
 *   - Until the end of an unwrap, registers and block hold key material. To give up, clear them. To give
 *     up a rewrap, write a copy of the text over it: without one the key is lost. */

#ifndef KEYWRAP_STEPS_H
#define KEYWRAP_STEPS_H

#include "keywrap.h"

#if defined(__GNUC__)
#define KEYWRAP_CALL __attribute__((nonnull, nothrow, warn_unused_result))
#else
#define KEYWRAP_CALL
#endif

#ifdef __cplusplus
extern "C" {
#endif

/* keywrap_step_count returns how many steps there are over registers of this length. */
uint64_t keywrap_step_count(size_t len);

/* keywrap_begin_wrap begins the plain wrapping of the key in the registers under the 8 bytes at iv;
 * the default initial value is a6 a6 a6 a6 a6 a6 a6 a6.
 *   len     a multiple of 8 from 16 to KEYWRAP_MAX_KEY
 *   iv_len  8
 *   KEYWRAP_OK          *done is 0, and block the first block to encrypt
 *   KEYWRAP_BAD_IV      as in keywrap_wrap_with */
KEYWRAP_CALL
int32_t keywrap_begin_wrap(const uint8_t *iv, size_t iv_len, const uint8_t *registers, size_t len,
                           uint64_t *done, uint8_t *block);

/* keywrap_begin_wrap_padded begins the padded wrapping of the first key_len bytes of the registers.
 * The bytes after the key become zeros.
 *   key_len  1 to KEYWRAP_MAX_KEY
 *   len      key_len rounded up to a multiple of 8 */
KEYWRAP_CALL
int32_t keywrap_begin_wrap_padded(size_t key_len, uint8_t *registers, size_t len, uint64_t *done,
                                  uint8_t *block);

/* keywrap_step_wrap makes one step with the encrypted block. It adds 1 to *done, and block is the
 * next block to encrypt. */
KEYWRAP_CALL
int32_t keywrap_step_wrap(uint8_t *registers, size_t len, uint64_t *done, uint8_t *block);

/* keywrap_end_wrap writes the first 8 bytes of the wrapped key, in either form, if all steps are
 * done. */
KEYWRAP_CALL
int32_t keywrap_end_wrap(uint8_t *first, const uint8_t *registers, size_t len, uint64_t done,
                         const uint8_t *block);

/* keywrap_begin_unwrap begins the plain unwrapping of the wrapped key, which is the 8 bytes at
 * first and then the registers. keywrap_begin_unwrap_padded begins the padded unwrapping.
 *   len     a multiple of 8 from 16 (padded: from 8) to KEYWRAP_MAX_KEY
 *   KEYWRAP_OK          *left is the number of steps, and block the first block to decrypt */
KEYWRAP_CALL
int32_t keywrap_begin_unwrap(const uint8_t *first, const uint8_t *registers, size_t len,
                             uint64_t *left, uint8_t *block);

KEYWRAP_CALL
int32_t keywrap_begin_unwrap_padded(const uint8_t *first, const uint8_t *registers, size_t len,
                                    uint64_t *left, uint8_t *block);

/* keywrap_step_unwrap undoes one step with the decrypted block. It subtracts 1 from *left, and
 * block is the next block to decrypt. */
KEYWRAP_CALL
int32_t keywrap_step_unwrap(uint8_t *registers, size_t len, uint64_t *left, uint8_t *block);

/* keywrap_end_unwrap checks the plain form with the 8 bytes at iv, once no step is left:
 *   KEYWRAP_OK          the registers are the key; no other key has this wrapping
 *   KEYWRAP_INTEGRITY   there is no such key; the registers are all zeros
 * The block is all zeros then. */
KEYWRAP_CALL
int32_t keywrap_end_unwrap(const uint8_t *iv, size_t iv_len, uint8_t *registers, size_t len,
                           uint64_t left, uint8_t *block);

/* keywrap_end_unwrap_padded checks the padded form, once no step is left:
 *   KEYWRAP_OK          the first *key_len bytes of the registers are the key, and zeros, up to 7,
 *                       come after it; no other key has this wrapping
 *   KEYWRAP_INTEGRITY   there is no such key; the registers are all zeros
 * The block is all zeros then. At each refusal *key_len is 0. */
KEYWRAP_CALL
int32_t keywrap_end_unwrap_padded(uint8_t *registers, size_t len, uint64_t left, uint8_t *block,
                                  size_t *key_len);

/* keywrap_end_unwrap_any ends an unwrapping that was begun by keywrap_begin_unwrap_padded, in the form
 * that the text has, the plain one with the default initial value:
 *   KEYWRAP_OK          the first *key_len bytes of the registers are the key, and zeros, up to 7,
 *                       come after it; *padded is 1 in the padded form, else 0; no other key has this
 *                       wrapping, in either form
 *   KEYWRAP_INTEGRITY   there is no such key; the registers are all zeros
 * The block is all zeros then. At each refusal *padded and *key_len are 0. */
KEYWRAP_CALL
int32_t keywrap_end_unwrap_any(uint8_t *registers, size_t len, uint64_t left, uint8_t *block,
                               uint32_t *padded, size_t *key_len);

/* A rewrapping is a sequence of at most four runs of the steps, in one buffer:
 *
 *     status = keywrap_begin_rewrap(flags, text, text_len, &phase, &steps, block);
 *     while (phase != 0) {
 *         all steps of a wrapping, or with KEYWRAP_DECRYPT of an unwrapping, with `steps`, over the
 *         registers text + 8, under the old KEK, or with KEYWRAP_NEW under the new one
 *         status = keywrap_next_rewrap(flags, text, text_len, &phase, &steps, block);
 *     }
 *
 * The calls decide everything else: which form the text has, whether the key fits the new form, and
 * whether the text is new already. A text that is refused is restored.
 *
 * keywrap_begin_rewrap begins. The flags are those of keywrap_rewrap.
 *   KEYWRAP_OK          *phase has the bits KEYWRAP_DECRYPT and KEYWRAP_NEW of the first run, and other
 *                       bits; *steps is the number of its steps, and block its first block
 *   KEYWRAP_BAD_LENGTH  as in keywrap_rewrap, or the flags are not legal; *phase is 0
 *
 * keywrap_next_rewrap ends a run, and begins the next one: *phase, *steps and block are as above. Or it
 * ends the rewrapping: *phase is 0. It returns KEYWRAP_OK, KEYWRAP_ALREADY_NEW, or a refusal of
 * keywrap_rewrap, and the buffer is what it is after that call. It also returns KEYWRAP_BAD_LENGTH, and
 * *phase is 0, if a step is left. Clear block when *phase is 0: it may hold bytes of the key.
 *
 * keywrap_next_rewrap_from does the same with a copy of the text, of the same length, which the caller
 * made before the rewrapping: a refused text is restored from it, without a run of its own. */
#define KEYWRAP_DECRYPT 1
#define KEYWRAP_NEW 2

KEYWRAP_CALL
int32_t keywrap_begin_rewrap(uint32_t flags, const uint8_t *text, size_t text_len, uint32_t *phase,
                             uint64_t *steps, uint8_t *block);

KEYWRAP_CALL
int32_t keywrap_next_rewrap(uint32_t flags, uint8_t *text, size_t text_len, uint32_t *phase,
                            uint64_t *steps, uint8_t *block);

KEYWRAP_CALL
int32_t keywrap_next_rewrap_from(uint32_t flags, const uint8_t *copy, size_t copy_len,
                                 uint8_t *text, size_t text_len, uint32_t *phase, uint64_t *steps,
                                 uint8_t *block);

/* The calls for many keys of one length make the same step of each, for an AES that works on many
 * blocks side by side. All have the same number of steps done or left.
 *   texts     wrapped keys of text_len bytes, one behind the other: 8 bytes, and the registers
 *   text_len  a multiple of 8 from 24 to KEYWRAP_MAX_TEXT
 *   blocks    16 bytes for each text
 * A refusal changes nothing. If texts_len or blocks_len is not right for as many texts, a call returns
 * KEYWRAP_BAD_LENGTH. So does the portable library for more than 1 GiB of them.
 *
 * keywrap_begin_wrap_many begins plain wrappings under the 8 bytes at iv. keywrap_step_wrap_many
 * makes a step, and keywrap_end_wrap_many writes the first 8 bytes of each text, in either form. To
 * make the steps of padded wrappings of two words or more, begin each by itself. */
KEYWRAP_CALL
int32_t keywrap_begin_wrap_many(const uint8_t *iv, size_t iv_len, const uint8_t *texts,
                                size_t texts_len, size_t text_len, uint64_t *done, uint8_t *blocks,
                                size_t blocks_len);

KEYWRAP_CALL
int32_t keywrap_step_wrap_many(uint8_t *texts, size_t texts_len, size_t text_len, uint64_t *done,
                               uint8_t *blocks, size_t blocks_len);

KEYWRAP_CALL
int32_t keywrap_end_wrap_many(uint8_t *texts, size_t texts_len, size_t text_len, uint64_t done,
                              const uint8_t *blocks, size_t blocks_len);

/* keywrap_begin_unwrap_many begins to unwrap, and keywrap_step_unwrap_many undoes a step.
 * keywrap_end_unwrap_many checks the plain form of each text with the 8 bytes at iv. Padded texts
 * are ended each by itself.
 *   statuses    one byte for each text, of statuses_len: KEYWRAP_OK, and its registers are the key,
 *               or KEYWRAP_INTEGRITY, and they are all zeros
 *   KEYWRAP_OK  the statuses are written, and the blocks are all zeros
 * The first 8 bytes of each text stay as they are. */
KEYWRAP_CALL
int32_t keywrap_begin_unwrap_many(const uint8_t *texts, size_t texts_len, size_t text_len,
                                  uint64_t *left, uint8_t *blocks, size_t blocks_len);

KEYWRAP_CALL
int32_t keywrap_step_unwrap_many(uint8_t *texts, size_t texts_len, size_t text_len, uint64_t *left,
                                 uint8_t *blocks, size_t blocks_len);

KEYWRAP_CALL
int32_t keywrap_end_unwrap_many(const uint8_t *iv, size_t iv_len, uint8_t *texts, size_t texts_len,
                                size_t text_len, uint64_t left, uint8_t *blocks, size_t blocks_len,
                                uint8_t *statuses, size_t statuses_len);

#ifdef __cplusplus
}
#endif

#undef KEYWRAP_CALL

#endif
