/* keywrap.h: AES Key Wrap, plain (RFC 3394) and padded (RFC 5649), by AES-128, AES-192 and AES-256.
 *
 * A key-encryption key (KEK) of 16, 24 or 32 bytes wraps a key. The wrapped key is 8 bytes longer
 * than the key, or up to 15 in the padded form. Unwrapping gives the key back, or fails the
 * integrity check. A plain key has 16 bytes or more, a multiple of 8, a padded key 1 or more. A
 * wrapped key is refused in the form in which it was not wrapped. The plain form has the default
 * initial value of RFC 3394; the _with calls take a value that both ends agreed on. A rewrap takes
 * a wrapped key from one KEK to another.
 *
 *     uint8_t wrapped[KEYWRAP_TEXT_LEN(sizeof key)];      kek and key are arrays of 32 bytes
 *     if (keywrap_wrap(kek, sizeof kek, key, sizeof key, wrapped, sizeof wrapped)) return 1;
 *
 * The calls allocate nothing, keep no secret and have no callbacks. Any thread may make them.
 *
 * On x86-64 libkeywrap needs SSSE3 and SSE4.1; portable C, and aarch64, need nothing. The calls do not
 * check this, and end the program with SIGILL on an older x86-64: KEYWRAP_CPU_SUPPORTED() checks it.
 *
 * The caller must keep these rules. Nothing checks them:
 *   - A pointer points to as many bytes as the length after it. It is not NULL, not even if the
 *     length is 0 (malloc(0) may return NULL).
 *   - A buffer that a call writes overlaps no other argument. If it does, a call with two buffers
 *     may return KEYWRAP_OK and a wrong wrapped key. To wrap in place, use the _in_place calls.
 *   - While a call runs, no other thread writes the buffers that the call reads, or uses the
 *     buffers that it writes.
 *
 * There is no claim about timing, or about copies of keys that a call leaves in registers or on the
 * stack. SECURITY.md, which is installed with the documents, has measurements of both. */

#ifndef KEYWRAP_H
#define KEYWRAP_H
#if !defined(KEYWRAP_PORTABLE) && !defined(KEYWRAP_LIBRARY)
#define KEYWRAP_PORTABLE
#endif

#include <stddef.h>
#include <stdint.h>

/* The version of this header. keywrap_version() returns the library's. Between two releases both
 * have the numbers of the next release. */
#define KEYWRAP_VERSION_MAJOR 1
#define KEYWRAP_VERSION_MINOR 3
#define KEYWRAP_VERSION_PATCH 0
#define KEYWRAP_PRERELEASE "dev" /* not defined in a release */
#define KEYWRAP_VERSION \
    (KEYWRAP_VERSION_MAJOR << 16 | KEYWRAP_VERSION_MINOR << 8 | KEYWRAP_VERSION_PATCH)

/* KEYWRAP_PORTABLE is defined in the header of the portable library (keywrap.c), which runs on any
 * processor. It needs no memory: KEYWRAP_NO_MEMORY is a status that no call returns any more. */
#ifdef KEYWRAP_PORTABLE
#define KEYWRAP_NO_MEMORY 7
#endif

/* 1 if this processor has the instructions that the library needs, else 0: check it before the first
 * call if the program may run on an old x86-64. GCC and clang only. */
#if defined(__GNUC__) && defined(__x86_64__) && !defined(KEYWRAP_PORTABLE)
#define KEYWRAP_CPU_SUPPORTED() \
    (__builtin_cpu_supports("ssse3") && __builtin_cpu_supports("sse4.1"))
#elif defined(__GNUC__)
#define KEYWRAP_CPU_SUPPORTED() 1
#endif

/* Lengths in bytes: the longest key and the longest wrapped key (a thread's stack may be too small
 * for them); the wrapped key, plain and padded; and the buffer that an unwrap fills, in either form
 * (8 less than the wrapped key, or 0). With a constant argument each is a constant expression. They
 * may evaluate the argument twice. */
#define KEYWRAP_MAX_KEY 1048576
#define KEYWRAP_MAX_TEXT (KEYWRAP_MAX_KEY + 8)
#define KEYWRAP_TEXT_LEN(key_len) ((key_len) + 8)
#define KEYWRAP_PADDED_TEXT_LEN(key_len) (((key_len) + 7) / 8 * 8 + 8)
#define KEYWRAP_ROOM(wrapped_len) ((wrapped_len) < 8 ? 0 : (wrapped_len) - 8)

/* The status that a call returns. If several refusals apply, it is the first in this list.
 * KEYWRAP_BAD_KEK and KEYWRAP_BAD_LENGTH depend only on lengths, flags, and how a kept KEK begins. At
 * these two, at KEYWRAP_BAD_IV and at KEYWRAP_KEY_NOT_PLAIN the buffers are unchanged. There is one
 * exception: keywrap_rewrap_in_place, at the end of this file, has one more cause of
 * KEYWRAP_BAD_LENGTH, and after it the buffer is all zeros. */
enum keywrap_status {
    KEYWRAP_OK = 0,
    KEYWRAP_BAD_IV = 2,     /* the initial value is refused; only a _with call returns it */
    KEYWRAP_BAD_KEK = 3,    /* the KEK is not 16, 24 or 32 bytes long, and no kept KEK */
    KEYWRAP_BAD_LENGTH = 4, /* the call does not accept a length */
    KEYWRAP_INTEGRITY = 5,  /* the integrity check failed: another KEK, form or initial value, or
                               damage; no wrap returns it */
    KEYWRAP_KEY_NOT_PLAIN = 8 /* the wrapped key is genuine, but no plain key has the length of its
                                 key; only a rewrap returns it, keywrap_rewrap_many as a byte */
};

/* The flags of a rewrap: the old or the new wrapped key has the padded form. Without its flag it has
 * the plain form. */
#define KEYWRAP_OLD_PADDED 1u
#define KEYWRAP_NEW_PADDED 2u

/* The flags of keywrap_rewrap beside them, since version 1.1. KEYWRAP_KEEP_FORM excludes the flags
 * above: the wrapped key may have either form, and keeps it. KEYWRAP_PASS_NEW goes with any flags: a
 * wrapped key that is new already is left as it is. */
#define KEYWRAP_KEEP_FORM 4u
#define KEYWRAP_PASS_NEW 8u

/* If the compiler can, it warns of NULL, of an unused status, and (GCC) of an overlap and of a
 * buffer that is shorter than its length argument. */
#if defined(__GNUC__)
#define KEYWRAP_NONNULL __attribute__((nonnull, nothrow))
#define KEYWRAP_CALL __attribute__((nonnull, nothrow, warn_unused_result))
#define KEYWRAP_RESTRICT __restrict
#elif defined(__STDC_VERSION__) && __STDC_VERSION__ >= 199901L
#define KEYWRAP_NONNULL
#define KEYWRAP_CALL
#define KEYWRAP_RESTRICT restrict
#else
#define KEYWRAP_NONNULL
#define KEYWRAP_CALL
#define KEYWRAP_RESTRICT
#endif
#if defined(__GNUC__) && !defined(__clang__) && __GNUC__ >= 10
#define KEYWRAP_READS(pointer, length) __attribute__((access(read_only, pointer, length)))
#define KEYWRAP_WRITES(pointer, length) __attribute__((access(write_only, pointer, length)))
#define KEYWRAP_CHANGES(pointer, length) __attribute__((access(read_write, pointer, length)))
#else
#define KEYWRAP_READS(pointer, length)
#define KEYWRAP_WRITES(pointer, length)
#define KEYWRAP_CHANGES(pointer, length)
#endif

#ifdef __cplusplus
extern "C" {
#endif

/* The version of the library, in the form of KEYWRAP_VERSION. */
KEYWRAP_CALL
uint32_t keywrap_version(void);

/* Writes what a status means to text, a buffer of capacity bytes, with a zero at its end. Any
 * number has a text, and 80 bytes hold any text. A longer text is cut to fit with its zero. If
 * capacity is 0, nothing is written. The bytes after the zero are unchanged.
 *
 * Returns the length of the whole text, without the zero. If that is not less than capacity, the
 * text was cut. Since version 1.1: a program that makes this call does not start with an older
 * library. */
KEYWRAP_NONNULL KEYWRAP_WRITES(2, 3)
size_t keywrap_status_text(int32_t status, char *KEYWRAP_RESTRICT text, size_t capacity);

/* Tests the library: wraps and unwraps the published vectors of RFC 3394 and RFC 5649, and unwraps a
 * damaged wrapped key. Returns KEYWRAP_OK if each result is right, else KEYWRAP_INTEGRITY. Since
 * version 1.1. */
KEYWRAP_CALL
int32_t keywrap_self_test(void);

/* A KEK that is kept. A call expands the bytes of a KEK each time it is made; a kept KEK is expanded
 * once. Since version 1.2.
 *   kept_len  KEYWRAP_KEK_LEN(kek_len): 184, 216 or 248
 *
 * keywrap_kek_init keeps a KEK of 16, 24 or 32 bytes:
 *   KEYWRAP_OK          kept is a kept KEK. Each other call takes kept and kept_len in the place of the
 *                       KEK and its length, and does the same. It is as secret as the KEK
 *   any other           kept is unchanged
 *
 * keywrap_kek_clear writes zeros to it. A kept KEK may be copied, and every library of this version
 * takes it. Another version may refuse it: store the KEK instead. Of kept_len bytes a call refuses
 * those that do not begin like one, as cleared ones (KEYWRAP_BAD_KEK), and takes all others for round
 * keys. Never pass kept with kek_len: its first bytes would be the KEK. */
#define KEYWRAP_KEK_LEN(kek_len) (4 * (kek_len) + 120)
KEYWRAP_CALL KEYWRAP_READS(1, 2) KEYWRAP_WRITES(3, 4)
int32_t keywrap_kek_init(const uint8_t *kek, size_t kek_len, uint8_t *KEYWRAP_RESTRICT kept,
                         size_t kept_len);

KEYWRAP_NONNULL KEYWRAP_WRITES(1, 2)
void keywrap_kek_clear(uint8_t *kept, size_t kept_len);

/* Plain, two buffers: key_len is a multiple of 8 from 16 to KEYWRAP_MAX_KEY, and wrapped_len is
 * KEYWRAP_TEXT_LEN(key_len).
 *
 * keywrap_wrap wraps the key:
 *   KEYWRAP_OK          wrapped holds the wrapped key
 *   any other           wrapped is unchanged
 *
 * keywrap_unwrap finds the key that was wrapped:
 *   KEYWRAP_OK          key holds it; no other key has this wrapping
 *   KEYWRAP_INTEGRITY   there is no such key; key is all zeros
 *   any other           key is unchanged */
KEYWRAP_CALL KEYWRAP_READS(1, 2) KEYWRAP_READS(3, 4) KEYWRAP_WRITES(5, 6)
int32_t keywrap_wrap(const uint8_t *kek, size_t kek_len, const uint8_t *key, size_t key_len,
                     uint8_t *KEYWRAP_RESTRICT wrapped, size_t wrapped_len);

KEYWRAP_CALL KEYWRAP_READS(1, 2) KEYWRAP_READS(3, 4) KEYWRAP_WRITES(5, 6)
int32_t keywrap_unwrap(const uint8_t *kek, size_t kek_len, const uint8_t *wrapped,
                       size_t wrapped_len, uint8_t *KEYWRAP_RESTRICT key, size_t key_len);

/* Plain, two buffers, with an initial value that both ends agreed on (RFC 3394, 2.2.3.2), the 8
 * bytes at iv. The lengths are as above. With a6 a6 a6 a6 a6 a6 a6 a6 the results are, too.
 *   iv_len    8
 *   KEYWRAP_BAD_IV      iv_len is not 8, or the first four bytes are a6 59 59 a6: such values are
 *                       reserved for the padded form
 *
 * keywrap_wrap_with wraps the key:
 *   KEYWRAP_OK          wrapped holds the wrapped key
 *   any other           wrapped is unchanged
 *
 * keywrap_unwrap_with finds the key that was wrapped under this value:
 *   KEYWRAP_OK          key holds it; no other key has this wrapping
 *   KEYWRAP_INTEGRITY   there is no such key; key is all zeros
 *   any other           key is unchanged */
KEYWRAP_CALL KEYWRAP_READS(1, 2) KEYWRAP_READS(3, 4) KEYWRAP_READS(5, 6) KEYWRAP_WRITES(7, 8)
int32_t keywrap_wrap_with(const uint8_t *kek, size_t kek_len, const uint8_t *iv, size_t iv_len,
                          const uint8_t *key, size_t key_len, uint8_t *KEYWRAP_RESTRICT wrapped,
                          size_t wrapped_len);

KEYWRAP_CALL KEYWRAP_READS(1, 2) KEYWRAP_READS(3, 4) KEYWRAP_READS(5, 6) KEYWRAP_WRITES(7, 8)
int32_t keywrap_unwrap_with(const uint8_t *kek, size_t kek_len, const uint8_t *iv, size_t iv_len,
                            const uint8_t *wrapped, size_t wrapped_len,
                            uint8_t *KEYWRAP_RESTRICT key, size_t key_len);

/* Padded, two buffers.
 *
 * keywrap_wrap_padded wraps the key:
 *   key_len      1 to KEYWRAP_MAX_KEY
 *   wrapped_len  KEYWRAP_PADDED_TEXT_LEN(key_len)
 *   KEYWRAP_OK          wrapped holds the wrapped key
 *   any other           wrapped is unchanged
 *
 * keywrap_unwrap_padded finds the key that was wrapped:
 *   wrapped_len  a multiple of 8 from 16 to KEYWRAP_MAX_TEXT
 *   room         KEYWRAP_ROOM(wrapped_len), the size of the buffer at key
 *   KEYWRAP_OK          the first *key_len bytes at key are the key, and zeros, up to 7, come
 *                       after it; no other key has this wrapping
 *   KEYWRAP_INTEGRITY   there is no such key; the buffer at key is all zeros, and *key_len is 0
 *   any other           the buffer at key is unchanged, and *key_len is 0 */
KEYWRAP_CALL KEYWRAP_READS(1, 2) KEYWRAP_READS(3, 4) KEYWRAP_WRITES(5, 6)
int32_t keywrap_wrap_padded(const uint8_t *kek, size_t kek_len, const uint8_t *key, size_t key_len,
                            uint8_t *KEYWRAP_RESTRICT wrapped, size_t wrapped_len);

KEYWRAP_CALL KEYWRAP_READS(1, 2) KEYWRAP_READS(3, 4) KEYWRAP_WRITES(5, 6)
int32_t keywrap_unwrap_padded(const uint8_t *kek, size_t kek_len, const uint8_t *wrapped,
                              size_t wrapped_len, uint8_t *KEYWRAP_RESTRICT key, size_t room,
                              size_t *KEYWRAP_RESTRICT key_len);

/* Plain, one buffer of wrapped_len bytes, a multiple of 8 from 24 to KEYWRAP_MAX_TEXT. The key
 * begins at buffer + 8.
 *
 * keywrap_wrap_in_place wraps the key; the first 8 bytes may hold anything:
 *   KEYWRAP_OK          the buffer holds the wrapped key
 *   any other           the buffer is unchanged
 *
 * keywrap_unwrap_in_place turns the wrapped key into the key:
 *   KEYWRAP_OK          8 zeros, then the key; no other key has this wrapping
 *   KEYWRAP_INTEGRITY   there is no such key; the buffer is all zeros (to keep the wrapped key,
 *                       copy it first)
 *   any other           the buffer is unchanged */
KEYWRAP_CALL KEYWRAP_READS(1, 2) KEYWRAP_CHANGES(3, 4)
int32_t keywrap_wrap_in_place(const uint8_t *kek, size_t kek_len,
                              uint8_t *KEYWRAP_RESTRICT buffer, size_t wrapped_len);

KEYWRAP_CALL KEYWRAP_READS(1, 2) KEYWRAP_CHANGES(3, 4)
int32_t keywrap_unwrap_in_place(const uint8_t *kek, size_t kek_len,
                                uint8_t *KEYWRAP_RESTRICT buffer, size_t wrapped_len);

/* Padded, one buffer of wrapped_len bytes. The key begins at buffer + 8.
 *
 * keywrap_wrap_padded_in_place wraps the key; the bytes before and after it may hold anything:
 *   key_len      1 to KEYWRAP_MAX_KEY
 *   wrapped_len  KEYWRAP_PADDED_TEXT_LEN(key_len)
 *   KEYWRAP_OK          the buffer holds the wrapped key
 *   any other           the buffer is unchanged
 *
 * keywrap_unwrap_padded_in_place turns the wrapped key into the key:
 *   wrapped_len  a multiple of 8 from 16 to KEYWRAP_MAX_TEXT
 *   KEYWRAP_OK          8 zeros, the key of *key_len bytes, and zeros, up to 7, to the end; no
 *                       other key has this wrapping
 *   KEYWRAP_INTEGRITY   there is no such key; the buffer is all zeros, and *key_len is 0
 *   any other           the buffer is unchanged, and *key_len is 0 */
KEYWRAP_CALL KEYWRAP_READS(1, 2) KEYWRAP_CHANGES(3, 4)
int32_t keywrap_wrap_padded_in_place(const uint8_t *kek, size_t kek_len,
                                     uint8_t *KEYWRAP_RESTRICT buffer, size_t wrapped_len,
                                     size_t key_len);

KEYWRAP_CALL KEYWRAP_READS(1, 2) KEYWRAP_CHANGES(3, 4)
int32_t keywrap_unwrap_padded_in_place(const uint8_t *kek, size_t kek_len,
                                       uint8_t *KEYWRAP_RESTRICT buffer, size_t wrapped_len,
                                       size_t *KEYWRAP_RESTRICT key_len);

/* The form of a wrapped key, with a scratch buffer. The key is not returned. Since version 1.1.
 *
 * keywrap_kind finds the form in which a key was wrapped, plain (with the default initial value) or
 * padded, and the length of the key:
 *   wrapped_len  any: a length that neither form has is KEYWRAP_INTEGRITY
 *   room         KEYWRAP_ROOM(wrapped_len), the size of the scratch buffer; any, if neither form has
 *                the length wrapped_len
 *   KEYWRAP_OK          *padded is 0, or 1 (KEYWRAP_OLD_PADDED), *key_len is the key's length, and
 *                       scratch is all zeros
 *   KEYWRAP_INTEGRITY   it is not a wrapped key under this KEK in either form; scratch is all
 *                       zeros, or unchanged if neither form has the length
 *   any other           scratch is unchanged
 * At each refusal *padded and *key_len are 0. */
KEYWRAP_CALL KEYWRAP_READS(1, 2) KEYWRAP_READS(3, 4) KEYWRAP_WRITES(5, 6)
int32_t keywrap_kind(const uint8_t *kek, size_t kek_len, const uint8_t *wrapped, size_t wrapped_len,
                     uint8_t *KEYWRAP_RESTRICT scratch, size_t room,
                     uint32_t *KEYWRAP_RESTRICT padded, size_t *KEYWRAP_RESTRICT key_len);

/* Either form, two buffers. Since version 1.1.
 *
 * keywrap_unwrap_any finds the key that was wrapped, plain (with the default initial value) or
 * padded. No wrapped key has both forms:
 *   wrapped_len  a multiple of 8 from 16 to KEYWRAP_MAX_TEXT
 *   room         KEYWRAP_ROOM(wrapped_len), the size of the buffer at key
 *   KEYWRAP_OK          the first *key_len bytes at key are the key, and zeros, up to 7, come
 *                       after it; *padded is 0, or 1 (KEYWRAP_OLD_PADDED); no other key has this
 *                       wrapping
 *   KEYWRAP_INTEGRITY   there is no such key in either form; the buffer at key is all zeros
 *   any other           the buffer at key is unchanged
 * At each refusal *padded and *key_len are 0. */
KEYWRAP_CALL KEYWRAP_READS(1, 2) KEYWRAP_READS(3, 4) KEYWRAP_WRITES(5, 6)
int32_t keywrap_unwrap_any(const uint8_t *kek, size_t kek_len, const uint8_t *wrapped,
                           size_t wrapped_len, uint8_t *KEYWRAP_RESTRICT key, size_t room,
                           uint32_t *KEYWRAP_RESTRICT padded, size_t *KEYWRAP_RESTRICT key_len);

/* From one KEK to another, in one buffer of wrapped_len bytes. The new wrapped key is as long as
 * the old one, in either form. The key is not returned: it is in the buffer only while the call
 * runs.
 *
 * keywrap_rewrap turns a key wrapped under old_kek into that key wrapped under new_kek. Since
 * version 1.1:
 *   wrapped_len  a multiple of 8 from 24, with KEYWRAP_OLD_PADDED or KEYWRAP_KEEP_FORM from 16, to
 *                KEYWRAP_MAX_TEXT
 *   flags        0, or the flags KEYWRAP_OLD_PADDED, KEYWRAP_NEW_PADDED or both, or
 *                KEYWRAP_KEEP_FORM; each also with KEYWRAP_PASS_NEW; and no other bit
 *   KEYWRAP_OK             the buffer holds the new wrapped key of the same key, and *already is 0;
 *                          or *already is 1 (see below)
 *   KEYWRAP_BAD_KEK        one of the KEKs is refused
 *   KEYWRAP_BAD_LENGTH     flags or wrapped_len is refused
 *   KEYWRAP_INTEGRITY      it is not a wrapped key under old_kek in this form (with
 *                          KEYWRAP_KEEP_FORM in either form)
 *   KEYWRAP_KEY_NOT_PLAIN  with KEYWRAP_OLD_PADDED but not KEYWRAP_NEW_PADDED: it is a wrapped key,
 *                          but the length of its key is not a multiple of 8 bytes from 16 on
 * After each refusal the buffer is unchanged, and *already is 0. With KEYWRAP_PASS_NEW a buffer that
 * is not a wrapped key under old_kek, but is one under new_kek in the form of a new wrapped key, is
 * KEYWRAP_OK: the buffer is unchanged, and *already is 1. */
KEYWRAP_CALL KEYWRAP_READS(1, 2) KEYWRAP_READS(3, 4) KEYWRAP_CHANGES(5, 6)
int32_t keywrap_rewrap(const uint8_t *old_kek, size_t old_kek_len, const uint8_t *new_kek,
                       size_t new_kek_len, uint8_t *KEYWRAP_RESTRICT buffer, size_t wrapped_len,
                       uint32_t flags, uint32_t *KEYWRAP_RESTRICT already);

/* keywrap_rewrap_in_place is the rewrap of version 1.0. It returns what keywrap_rewrap returns, but
 * a failed check leaves zeros:
 *   forms        0, or the flags KEYWRAP_OLD_PADDED, KEYWRAP_NEW_PADDED or both, and no other bit
 *   KEYWRAP_OK          the buffer holds the new wrapped key of the same key
 *   KEYWRAP_BAD_KEK     one of the KEKs is refused; the buffer is unchanged
 *   KEYWRAP_BAD_LENGTH  forms or wrapped_len is refused, and the buffer is unchanged; or, with only
 *                       KEYWRAP_OLD_PADDED, the length of the key is not a multiple of 8 bytes from
 *                       16 on, and the buffer is all zeros
 *   KEYWRAP_INTEGRITY   it is not a wrapped key under old_kek in this form; the buffer is all zeros */
KEYWRAP_CALL KEYWRAP_READS(1, 2) KEYWRAP_READS(3, 4) KEYWRAP_CHANGES(5, 6)
int32_t keywrap_rewrap_in_place(const uint8_t *old_kek, size_t old_kek_len, const uint8_t *new_kek,
                                size_t new_kek_len, uint8_t *KEYWRAP_RESTRICT buffer,
                                size_t wrapped_len, uint32_t forms);

/* Many keys of one length in one call, each in a slot of one buffer. Since version 1.1. The key
 * schedules are made once, and libkeywrap_hw works on many keys side by side.
 *   texts      count slots of one length, one behind the other: texts_len is a multiple of count
 *   statuses   one byte for each of the count slots, not 0
 * Slot i and statuses[i] are what the call for one key makes of that slot and returns:
 *   keywrap_rewrap_many  keywrap_rewrap; the byte is KEYWRAP_ALREADY_NEW where *already is 1
 *   keywrap_wrap_many    keywrap_wrap_in_place, with KEYWRAP_NEW_PADDED
 *                        keywrap_wrap_padded_in_place; a slot is as long as its wrapped key, and the
 *                        key of key_len bytes begins 8 bytes after its start
 *   keywrap_unwrap_many  keywrap_unwrap_in_place, with KEYWRAP_OLD_PADDED
 *                        keywrap_unwrap_padded_in_place; key_lens[i] is the key's length, or 0
 *   keywrap_kind_many    keywrap_kind, for slots of a length of a wrapped key: forms[i] and
 *                        key_lens[i] are its two numbers, and room is for one slot
 *   flags      as for keywrap_rewrap; KEYWRAP_NEW_PADDED or 0 to wrap, KEYWRAP_OLD_PADDED or 0 to
 *              unwrap
 * The numbers after key_lens and forms are how many there are, which is count.
 *   KEYWRAP_OK          each slot has its status
 *   KEYWRAP_BAD_KEK     a KEK is refused
 *   KEYWRAP_BAD_LENGTH  the flags, a length or a number is refused
 * After these two refusals no buffer is changed. */
#define KEYWRAP_ALREADY_NEW 1

KEYWRAP_CALL KEYWRAP_READS(1, 2) KEYWRAP_READS(3, 4) KEYWRAP_CHANGES(5, 6) KEYWRAP_WRITES(8, 9)
int32_t keywrap_rewrap_many(const uint8_t *old_kek, size_t old_kek_len, const uint8_t *new_kek,
                            size_t new_kek_len, uint8_t *KEYWRAP_RESTRICT texts, size_t texts_len,
                            uint32_t flags, uint8_t *KEYWRAP_RESTRICT statuses, size_t count);

KEYWRAP_CALL KEYWRAP_READS(1, 2) KEYWRAP_CHANGES(3, 4) KEYWRAP_WRITES(7, 8)
int32_t keywrap_wrap_many(const uint8_t *kek, size_t kek_len, uint8_t *KEYWRAP_RESTRICT texts,
                          size_t texts_len, size_t key_len, uint32_t flags,
                          uint8_t *KEYWRAP_RESTRICT statuses, size_t count);

KEYWRAP_CALL KEYWRAP_READS(1, 2) KEYWRAP_CHANGES(3, 4) KEYWRAP_WRITES(6, 7) KEYWRAP_WRITES(8, 9)
int32_t keywrap_unwrap_many(const uint8_t *kek, size_t kek_len, uint8_t *KEYWRAP_RESTRICT texts,
                            size_t texts_len, uint32_t flags, size_t *KEYWRAP_RESTRICT key_lens,
                            size_t key_lens_count, uint8_t *KEYWRAP_RESTRICT statuses,
                            size_t count);

KEYWRAP_CALL KEYWRAP_READS(1, 2) KEYWRAP_READS(3, 4) KEYWRAP_WRITES(5, 6) KEYWRAP_WRITES(7, 8)
KEYWRAP_WRITES(9, 10) KEYWRAP_WRITES(11, 12)
int32_t keywrap_kind_many(const uint8_t *kek, size_t kek_len, const uint8_t *texts,
                          size_t texts_len, uint8_t *KEYWRAP_RESTRICT scratch, size_t room,
                          uint8_t *KEYWRAP_RESTRICT forms, size_t forms_count,
                          size_t *KEYWRAP_RESTRICT key_lens, size_t key_lens_count,
                          uint8_t *KEYWRAP_RESTRICT statuses, size_t count);

#ifdef __cplusplus
}
#endif

#undef KEYWRAP_NONNULL
#undef KEYWRAP_CALL
#undef KEYWRAP_RESTRICT
#undef KEYWRAP_READS
#undef KEYWRAP_WRITES
#undef KEYWRAP_CHANGES

#endif
