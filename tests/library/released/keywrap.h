/* The types and numbers of 1.2.0, the last release. Each call is a line. */
#include <stddef.h>
#include <stdint.h>
#define KEYWRAP_NO_MEMORY 7
#define KEYWRAP_CPU_SUPPORTED() 1
#define KEYWRAP_MAX_KEY 1048576
#define KEYWRAP_MAX_TEXT (KEYWRAP_MAX_KEY + 8)
#define KEYWRAP_TEXT_LEN(key_len) ((key_len) + 8)
#define KEYWRAP_PADDED_TEXT_LEN(key_len) (((key_len) + 7) / 8 * 8 + 8)
#define KEYWRAP_ROOM(wrapped_len) ((wrapped_len) < 8 ? 0 : (wrapped_len) - 8)
#define KEYWRAP_OLD_PADDED 1u
#define KEYWRAP_NEW_PADDED 2u
#define KEYWRAP_KEEP_FORM 4u
#define KEYWRAP_PASS_NEW 8u
#define KEYWRAP_ALREADY_NEW 1
#define KEYWRAP_KEK_LEN(kek_len) (4 * (kek_len) + 120)
#define KEYWRAP_DECRYPT 1
#define KEYWRAP_NEW 2
enum keywrap_status { KEYWRAP_OK = 0, KEYWRAP_BAD_IV = 2, KEYWRAP_BAD_KEK = 3, KEYWRAP_BAD_LENGTH = 4, KEYWRAP_INTEGRITY = 5, KEYWRAP_KEY_NOT_PLAIN = 8 };
uint32_t keywrap_version(void);
size_t keywrap_status_text(int32_t status, char *restrict text, size_t capacity);
int32_t keywrap_self_test(void);
int32_t keywrap_kek_init(const uint8_t *kek, size_t kek_len, uint8_t *restrict kept, size_t kept_len);
void keywrap_kek_clear(uint8_t *kept, size_t kept_len);
int32_t keywrap_wrap(const uint8_t *kek, size_t kek_len, const uint8_t *key, size_t key_len, uint8_t *restrict wrapped, size_t wrapped_len);
int32_t keywrap_unwrap(const uint8_t *kek, size_t kek_len, const uint8_t *wrapped, size_t wrapped_len, uint8_t *restrict key, size_t key_len);
int32_t keywrap_wrap_with(const uint8_t *kek, size_t kek_len, const uint8_t *iv, size_t iv_len, const uint8_t *key, size_t key_len, uint8_t *restrict wrapped, size_t wrapped_len);
int32_t keywrap_unwrap_with(const uint8_t *kek, size_t kek_len, const uint8_t *iv, size_t iv_len, const uint8_t *wrapped, size_t wrapped_len, uint8_t *restrict key, size_t key_len);
int32_t keywrap_wrap_padded(const uint8_t *kek, size_t kek_len, const uint8_t *key, size_t key_len, uint8_t *restrict wrapped, size_t wrapped_len);
int32_t keywrap_unwrap_padded(const uint8_t *kek, size_t kek_len, const uint8_t *wrapped, size_t wrapped_len, uint8_t *restrict key, size_t room, size_t *restrict key_len);
int32_t keywrap_wrap_in_place(const uint8_t *kek, size_t kek_len, uint8_t *restrict buffer, size_t wrapped_len);
int32_t keywrap_unwrap_in_place(const uint8_t *kek, size_t kek_len, uint8_t *restrict buffer, size_t wrapped_len);
int32_t keywrap_wrap_padded_in_place(const uint8_t *kek, size_t kek_len, uint8_t *restrict buffer, size_t wrapped_len, size_t key_len);
int32_t keywrap_unwrap_padded_in_place(const uint8_t *kek, size_t kek_len, uint8_t *restrict buffer, size_t wrapped_len, size_t *restrict key_len);
int32_t keywrap_kind(const uint8_t *kek, size_t kek_len, const uint8_t *wrapped, size_t wrapped_len, uint8_t *restrict scratch, size_t room, uint32_t *restrict padded, size_t *restrict key_len);
int32_t keywrap_unwrap_any(const uint8_t *kek, size_t kek_len, const uint8_t *wrapped, size_t wrapped_len, uint8_t *restrict key, size_t room, uint32_t *restrict padded, size_t *restrict key_len);
int32_t keywrap_rewrap(const uint8_t *old_kek, size_t old_kek_len, const uint8_t *new_kek, size_t new_kek_len, uint8_t *restrict buffer, size_t wrapped_len, uint32_t flags, uint32_t *restrict already);
int32_t keywrap_rewrap_in_place(const uint8_t *old_kek, size_t old_kek_len, const uint8_t *new_kek, size_t new_kek_len, uint8_t *restrict buffer, size_t wrapped_len, uint32_t forms);
int32_t keywrap_rewrap_many(const uint8_t *old_kek, size_t old_kek_len, const uint8_t *new_kek, size_t new_kek_len, uint8_t *restrict texts, size_t texts_len, uint32_t flags, uint8_t *restrict statuses, size_t count);
int32_t keywrap_wrap_many(const uint8_t *kek, size_t kek_len, uint8_t *restrict texts, size_t texts_len, size_t key_len, uint32_t flags, uint8_t *restrict statuses, size_t count);
int32_t keywrap_unwrap_many(const uint8_t *kek, size_t kek_len, uint8_t *restrict texts, size_t texts_len, uint32_t flags, size_t *restrict key_lens, size_t key_lens_count, uint8_t *restrict statuses, size_t count);
int32_t keywrap_kind_many(const uint8_t *kek, size_t kek_len, const uint8_t *texts, size_t texts_len, uint8_t *restrict scratch, size_t room, uint8_t *restrict forms, size_t forms_count, size_t *restrict key_lens, size_t key_lens_count, uint8_t *restrict statuses, size_t count);
uint64_t keywrap_step_count(size_t len);
int32_t keywrap_begin_wrap(const uint8_t *iv, size_t iv_len, const uint8_t *registers, size_t len, uint64_t *done, uint8_t *block);
int32_t keywrap_begin_wrap_padded(size_t key_len, uint8_t *registers, size_t len, uint64_t *done, uint8_t *block);
int32_t keywrap_step_wrap(uint8_t *registers, size_t len, uint64_t *done, uint8_t *block);
int32_t keywrap_end_wrap(uint8_t *first, const uint8_t *registers, size_t len, uint64_t done, const uint8_t *block);
int32_t keywrap_begin_unwrap(const uint8_t *first, const uint8_t *registers, size_t len, uint64_t *left, uint8_t *block);
int32_t keywrap_begin_unwrap_padded(const uint8_t *first, const uint8_t *registers, size_t len, uint64_t *left, uint8_t *block);
int32_t keywrap_step_unwrap(uint8_t *registers, size_t len, uint64_t *left, uint8_t *block);
int32_t keywrap_end_unwrap(const uint8_t *iv, size_t iv_len, uint8_t *registers, size_t len, uint64_t left, uint8_t *block);
int32_t keywrap_end_unwrap_padded(uint8_t *registers, size_t len, uint64_t left, uint8_t *block, size_t *key_len);
int32_t keywrap_end_unwrap_any(uint8_t *registers, size_t len, uint64_t left, uint8_t *block, uint32_t *padded, size_t *key_len);
int32_t keywrap_begin_rewrap(uint32_t flags, const uint8_t *text, size_t text_len, uint32_t *phase, uint64_t *steps, uint8_t *block);
int32_t keywrap_next_rewrap(uint32_t flags, uint8_t *text, size_t text_len, uint32_t *phase, uint64_t *steps, uint8_t *block);
int32_t keywrap_next_rewrap_from(uint32_t flags, const uint8_t *copy, size_t copy_len, uint8_t *text, size_t text_len, uint32_t *phase, uint64_t *steps, uint8_t *block);
int32_t keywrap_begin_wrap_many(const uint8_t *iv, size_t iv_len, const uint8_t *texts, size_t texts_len, size_t text_len, uint64_t *done, uint8_t *blocks, size_t blocks_len);
int32_t keywrap_step_wrap_many(uint8_t *texts, size_t texts_len, size_t text_len, uint64_t *done, uint8_t *blocks, size_t blocks_len);
int32_t keywrap_end_wrap_many(uint8_t *texts, size_t texts_len, size_t text_len, uint64_t done, const uint8_t *blocks, size_t blocks_len);
int32_t keywrap_begin_unwrap_many(const uint8_t *texts, size_t texts_len, size_t text_len, uint64_t *left, uint8_t *blocks, size_t blocks_len);
int32_t keywrap_step_unwrap_many(uint8_t *texts, size_t texts_len, size_t text_len, uint64_t *left, uint8_t *blocks, size_t blocks_len);
int32_t keywrap_end_unwrap_many(const uint8_t *iv, size_t iv_len, uint8_t *texts, size_t texts_len, size_t text_len, uint64_t left, uint8_t *blocks, size_t blocks_len, uint8_t *statuses, size_t statuses_len);
