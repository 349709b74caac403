/* provider.h: the common declarations of the provider. It does not call libcrypto: memory and
 * errors come from functions of the core, so it works with any libcrypto that loads it. */

#ifndef PROVIDER_H
#define PROVIDER_H

#include <openssl/core.h>
#include <openssl/core_dispatch.h>
#include <stddef.h>
#include <stdint.h>

/* A loaded provider, with the functions of the core. */
struct provider {
    const OSSL_CORE_HANDLE *core;
    OSSL_FUNC_core_new_error_fn *new_error;
    OSSL_FUNC_core_set_error_debug_fn *set_error_debug;
    OSSL_FUNC_core_vset_error_fn *vset_error;
    OSSL_FUNC_CRYPTO_malloc_fn *malloc;
    OSSL_FUNC_CRYPTO_zalloc_fn *zalloc;
    OSSL_FUNC_CRYPTO_free_fn *free;
    OSSL_FUNC_CRYPTO_clear_free_fn *clear_free;
    OSSL_FUNC_OPENSSL_cleanse_fn *cleanse;
};

enum { LONGEST_KEK = 32, BLOCK = 8, PLAIN_IV = 8, PADDED_IV = 4 };

/* A context: one of the six ciphers, with its KEK and its initial value once they are given. */
struct context {
    const struct provider *provider;
    size_t kek_len, iv_len;
    int padded, wraps, has_kek, has_iv;
    uint8_t iv[PLAIN_IV], kek[LONGEST_KEK];
};

/* Why a call is refused. If OpenSSL's own provider refuses for the same cause, the number is the
 * number of its reason (openssl/proverr.h), or of the reason that all its libraries have. */
enum reason {
    REASON_PARAMETER_READ = 103,
    REASON_PARAMETER_WRITTEN = 104,
    REASON_INTEGRITY = 102,
    REASON_KEK_LENGTH = 105,
    REASON_ROOM = 106,
    REASON_IV_LENGTH = 109,
    REASON_NO_KEK = 114,
    REASON_LENGTH = 230,
    REASON_NO_INPUT = 4001,
    REASON_RESERVED_IV = 4002,
    REASON_PADDED_IV = 4003,
    REASON_TOO_LONG = 4004,
    REASON_NO_MEMORY = 4005,
    REASON_CPU = 4006
};

/* errors.c */
extern const OSSL_ITEM REASONS[];
/* Raises an error, and returns 0. */
int refuse(const struct provider *provider, enum reason reason, const char *file, int line,
           const char *function);
#define REFUSE(provider, reason) refuse(provider, reason, __FILE__, __LINE__, __func__)
/* The same while the provider is loaded. OpenSSL does not have its texts yet, so the error carries
 * its text as data. */
int refuse_load(const struct provider *provider, enum reason reason, const char *file, int line,
                const char *function);
#define REFUSE_LOAD(provider, reason) refuse_load(provider, reason, __FILE__, __LINE__, __func__)

/* parameters.c: like OpenSSL's calls of such names. */
OSSL_PARAM *find(const OSSL_PARAM params[], const char *name);
int read_size(const OSSL_PARAM *param, size_t *value);
int write_number(OSSL_PARAM *param, uint32_t value);
int write_size(OSSL_PARAM *param, size_t value);
int write_bytes(OSSL_PARAM *param, const void *bytes, size_t len);
int write_text(OSSL_PARAM *param, const char *text);

/* wrapping.c: an update. */
OSSL_FUNC_cipher_update_fn update;

/* cipher.c */
extern const OSSL_ALGORITHM CIPHERS[];

#endif
