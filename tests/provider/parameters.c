/* parameters.c: the parameters that ciphers and contexts return and accept, of each type and size,
 * and the names of the ciphers. */

#include <openssl/core_names.h>
#include <openssl/params.h>
#include <string.h>

#include "sides.h"

static const char *const NAMES[] = {
    OSSL_CIPHER_PARAM_MODE,         OSSL_CIPHER_PARAM_KEYLEN,
    OSSL_CIPHER_PARAM_IVLEN,        OSSL_CIPHER_PARAM_BLOCK_SIZE,
    OSSL_CIPHER_PARAM_AEAD,         OSSL_CIPHER_PARAM_CUSTOM_IV,
    OSSL_CIPHER_PARAM_CTS,          OSSL_CIPHER_PARAM_TLS1_MULTIBLOCK,
    OSSL_CIPHER_PARAM_HAS_RAND_KEY, OSSL_CIPHER_PARAM_PADDING,
    OSSL_CIPHER_PARAM_NUM,          OSSL_CIPHER_PARAM_IV,
    OSSL_CIPHER_PARAM_UPDATED_IV,   "nothing"};
enum { NAME_COUNT = sizeof NAMES / sizeof *NAMES };

static const unsigned TYPES[] = {OSSL_PARAM_INTEGER, OSSL_PARAM_UNSIGNED_INTEGER,
                                 OSSL_PARAM_UTF8_STRING, OSSL_PARAM_OCTET_STRING,
                                 OSSL_PARAM_OCTET_PTR};
static const size_t SIZES[] = {1, 2, 4, 8, 16};

/* Records a parameter, or for a pointer the bytes that it points to. */
static void record_param(struct side *side, const OSSL_PARAM *param, const uint8_t *data) {
    const uint8_t *there;
    record_number(side, (long)param->return_size);
    if (param->data_type == OSSL_PARAM_OCTET_PTR) {
        memcpy(&there, data, sizeof there);
        if (OSSL_PARAM_modified(param) && param->data != NULL)
            record_bytes(side, there, param->return_size);
    } else {
        record_bytes(side, data, 16);
    }
}

static void get(struct side *side, int which, const char *name, unsigned type, size_t size,
                int null, int of_context) {
    uint8_t data[16];
    OSSL_PARAM params[2] = {{name, type, data, size, OSSL_PARAM_UNMODIFIED}, OSSL_PARAM_END};
    int status;
    memset(data, 0x5A, sizeof data);
    if (null) params[0].data = NULL;
    status = of_context ? EVP_CIPHER_CTX_get_params(side->ctx, params)
                        : EVP_CIPHER_get_params(side->ciphers[which], params);
    record_number(side, status);
    if (of_context) record_number(side, first_reason());
    first_reason();
    /* The value after a refusal does not count. */
    if (status == 1) record_param(side, params, data);
}

static void try_gets(int which, const char *name, int of_context) {
    for (size_t type = 0; type < sizeof TYPES / sizeof *TYPES; type++)
        for (size_t size = 0; size < sizeof SIZES / sizeof *SIZES; size++)
            for (int null = 0; null < 2; null++) {
                if (null && TYPES[type] == OSSL_PARAM_OCTET_PTR) continue;
                get(sides, which, name, TYPES[type], SIZES[size], null, of_context);
                get(sides + 1, which, name, TYPES[type], SIZES[size], null, of_context);
                compare("%s: %s of type %u, size %zu%s%s", CIPHER_NAMES[which], name, TYPES[type],
                        SIZES[size], null ? ", NULL" : "", of_context ? ", of a context" : "");
            }
}

/* The KEK's length in each type and size. */
static void set(struct side *side, unsigned type, size_t size, const uint8_t *value) {
    uint8_t data[16];
    OSSL_PARAM params[2] = {{OSSL_CIPHER_PARAM_KEYLEN, type, data, size, OSSL_PARAM_UNMODIFIED},
                            OSSL_PARAM_END};
    memcpy(data, value, sizeof data);
    record_number(side, EVP_CIPHER_CTX_set_params(side->ctx, params));
    record_number(side, first_reason());
}

static void try_sets(int which) {
    for (int value = -2; value < 300; value++)
        for (size_t type = 0; type < sizeof TYPES / sizeof *TYPES; type++)
            for (size_t size = 0; size < sizeof SIZES / sizeof *SIZES; size++)
                for (int behind = 0; behind < 2; behind++) {
                    uint8_t data[16];
                    for (size_t i = 0; i < sizeof data; i++)
                        data[i] = (uint8_t)(i < 4 ? value >> 8 * i : value < 0 ? 0xFF : 0);
                    data[SIZES[size] - 1] ^= (uint8_t)(behind << 7);
                    set(sides, TYPES[type], SIZES[size], data);
                    set(sides + 1, TYPES[type], SIZES[size], data);
                    compare("%s: the KEK's length %d, type %u, size %zu", CIPHER_NAMES[which],
                            value, TYPES[type], SIZES[size]);
                }
}

/* Ours names each cipher as OpenSSL's own does, in all its names. */
static void try_names(int which) {
    size_t len = strlen(CIPHER_NAMES[which]);
    const char *names[2] = {NULL, NULL};
    for (int i = 0, no_cache; i < 2; i++) {
        const OSSL_ALGORITHM *found =
            OSSL_PROVIDER_query_operation(sides[i].provider, OSSL_OP_CIPHER, &no_cache);
        for (; found != NULL && found->algorithm_names != NULL; found++)
            if (strncmp(found->algorithm_names, CIPHER_NAMES[which], len) == 0
                && found->algorithm_names[len] == ':')
                names[i] = found->algorithm_names;
    }
    check(names[0] != NULL && names[1] != NULL && strcmp(names[0], names[1]) == 0, "%s: names, %s",
          CIPHER_NAMES[which], names[1] != NULL ? names[1] : "none");
}

/* Each parameter of one list is in the other, except the parameters of TLS. */
static void try_list(int which, const OSSL_PARAM *list, const OSSL_PARAM *other) {
    check(list != NULL && other != NULL, "%s: no list", CIPHER_NAMES[which]);
    for (; list != NULL && list->key != NULL; list++) {
        const OSSL_PARAM *found = OSSL_PARAM_locate_const(other, list->key);
        if (strncmp(list->key, "tls-", 4) == 0 && found == NULL) continue;
        check(found != NULL && found->data_type == list->data_type, "%s: %s in a list",
              CIPHER_NAMES[which], list->key);
    }
}

static void try_lists(int which) {
    const EVP_CIPHER *theirs = sides[THEIRS].ciphers[which], *ours = sides[OURS].ciphers[which];
    for (int way = 0; way < 2; way++) {
        const EVP_CIPHER *one = way ? ours : theirs, *other = way ? theirs : ours;
        try_list(which, EVP_CIPHER_gettable_params(one), EVP_CIPHER_gettable_params(other));
        try_list(which, EVP_CIPHER_gettable_ctx_params(one), EVP_CIPHER_gettable_ctx_params(other));
        try_list(which, EVP_CIPHER_settable_ctx_params(one), EVP_CIPHER_settable_ctx_params(other));
    }
}

void try_parameters(void) {
    static const uint8_t value[8] = {0xA6, 0x59, 0x59, 0xA6, 5, 6, 7, 8},
                         other[8] = {1, 2, 3, 4, 5, 6};
    uint8_t kek[32] = {9};
    for (int which = 0; which < CIPHERS; which++) {
        try_names(which);
        try_lists(which);
        for (int given = 0; given < 2; given++) {
            const uint8_t *iv = is_padded(which) ? value : other;
            for (struct side *side = sides; side < sides + 2; side++)
                begin(side, which, kek, given ? iv : NULL, 1);
            compare("%s: begun", CIPHER_NAMES[which]);
            for (int name = 0; name < NAME_COUNT; name++) {
                try_gets(which, NAMES[name], 0);
                try_gets(which, NAMES[name], 1);
            }
        }
        try_sets(which);
    }
}
