/* provider.c: the entry point for OpenSSL, the description of the provider, and its algorithms. */

#include <keywrap.h>
#include <openssl/core_names.h>
#include <openssl/params.h>

#include "provider.h"

#define TEXT_OF(number) #number
#define DOTTED(major, minor, patch) TEXT_OF(major) "." TEXT_OF(minor) "." TEXT_OF(patch)
static const char VERSION[] =
    DOTTED(KEYWRAP_VERSION_MAJOR, KEYWRAP_VERSION_MINOR, KEYWRAP_VERSION_PATCH)
#ifdef KEYWRAP_PRERELEASE
        "-" KEYWRAP_PRERELEASE
#endif
    ;
static const char NAME[] = "keywrap: AES Key Wrap, proved";

static const OSSL_PARAM PARAMETERS[] = {
    OSSL_PARAM_DEFN(OSSL_PROV_PARAM_NAME, OSSL_PARAM_UTF8_PTR, NULL, 0),
    OSSL_PARAM_DEFN(OSSL_PROV_PARAM_VERSION, OSSL_PARAM_UTF8_PTR, NULL, 0),
    OSSL_PARAM_DEFN(OSSL_PROV_PARAM_BUILDINFO, OSSL_PARAM_UTF8_PTR, NULL, 0),
    OSSL_PARAM_DEFN(OSSL_PROV_PARAM_STATUS, OSSL_PARAM_INTEGER, NULL, 0),
    OSSL_PARAM_END,
};

static const OSSL_PARAM *parameters(void *provider) {
    (void)provider;
    return PARAMETERS;
}

static int tell(OSSL_PARAM params[], const char *name, const char *text) {
    OSSL_PARAM *param = find(params, name);
    return param == NULL || write_text(param, text);
}

static int get_parameters(void *provider, OSSL_PARAM params[]) {
    OSSL_PARAM *status = find(params, OSSL_PROV_PARAM_STATUS);
    (void)provider;
    return tell(params, OSSL_PROV_PARAM_NAME, NAME)
           && tell(params, OSSL_PROV_PARAM_VERSION, VERSION)
           && tell(params, OSSL_PROV_PARAM_BUILDINFO, VERSION)
           && (status == NULL || write_number(status, 1));
}

static const OSSL_ALGORITHM *query(void *provider, int operation, int *no_cache) {
    (void)provider;
    *no_cache = 0;
    return operation == OSSL_OP_CIPHER ? CIPHERS : NULL;
}

static const OSSL_ITEM *reasons(void *provider) {
    (void)provider;
    return REASONS;
}

static void unload(void *provider) {
    OSSL_FUNC_CRYPTO_free_fn *free = ((struct provider *)provider)->free;
    free(provider, __FILE__, __LINE__);
}

static const OSSL_DISPATCH CALLS[] = {
    {OSSL_FUNC_PROVIDER_TEARDOWN, (void (*)(void))unload},
    {OSSL_FUNC_PROVIDER_GETTABLE_PARAMS, (void (*)(void))parameters},
    {OSSL_FUNC_PROVIDER_GET_PARAMS, (void (*)(void))get_parameters},
    {OSSL_FUNC_PROVIDER_QUERY_OPERATION, (void (*)(void))query},
    {OSSL_FUNC_PROVIDER_GET_REASON_STRINGS, (void (*)(void))reasons},
    {0, NULL},
};

/* Keeps the functions of the core that the provider needs. */
static void borrow(struct provider *provider, const OSSL_DISPATCH *from) {
    for (; from->function_id != 0; from++) switch (from->function_id) {
        case OSSL_FUNC_CORE_NEW_ERROR: provider->new_error = OSSL_FUNC_core_new_error(from); break;
        case OSSL_FUNC_CORE_SET_ERROR_DEBUG:
            provider->set_error_debug = OSSL_FUNC_core_set_error_debug(from);
            break;
        case OSSL_FUNC_CORE_VSET_ERROR:
            provider->vset_error = OSSL_FUNC_core_vset_error(from);
            break;
        case OSSL_FUNC_CRYPTO_MALLOC: provider->malloc = OSSL_FUNC_CRYPTO_malloc(from); break;
        case OSSL_FUNC_CRYPTO_ZALLOC: provider->zalloc = OSSL_FUNC_CRYPTO_zalloc(from); break;
        case OSSL_FUNC_CRYPTO_FREE: provider->free = OSSL_FUNC_CRYPTO_free(from); break;
        case OSSL_FUNC_CRYPTO_CLEAR_FREE:
            provider->clear_free = OSSL_FUNC_CRYPTO_clear_free(from);
            break;
        case OSSL_FUNC_OPENSSL_CLEANSE: provider->cleanse = OSSL_FUNC_OPENSSL_cleanse(from); break;
        default: break;
        }
}

static int complete(const struct provider *provider) {
    return provider->new_error != NULL && provider->set_error_debug != NULL
           && provider->vset_error != NULL && provider->malloc != NULL && provider->zalloc != NULL
           && provider->free != NULL && provider->clear_free != NULL && provider->cleanse != NULL;
}

int OSSL_provider_init(const OSSL_CORE_HANDLE *core, const OSSL_DISPATCH *lent,
                       const OSSL_DISPATCH **calls, void **context) {
    struct provider found = {0}, *provider;
    found.core = core;
    borrow(&found, lent);
    if (!complete(&found)) return 0;
    if (!KEYWRAP_CPU_SUPPORTED()) return REFUSE_LOAD(&found, REASON_CPU);
    provider = found.zalloc(sizeof *provider, __FILE__, __LINE__);
    if (provider == NULL) return REFUSE_LOAD(&found, REASON_NO_MEMORY);
    *provider = found;
    *calls = CALLS;
    *context = provider;
    return 1;
}
