/* parameters.c: reads and writes parameters, as OSSL_PARAM_locate and its like do. Numbers are in
 * them with the least byte first: the library is for x86-64. */

#include <limits.h>
#include <openssl/params.h>
#include <string.h>

#include "provider.h"

OSSL_PARAM *find(const OSSL_PARAM params[], const char *name) {
    for (; params != NULL && params->key != NULL; params++)
        if (strcmp(params->key, name) == 0) return (OSSL_PARAM *)params;
    return NULL;
}

static int is_number(const OSSL_PARAM *param) {
    return param->data_type == OSSL_PARAM_INTEGER
           || param->data_type == OSSL_PARAM_UNSIGNED_INTEGER;
}

int read_size(const OSSL_PARAM *param, size_t *value) {
    const uint8_t *bytes = param->data;
    size_t i = param->data_size;
    if (!is_number(param) || bytes == NULL || i == 0) return 0;
    if (param->data_type == OSSL_PARAM_INTEGER && bytes[i - 1] >> 7) return 0;
    for (*value = 0; i-- > 0; *value = *value << 8 | bytes[i])
        if (*value >> (sizeof *value - 1) * CHAR_BIT) return 0;
    return 1;
}

/* Writes the number in as many bytes as the parameter has, if it fits. A parameter without room
 * gets the size of the number's type. No number here has a first bit that could be read as a sign. */
static int write_integer(OSSL_PARAM *param, uint64_t value, size_t size) {
    uint8_t *bytes = param->data;
    if (!is_number(param)) return 0;
    param->return_size = size;
    if (bytes == NULL) return 1;
    if (param->data_size == 0) return 0;
    if (param->data_size < sizeof value && value >> param->data_size * CHAR_BIT) return 0;
    param->return_size = param->data_size;
    for (size_t i = 0; i < param->data_size; i++)
        bytes[i] = i < sizeof value ? (uint8_t)(value >> i * CHAR_BIT) : 0;
    return 1;
}

int write_number(OSSL_PARAM *param, uint32_t value) {
    return write_integer(param, value, sizeof value);
}

int write_size(OSSL_PARAM *param, size_t value) {
    return write_integer(param, value, sizeof value);
}

int write_bytes(OSSL_PARAM *param, const void *bytes, size_t len) {
    param->return_size = len;
    if (param->data == NULL) return 1;
    if (param->data_type == OSSL_PARAM_OCTET_PTR) {
        *(const void **)param->data = bytes;
        return 1;
    }
    if (param->data_type != OSSL_PARAM_OCTET_STRING || param->data_size < len) return 0;
    memcpy(param->data, bytes, len);
    return 1;
}

int write_text(OSSL_PARAM *param, const char *text) {
    if (param->data_type != OSSL_PARAM_UTF8_PTR) return 0;
    param->return_size = strlen(text);
    if (param->data != NULL) *(const char **)param->data = text;
    return 1;
}
