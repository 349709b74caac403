/* errors.c: raises the refusals, which the core queues under the name of this provider. */

#include <stdarg.h>

#include "provider.h"

const OSSL_ITEM REASONS[] = {
    {REASON_INTEGRITY, "integrity check failed"},
    {REASON_PARAMETER_READ, "a parameter cannot be read"},
    {REASON_PARAMETER_WRITTEN, "a parameter cannot be written"},
    {REASON_KEK_LENGTH, "bad KEK length"},
    {REASON_ROOM, "the output buffer is shorter than the input"},
    {REASON_IV_LENGTH, "bad length of the initial value"},
    {REASON_NO_KEK, "no KEK was given"},
    {REASON_LENGTH, "bad length"},
    {REASON_NO_INPUT, "no input was given"},
    {REASON_RESERVED_IV, "initial value reserved for the padded form"},
    {REASON_PADDED_IV, "not the initial value of the padded form"},
    {REASON_TOO_LONG, "longer than 1048576 bytes of key"},
    {REASON_NO_MEMORY, "out of memory"},
    {REASON_CPU, "this processor lacks SSSE3 or SSE4.1"},
    {0, NULL},
};

/* The core takes the arguments of the format as a list. */
static void set_error(const struct provider *provider, uint32_t reason, const char *format, ...) {
    va_list arguments;
    va_start(arguments, format);
    provider->vset_error(provider->core, reason, format, arguments);
    va_end(arguments);
}

static void begin_error(const struct provider *provider, const char *file, int line,
                        const char *function) {
    provider->new_error(provider->core);
    provider->set_error_debug(provider->core, file, line, function);
}

int refuse(const struct provider *provider, enum reason reason, const char *file, int line,
           const char *function) {
    begin_error(provider, file, line, function);
    set_error(provider, reason, NULL);
    return 0;
}

int refuse_load(const struct provider *provider, enum reason reason, const char *file, int line,
                const char *function) {
    const OSSL_ITEM *item = REASONS;
    while (item->id != (unsigned)reason) item++;
    begin_error(provider, file, line, function);
    set_error(provider, reason, "%s", (const char *)item->ptr);
    return 0;
}
