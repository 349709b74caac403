/* sides.c: the two providers, calls that are made in both, and main, which compares OpenSSL's own provider with ours,
 * which is keywrap.so in the directory.
 *
 * usage: provider DIRECTORY PART [COUNT|few]        (PART: lengths, sequences, parameters, refusals;
 * few: without the longest keys, since an emulator takes seconds for each) */

#include "sides.h"

#include <openssl/err.h>
#include <stdarg.h>
#include <stdio.h>
#include <stdlib.h>
#include <string.h>

const char *const CIPHER_NAMES[CIPHERS] = {"AES-128-WRAP",     "AES-192-WRAP",
                                           "AES-256-WRAP",     "AES-128-WRAP-PAD",
                                           "AES-192-WRAP-PAD", "AES-256-WRAP-PAD"};

struct side sides[2] = {{.name = "default"}, {.name = "keywrap"}};
unsigned passed, failed;

int is_padded(int which) {
    return which >= 3;
}

int kek_len(int which) {
    return 16 + which % 3 * 8;
}

/* Returns whether it has printed the check. */
static int count(int right, const char *format, va_list arguments) {
    *(right ? &passed : &failed) += 1;
    if (right || failed > 20) return 0;
    vprintf(format, arguments);
    printf("\n");
    return 1;
}

void check(int right, const char *format, ...) {
    va_list arguments;
    va_start(arguments, format);
    count(right, format, arguments);
    va_end(arguments);
}

static int load(struct side *side) {
    char properties[32];
    snprintf(properties, sizeof properties, "provider=%s", side->name);
    side->provider = OSSL_PROVIDER_load(NULL, side->name);
    if (side->provider == NULL) return 0;
    for (int i = 0; i < CIPHERS; i++) {
        side->ciphers[i] = EVP_CIPHER_fetch(NULL, CIPHER_NAMES[i], properties);
        if (side->ciphers[i] == NULL) return 0;
    }
    side->ctx = EVP_CIPHER_CTX_new();
    return side->ctx != NULL;
}

/* Loads the default provider, and ours from the directory, into one library context. */
static int load_sides(const char *directory) {
    if (OSSL_PROVIDER_set_default_search_path(NULL, directory) && load(sides) && load(sides + 1))
        return 1;
    ERR_print_errors_fp(stdout);
    return 0;
}

static void unload_sides(void) {
    for (struct side *side = sides; side < sides + 2; side++) {
        EVP_CIPHER_CTX_free(side->ctx);
        for (int i = 0; i < CIPHERS; i++) EVP_CIPHER_free(side->ciphers[i]);
        OSSL_PROVIDER_unload(side->provider);
    }
}

int first_reason(void) {
    int reason = ERR_GET_REASON(ERR_peek_error());
    ERR_clear_error();
    return reason;
}

void record_bytes(struct side *side, const void *bytes, size_t len) {
    if (len > RECORD - side->recorded) len = RECORD - side->recorded;
    memcpy(side->record + side->recorded, bytes, len);
    side->recorded += len;
}

void record_number(struct side *side, long number) {
    record_bytes(side, &number, sizeof number);
}

void begin(struct side *side, int which, const uint8_t *kek, const uint8_t *iv, int wraps) {
    const EVP_CIPHER *cipher = which < 0 ? NULL : side->ciphers[which];
    record_number(side, EVP_CipherInit_ex(side->ctx, cipher, NULL, kek, iv, wraps));
    record_number(side, first_reason());
}

/* OpenSSL's own has one reason for a plain key of 8 bytes and for a failed check. Ours reports the
 * bad length. */
static int reason_of(const struct side *side, int len) {
    int reason = first_reason(), wraps = EVP_CIPHER_CTX_is_encrypting(side->ctx);
    int padded = EVP_CIPHER_CTX_get_iv_length(side->ctx) == 4;
    ERR_clear_error();
    return reason == 102 && !padded && len == (wraps ? 8 : 16) ? 230 : reason;
}

/* After a refused padded unwrap OpenSSL's own also clears the 8 bytes after the key's room. They are
 * put back here, so that the rest is compared, and that ours leaves them. */
static void put_back(struct side *side, uint8_t *out, const uint8_t *before, int len, int status) {
    if (side == sides && status != 1 && EVP_CIPHER_CTX_get_iv_length(side->ctx) == 4
        && !EVP_CIPHER_CTX_is_encrypting(side->ctx) && len >= 16 && len % 8 == 0)
        memcpy(out + len - 8, before + len - 8, 8);
}

int run_update(struct side *side, struct place place, const uint8_t *input, int len, int once,
               uint8_t *got) {
    uint8_t arena[ARENA], before[ARENA];
    uint8_t *in = arena + place.in, *out = place.out_null ? NULL : arena + place.out;
    int out_len = -7, status;
    for (int i = 0; i < ARENA; i++) arena[i] = (uint8_t)(i * 31 + 7);
    memcpy(in, input, (size_t)len);
    memcpy(before, arena, ARENA);
    if (once) status = EVP_Cipher(side->ctx, out, in, (unsigned)len);
    else status = EVP_CipherUpdate(side->ctx, out, &out_len, in, len);
    /* EVP_Cipher returns what OpenSSL's own returns: 1 after a refusal, too. */
    if (once && side == sides && ERR_peek_error() != 0) status = 0;
    if (out != NULL) put_back(side, out, before + place.out, len, status);
    if (got != NULL && out != NULL && status == 1 && out_len > 0) memcpy(got, out, (size_t)out_len);
    record_number(side, status);
    record_number(side, out_len);
    record_number(side, reason_of(side, len));
    record_bytes(side, arena, ARENA);
    return status == 1 ? out_len : -1;
}

void run_final(struct side *side) {
    uint8_t out[64];
    int out_len = -7;
    memset(out, 0x5A, sizeof out);
    record_number(side, EVP_CipherFinal_ex(side->ctx, out, &out_len));
    record_number(side, out_len);
    record_number(side, first_reason());
    record_bytes(side, out, sizeof out);
}

void compare(const char *format, ...) {
    const size_t len = sides[0].recorded;
    size_t at = 0;
    va_list arguments;
    while (at < len && sides[0].record[at] == sides[1].record[at]) at++;
    va_start(arguments, format);
    if (count(at == len && len == sides[1].recorded && len < RECORD, format, arguments))
        printf("    the answers differ, of %zu bytes from byte %zu on\n", len, at);
    va_end(arguments);
    sides[0].recorded = sides[1].recorded = 0;
}

static uint64_t state;

void seed(uint64_t with) {
    state = with * 2654435761u + 1;
}

uint32_t number(void) {
    state ^= state << 13;
    state ^= state >> 7;
    state ^= state << 17;
    return (uint32_t)(state >> 16);
}

unsigned below(unsigned limit) {
    return number() % limit;
}

void fill(uint8_t *bytes, size_t len) {
    for (size_t i = 0; i < len; i++) bytes[i] = (uint8_t)number();
}

int main(int argc, char **argv) {
    const char *part = argc >= 3 ? argv[2] : "";
    if (argc < 3 || !load_sides(argv[1])) return 2;
    seed(1);
    if (strcmp(part, "lengths") == 0) try_lengths();
    if (strcmp(part, "sequences") == 0) try_sequences((unsigned)atoi(argc > 3 ? argv[3] : "1000"));
    if (strcmp(part, "parameters") == 0) try_parameters();
    if (strcmp(part, "refusals") == 0) try_refusals(argc > 3);
    unload_sides();
    printf("%u right, %u wrong\n", passed, failed);
    return failed != 0 || passed == 0;
}
