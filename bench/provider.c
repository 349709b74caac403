/* provider.c: how long a wrap and an unwrap by EVP take, each with a context of its own, by
 * OpenSSL's own provider and by ours, which is keywrap.so in the directory that is given. Both
 * must write the same bytes. The best time of each counts. bench/wrap.sh compiles and runs it.
 * Writes the times as CSV. */

#include "turns.h"

#include <openssl/evp.h>
#include <openssl/provider.h>
#include <stdint.h>
#include <stdio.h>
#include <string.h>

enum { SIDES = 2, LONGEST = 4096, ROW_NS = 200000000 };
static const char *const PROVIDERS[SIDES] = {"default", "keywrap"};

/* The ciphers and lengths of keys to time. */
static const struct row {
    const char *name;
    int len;
} ROWS[] = {{"AES-128-WRAP", 16},
            {"AES-256-WRAP", 32},
            {"AES-256-WRAP", 256},
            {"AES-256-WRAP", 4096},
            {"AES-256-WRAP-PAD", 32}};

static uint8_t kek[32], key[LONGEST], text[LONGEST + 8], out[LONGEST + 32];

/* A row, its cipher of each provider, and the direction. */
static const struct row *row;
static EVP_CIPHER *ciphers[SIDES];
static int wraps;

/* Returns whether the call succeeds, and its result is as long as it has to be. */
static int call(int side) {
    EVP_CIPHER_CTX *ctx = EVP_CIPHER_CTX_new();
    const int text_len = row->len + 8;
    int out_len = 0, more = 0;
    int done =
        ctx != NULL && EVP_CipherInit_ex2(ctx, ciphers[side], kek, NULL, wraps, NULL)
        && EVP_CipherUpdate(ctx, out, &out_len, wraps ? key : text, wraps ? row->len : text_len)
        && EVP_CipherFinal_ex(ctx, out + out_len, &more);
    EVP_CIPHER_CTX_free(ctx);
    return done && out_len + more == (wraps ? text_len : row->len);
}

static double turn(int side, unsigned calls) {
    const double start = now();
    for (unsigned i = 0; i < calls; i++)
        if (!call(side)) return 1e18;
    return (now() - start) / calls;
}

/* Returns whether both write the same. The first one makes the wrapped key. */
static int agree(void) {
    for (int i = 0; i < SIDES; i++) {
        if (!call(i)) return 0;
        if (wraps && i == 0) memcpy(text, out, (size_t)row->len + 8);
        if (memcmp(out, wraps ? text : key, (size_t)row->len + (wraps ? 8 : 0))) return 0;
    }
    return 1;
}

int main(int argc, char **argv) {
    if (argc < 2 || !OSSL_PROVIDER_set_default_search_path(NULL, argv[1])) return 2;
    for (size_t i = 0; i < sizeof kek; i++) kek[i] = (uint8_t)(3 * i + 1);
    for (size_t i = 0; i < sizeof key; i++) key[i] = (uint8_t)(7 * i);
    printf("cipher,call,key,default_ns,keywrap_ns\n");
    for (row = ROWS; row < ROWS + sizeof ROWS / sizeof *ROWS; row++) {
        for (int i = 0; i < SIDES; i++) {
            char properties[32];
            snprintf(properties, sizeof properties, "provider=%s", PROVIDERS[i]);
            OSSL_PROVIDER_load(NULL, PROVIDERS[i]);
            ciphers[i] = EVP_CIPHER_fetch(NULL, row->name, properties);
        }
        for (wraps = 1; wraps >= 0; wraps--) {
            double best[SIDES];
            if (!agree()) {
                fprintf(stderr, "%s: a provider is missing, or writes other bytes\n", row->name);
                return 1;
            }
            take_turns(SIDES, turn, ROW_NS, best);
            printf("%s,%s,%d,%.0f,%.0f\n", row->name, wraps ? "wrap" : "unwrap", row->len, best[0],
                   best[1]);
        }
    }
    return 0;
}
