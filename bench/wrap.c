/* wrap.c: measures how long the library takes, and other libraries and the same algorithm in C:
 * for a wrap and an unwrap, each with its key schedule, and with a kept one for a short key, and for
 * a rewrap, where nettle keeps its schedules. First all must return the same bytes. Then the best
 * time of each counts. bench/wrap.sh compiles and runs it. Writes CSV.
 *
 * usage: wrap [SECONDS]       (SECONDS for wraps and unwraps; without it, rewraps) */

#define OPENSSL_SUPPRESS_DEPRECATED

#include "turns.h"

#include <gcrypt.h>
#include <keywrap.h>
#include <nettle/aes.h>
#include <nettle/nist-keywrap.h>
#include <openssl/aes.h>
#include <stdio.h>
#include <stdlib.h>
#include <string.h>

#include "one_table.h"

enum { KEK_LEN = 32 };
static const uint8_t INITIAL_VALUE[8] = {0xA6, 0xA6, 0xA6, 0xA6, 0xA6, 0xA6, 0xA6, 0xA6};

static uint8_t kek[KEK_LEN], new_kek[KEK_LEN], key[KEYWRAP_MAX_KEY], answer[KEYWRAP_MAX_TEXT];
static uint8_t kept[KEYWRAP_KEK_LEN(KEK_LEN)];
static struct aes256_ctx decrypting, encrypting;

/*** Wraps and unwraps ***/

/* A call with the arguments of keywrap_wrap or keywrap_unwrap, which returns 0 after success. */
#define CALL(name)                                                                     \
    int32_t name(const uint8_t *kek, size_t kek_len, const uint8_t *in, size_t in_len, \
                 uint8_t *out, size_t out_len)
typedef CALL(wrap_call);

/* The calls of other builds of the library, renamed by bench/wrap.sh. */
wrap_call portable_wrap, portable_unwrap, portable_hw_wrap, portable_hw_unwrap, hw_wrap, hw_unwrap;

static CALL(openssl_wrap) {
    AES_KEY keys;
    return AES_set_encrypt_key(kek, 8 * (int)kek_len, &keys)
           || AES_wrap_key(&keys, NULL, out, in, (unsigned)in_len) != (int)out_len;
}

static CALL(openssl_unwrap) {
    AES_KEY keys;
    return AES_set_decrypt_key(kek, 8 * (int)kek_len, &keys)
           || AES_unwrap_key(&keys, NULL, out, in, (unsigned)in_len) != (int)out_len;
}

static CALL(nettle_wrap) {
    struct aes256_ctx keys;
    aes256_set_encrypt_key(&keys, kek);
    nist_keywrap16(&keys, (nettle_cipher_func *)aes256_encrypt, INITIAL_VALUE, out_len, out, in);
    return 0;
}

static CALL(nettle_unwrap) {
    struct aes256_ctx keys;
    aes256_set_decrypt_key(&keys, kek);
    return !nist_keyunwrap16(&keys, (nettle_cipher_func *)aes256_decrypt, INITIAL_VALUE, out_len,
                             out, in);
}

static CALL(nettle_kept_wrap) {
    nist_keywrap16(&encrypting, (nettle_cipher_func *)aes256_encrypt, INITIAL_VALUE, out_len, out,
                   in);
    return 0;
}

static CALL(nettle_kept_unwrap) {
    return !nist_keyunwrap16(&decrypting, (nettle_cipher_func *)aes256_decrypt, INITIAL_VALUE,
                             out_len, out, in);
}

#define GCRYPT(name, crypt)                                                                     \
    static CALL(name) {                                                                         \
        gcry_cipher_hd_t handle = NULL;                                                         \
        int failed = gcry_cipher_open(&handle, GCRY_CIPHER_AES256, GCRY_CIPHER_MODE_AESWRAP, 0) \
                     || gcry_cipher_setkey(handle, kek, kek_len)                                \
                     || crypt(handle, out, out_len, in, in_len);                                \
        gcry_cipher_close(handle);                                                              \
        return failed;                                                                          \
    }
GCRYPT(gcrypt_wrap, gcry_cipher_encrypt)
GCRYPT(gcrypt_unwrap, gcry_cipher_decrypt)

static CALL(one_table_wraps) {
    struct one_table keys;
    one_table_schedule(&keys, kek, kek_len);
    one_table_wrap(&keys, 0xA6A6A6A6A6A6A6A6u, in, in_len, out);
    return 0;
}

static CALL(one_table_unwraps) {
    struct one_table keys;
    one_table_schedule(&keys, kek, kek_len);
    return one_table_unwrap(&keys, in, out, out_len) != 0xA6A6A6A6A6A6A6A6u;
}

/* `blocks` is how a block is computed, if the processor has AES instructions. The calls are a wrap and an
 * unwrap, then both with a kept KEK or schedule. */
static const struct peer {
    const char *name, *blocks;
    wrap_call *calls[4];
} PEERS[] = {
    {"keywrap", "software", {keywrap_wrap, keywrap_unwrap, keywrap_wrap, keywrap_unwrap}},
    {"hardware", "AES inst.", {hw_wrap, hw_unwrap, hw_wrap, hw_unwrap}},
    {"portable", "software", {portable_wrap, portable_unwrap, portable_wrap, portable_unwrap}},
    {"portable_hw",
     "AES inst.",
     {portable_hw_wrap, portable_hw_unwrap, portable_hw_wrap, portable_hw_unwrap}},
    /* Neither this call of OpenSSL nor a wrap by EVP uses AES instructions. */
    {"openssl", "software", {openssl_wrap, openssl_unwrap}},
    {"nettle", "AES inst.", {nettle_wrap, nettle_unwrap, nettle_kept_wrap, nettle_kept_unwrap}},
    {"gcrypt", "AES inst.", {gcrypt_wrap, gcrypt_unwrap}},
    {"C", "software", {one_table_wraps, one_table_unwraps}},
};

/* The lengths of the keys: the first only with a kept KEK. The last is the longest that the library takes. */
static const size_t LENS[] = {16, 32, 256, 4096, KEYWRAP_MAX_KEY};
enum { PEER_COUNT = sizeof PEERS / sizeof *PEERS, LEN_COUNT = sizeof LENS / sizeof *LENS };

/* The wrapped key of each length. */
static uint8_t texts[LEN_COUNT][KEYWRAP_MAX_TEXT];

/* The ways: a call of a peer, for a key of a length, that must make `out` of `in`. */
static struct way {
    const struct peer *peer;
    wrap_call *call;
    int keeps, unwraps;
    size_t len, in_len, out_len;
    const uint8_t *in, *out;
} ways[4 * LEN_COUNT * PEER_COUNT];
static int way_count;

static void add_way(const struct peer *peer, int call, int at) {
    const int unwraps = call % 2;
    const size_t len = LENS[at], lens[] = {len, len + 8};
    const uint8_t *both[] = {key, texts[at]};
    /* Some peers lack some calls. */
    if (peer->calls[call])
        ways[way_count++] =
            (struct way){peer,          peer->calls[call], call > 1,      unwraps,       len,
                         lens[unwraps], lens[!unwraps],    both[unwraps], both[!unwraps]};
}

static double wrap_turn(int w, unsigned calls) {
    const struct way way = ways[w];
    const uint8_t *given = way.keeps ? kept : kek;
    const size_t given_len = way.keeps ? sizeof kept : KEK_LEN;
    const double start = now();
    for (unsigned i = 0; i < calls; i++)
        if (way.call(given, given_len, way.in, way.in_len, answer, way.out_len)) return 1e18;
    return (now() - start) / calls;
}

static int time_wraps(double seconds) {
    static double best[sizeof ways / sizeof *ways];
    for (int at = 0; at < LEN_COUNT; at++)
        if (keywrap_wrap(kek, KEK_LEN, key, LENS[at], texts[at], LENS[at] + 8)) return 1;
    for (int call = 0; call < 4; call++)
        for (int at = 0; at < (call < 2 ? LEN_COUNT : 1); at++)
            for (int p = 0; p < PEER_COUNT; p++) add_way(PEERS + p, call, at);
    for (int w = 0; w < way_count; w++)
        if (wrap_turn(w, 1) >= 1e18 || memcmp(answer, ways[w].out, ways[w].out_len)) {
            fprintf(stderr, "%s: other bytes, at a key of %zu bytes\n", ways[w].peer->name,
                    ways[w].len);
            return 1;
        }
    take_turns(way_count, wrap_turn, seconds * 1e9, best);
    printf("library,blocks,kek,call,key,ns_per_block\n");
    for (int w = 0; w < way_count; w++)
        printf("%s,%s,%d%s,%s,%zu,%.1f\n", ways[w].peer->name,
               __builtin_cpu_supports("aes") ? ways[w].peer->blocks : "software", KEK_LEN,
               ways[w].keeps ? " kept" : "", ways[w].unwraps ? "unwrap" : "wrap", ways[w].len,
               best[w] / (double)(6 * (ways[w].len / 8)));
    return 0;
}

/*** Rewraps ***/

enum { KEYS = 2400, SINGLE = KEYS / 8, LONGEST = 32 + 8 };
typedef __typeof__(keywrap_rewrap) rewrap_call;
typedef __typeof__(keywrap_rewrap_many) rewrap_many_call;
rewrap_call hw_rewrap;
rewrap_many_call hw_rewrap_many;

static uint8_t before[KEYS * LONGEST], buffer[KEYS * LONGEST], wanted[KEYS * LONGEST];
static size_t text_len;
static uint32_t flags;

static int32_t nettle_rewrap(const uint8_t *old_kek, size_t old_kek_len, const uint8_t *new_kek,
                             size_t new_kek_len, uint8_t *text, size_t text_len, uint32_t flags,
                             uint32_t *already) {
    uint8_t unwrapped[LONGEST];
    int done = nist_keyunwrap16(&decrypting, (nettle_cipher_func *)aes256_decrypt, INITIAL_VALUE,
                                text_len - 8, unwrapped, text);
    nist_keywrap16(&encrypting, (nettle_cipher_func *)aes256_encrypt, INITIAL_VALUE, text_len, text,
                   unwrapped);
    return !done;
}

/* Each rewraps this many keys, from the first one on, in a call for all or in a call for each. */
static const struct rewrapper {
    const char *name;
    size_t keys;
    rewrap_many_call *many;
    rewrap_call *one;
} REWRAPPERS[] = {
    {"keywrap_hw, many", KEYS, hw_rewrap_many, NULL},
    {"keywrap_hw, one", SINGLE, NULL, hw_rewrap},
    {"nettle, kept schedules", SINGLE, NULL, nettle_rewrap},
    {"keywrap, many", SINGLE, keywrap_rewrap_many, NULL},
    {"keywrap, one", SINGLE, NULL, keywrap_rewrap},
};

enum { REWRAPPER_COUNT = sizeof REWRAPPERS / sizeof *REWRAPPERS };

/* Returns the nanoseconds a key, of one turn over all keys. Each must make the same of the keys. */
static double rewrap_turn(int w, unsigned calls) {
    static uint8_t statuses[KEYS];
    const struct rewrapper *by = REWRAPPERS + w;
    uint32_t already;
    int32_t failed = 0;
    (void)calls;
    memcpy(buffer, before, KEYS * text_len);
    const double start = now();
    if (by->many)
        failed = by->many(kek, KEK_LEN, new_kek, KEK_LEN, buffer, by->keys * text_len, flags,
                          statuses, by->keys);
    else
        for (size_t i = 0; i < by->keys; i++)
            failed |= by->one(kek, KEK_LEN, new_kek, KEK_LEN, buffer + text_len * i, text_len,
                              flags, &already);
    const double time = (now() - start) / (double)by->keys;
    if (failed || memcmp(buffer, wanted, by->keys * text_len)) {
        fprintf(stderr, "%s: a wrong result\n", by->name);
        exit(1);
    }
    return time;
}

static int time_rewraps(void) {
    double best[REWRAPPER_COUNT];
    aes256_set_encrypt_key(&encrypting, new_kek);
    printf("way,flags,key,ns_per_key\n");
    for (size_t len = 16; len <= 32; len += 16)
        for (flags = 0; flags <= 12; flags += 12) {
            text_len = len + 8;
            for (size_t i = 0, at = 0; i < KEYS; i++, at += text_len)
                if (keywrap_wrap(kek, KEK_LEN, key + i, len, before + at, text_len)
                    || keywrap_wrap(new_kek, KEK_LEN, key + i, len, wanted + at, text_len))
                    return 1;
            take_turns(REWRAPPER_COUNT, rewrap_turn, 1e9, best);
            for (int w = 0; w < REWRAPPER_COUNT; w++)
                printf("\"%s\",%u,%zu,%.0f\n", REWRAPPERS[w].name, flags, len, best[w]);
        }
    return 0;
}

int main(int argc, char **argv) {
    for (size_t i = 0; i < KEK_LEN; i++) kek[i] = (uint8_t)(3 * i + 1), new_kek[i] = (uint8_t)~i;
    for (size_t i = 0; i < sizeof key; i++) key[i] = (uint8_t)(7 * i);
    aes256_set_decrypt_key(&decrypting, kek);
    aes256_set_encrypt_key(&encrypting, kek);
    if (keywrap_kek_init(kek, KEK_LEN, kept, sizeof kept)) return 1;
    one_table_start();
    gcry_check_version(NULL);
    gcry_control(GCRYCTL_DISABLE_SECMEM, 0);
    gcry_control(GCRYCTL_INITIALIZATION_FINISHED, 0);
    return argc > 1 ? time_wraps(atof(argv[1])) : time_rewraps();
}
