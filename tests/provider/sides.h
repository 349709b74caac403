/* sides.h: the ciphers of two providers, each call of which is made in both: the default one of
 * OpenSSL, and ours. Every call writes its result into the record of its side, and compare()
 * compares the two records. */

#ifndef SIDES_H
#define SIDES_H

#include <openssl/evp.h>
#include <openssl/provider.h>
#include <stddef.h>
#include <stdint.h>

enum { CIPHERS = 6, ARENA = 1024, RECORD = 1 << 16, INSIDE = 384 };

extern const char *const CIPHER_NAMES[CIPHERS];

struct side {
    const char *name;
    OSSL_PROVIDER *provider;
    EVP_CIPHER *ciphers[CIPHERS];
    EVP_CIPHER_CTX *ctx;
    uint8_t record[RECORD];
    size_t recorded;
};

/* The default provider, and ours. */
extern struct side sides[2];
enum { THEIRS, OURS };

extern unsigned passed, failed;

/* Counts a check, and prints the first that fail. */
void check(int right, const char *format, ...);

/* Whether cipher number `which` has the padded form, and the length of its KEK. */
int is_padded(int which);
int kek_len(int which);

/* The reason of the oldest error, 0 if none is there; the queue is empty then. */
int first_reason(void);

void record_bytes(struct side *side, const void *bytes, size_t len);
void record_number(struct side *side, long number);

/* An update: where its input and its output lie in the side's arena, and how long the input is. */
struct place {
    int in, out, out_null;
};

/* Begins, as EVP_CipherInit_ex; `which` is the cipher, or -1 to keep it. */
void begin(struct side *side, int which, const uint8_t *kek, const uint8_t *iv, int wraps);

/* Updates over an arena filled with `fill`, and records the result and the whole arena. With `once`
 * it calls EVP_Cipher. Returns the length, or -1 after a refusal. The output goes to `got`. */
int run_update(struct side *side, struct place place, const uint8_t *input, int len, int once,
               uint8_t *got);

void run_final(struct side *side);

/* Compares the records of both sides after the same calls. */
void compare(const char *format, ...);

/* The next number of a sequence of pseudo-random ones, and one below the limit. */
uint32_t number(void);
unsigned below(unsigned limit);
void fill(uint8_t *bytes, size_t len);
void seed(uint64_t with);

/* The parts: what main calls. */
void try_lengths(void);
void try_sequences(unsigned count);
void try_parameters(void);
void try_refusals(int few);

#endif
