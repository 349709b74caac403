/* one_table.c: AES with one table a direction, and the loop of the key wrap over it. */

#include "one_table.h"

#include <string.h>

static uint8_t sbox[256], inv_sbox[256];

/* For a byte x: 02 S(x), S(x), S(x), 03 S(x), which joins SubBytes and MixColumns. */
static uint32_t forward[256];

/* For a byte x: 0e x, 09 x, 0d x, 0b x, only for the inverse of MixColumns. */
static uint32_t inverse[256];

static uint8_t product(uint8_t a, uint8_t b) {
    uint8_t sum = 0;
    for (; b; b >>= 1, a = (uint8_t)(a << 1 ^ (a >> 7) * 0x1B))
        if (b & 1) sum ^= a;
    return sum;
}

static uint32_t column(uint8_t a, uint8_t b, uint8_t c, uint8_t d) {
    return (uint32_t)a << 24 | (uint32_t)b << 16 | (uint32_t)c << 8 | d;
}

/* SubBytes of one byte (FIPS 197, 5.1.1): the inverse is the 254th power. */
static uint8_t substituted(uint8_t x) {
    uint8_t power = 1, s;
    for (int i = 0; i < 254; i++) power = product(power, x);
    s = power;
    for (int i = 1; i < 5; i++) s ^= (uint8_t)(power << i | power >> (8 - i));
    return s ^ 0x63;
}

void one_table_start(void) {
    for (int i = 0; i < 256; i++) {
        uint8_t x = (uint8_t)i, s = substituted(x);
        sbox[x] = s;
        inv_sbox[s] = x;
        forward[x] = column(product(s, 2), s, s, product(s, 3));
        inverse[x] = column(product(x, 0x0E), product(x, 9), product(x, 0x0D), product(x, 0x0B));
    }
}

static inline uint64_t pair(uint32_t high, uint32_t low) {
    return (uint64_t)high << 32 | low;
}

static inline uint32_t turned(uint32_t word, int bits) {
    return word >> bits | word << (32 - bits);
}

static inline uint32_t joined(const uint8_t *box, uint32_t a, uint32_t b, uint32_t c, uint32_t d) {
    return column(box[a >> 24], box[b >> 16 & 255], box[c >> 8 & 255], box[d & 255]);
}

static inline uint32_t mixed(const uint32_t *table, uint32_t a, uint32_t b, uint32_t c,
                             uint32_t d) {
    return table[a >> 24] ^ turned(table[b >> 16 & 255], 8) ^ turned(table[c >> 8 & 255], 16)
           ^ turned(table[d & 255], 24);
}

void one_table_schedule(struct one_table *keys, const uint8_t *kek, size_t kek_len) {
    int nk = (int)(kek_len / 4);
    uint32_t *w = keys->words;
    uint8_t rcon = 1;
    keys->rounds = nk + 6;
    for (int i = 0; i < nk; i++, kek += 4) w[i] = column(kek[0], kek[1], kek[2], kek[3]);
    for (int i = nk; i < 4 * (keys->rounds + 1); i++) {
        uint32_t t = w[i - 1];
        if (i % nk == 0) {
            t = turned(t, 24);
            t = joined(sbox, t, t, t, t) ^ (uint32_t)rcon << 24;
            rcon = product(rcon, 2);
        } else if (nk > 6 && i % nk == 4) {
            t = joined(sbox, t, t, t, t);
        }
        w[i] = w[i - nk] ^ t;
    }
}

static inline void encrypt(const struct one_table *keys, uint64_t *high, uint64_t *low) {
    const uint32_t *k = keys->words, *end = k + 4 * keys->rounds;
    uint32_t a = (uint32_t)(*high >> 32) ^ k[0], b = (uint32_t)*high ^ k[1];
    uint32_t c = (uint32_t)(*low >> 32) ^ k[2], d = (uint32_t)*low ^ k[3];
    for (k += 4; k < end; k += 4) {
        uint32_t e = mixed(forward, a, b, c, d) ^ k[0], f = mixed(forward, b, c, d, a) ^ k[1];
        uint32_t g = mixed(forward, c, d, a, b) ^ k[2], h = mixed(forward, d, a, b, c) ^ k[3];
        a = e, b = f, c = g, d = h;
    }
    *high = pair(joined(sbox, a, b, c, d) ^ k[0], joined(sbox, b, c, d, a) ^ k[1]);
    *low = pair(joined(sbox, c, d, a, b) ^ k[2], joined(sbox, d, a, b, c) ^ k[3]);
}

/* AddRoundKey between the byte table and the table of the inverse of MixColumns: so both directions
 * have one schedule. */
static inline void decrypt(const struct one_table *keys, uint64_t *high, uint64_t *low) {
    const uint32_t *k = keys->words + 4 * keys->rounds;
    uint32_t a = (uint32_t)(*high >> 32) ^ k[0], b = (uint32_t)*high ^ k[1];
    uint32_t c = (uint32_t)(*low >> 32) ^ k[2], d = (uint32_t)*low ^ k[3];
    for (k -= 4; k > keys->words; k -= 4) {
        uint32_t e = joined(inv_sbox, a, d, c, b) ^ k[0], f = joined(inv_sbox, b, a, d, c) ^ k[1];
        uint32_t g = joined(inv_sbox, c, b, a, d) ^ k[2], h = joined(inv_sbox, d, c, b, a) ^ k[3];
        a = mixed(inverse, e, e, e, e), b = mixed(inverse, f, f, f, f);
        c = mixed(inverse, g, g, g, g), d = mixed(inverse, h, h, h, h);
    }
    *high = pair(joined(inv_sbox, a, d, c, b) ^ k[0], joined(inv_sbox, b, a, d, c) ^ k[1]);
    *low = pair(joined(inv_sbox, c, b, a, d) ^ k[2], joined(inv_sbox, d, c, b, a) ^ k[3]);
}

void one_table_encrypt(const struct one_table *keys, uint64_t *high, uint64_t *low) {
    encrypt(keys, high, low);
}

void one_table_decrypt(const struct one_table *keys, uint64_t *high, uint64_t *low) {
    decrypt(keys, high, low);
}

uint64_t load_word(const uint8_t *bytes) {
    return pair(column(bytes[0], bytes[1], bytes[2], bytes[3]),
                column(bytes[4], bytes[5], bytes[6], bytes[7]));
}

void store_word(uint8_t *bytes, uint64_t word) {
    for (int i = 0; i < 8; i++) bytes[i] = (uint8_t)(word >> (56 - 8 * i));
}

void one_table_wrap(const struct one_table *keys, uint64_t a, const uint8_t *key, size_t len,
                    uint8_t *text) {
    uint64_t t = 0;
    memcpy(text + 8, key, len);
    for (int j = 0; j < 6; j++)
        for (size_t at = 8; at <= len; at += 8) {
            uint64_t word = load_word(text + at);
            encrypt(keys, &a, &word);
            a ^= ++t;
            store_word(text + at, word);
        }
    store_word(text, a);
}

uint64_t one_table_unwrap(const struct one_table *keys, const uint8_t *text, uint8_t *key,
                          size_t len) {
    uint64_t t = 6 * (len / 8), a = load_word(text);
    memcpy(key, text + 8, len);
    for (int j = 0; j < 6; j++)
        for (size_t at = len; at > 0; at -= 8) {
            uint64_t word = load_word(key + at - 8);
            a ^= t--;
            decrypt(keys, &a, &word);
            store_word(key + at - 8, word);
        }
    return a;
}
