/* vectors.c: wraps and unwraps the vectors of RFC 3394 and RFC 5649, and sees that a damaged wrapped
 * key is refused. Prints what is right or wrong. Exits with 0 if all is right, otherwise with the number
 * of the wrong vector, or with 9 if the self test of the library fails. */

#include "keywrap.h"

#include <stdio.h>
#include <string.h>

enum { LONGEST = 40 };

struct vector {
    int padded;
    const char *kek, *key, *wrapped;
};

#define KEK16 "000102030405060708090a0b0c0d0e0f"
#define KEK24 KEK16 "1011121314151617"
#define KEK32 KEK24 "18191a1b1c1d1e1f"
#define KEY16 "00112233445566778899aabbccddeeff"
#define KEK_5649 "5840df6e29b02af1ab493b705bf16ea1ae8338f4dcc176a8"

static const struct vector VECTORS[] = {
    {0, KEK16, KEY16, "1fa68b0a8112b447aef34bd8fb5a7b829d3e862371d2cfe5"},
    {0, KEK24, KEY16, "96778b25ae6ca435f92b5b97c050aed2468ab8a17ad84e5d"},
    {0, KEK32, KEY16, "64e8c3f9ce0f5ba263e9777905818a2a93c8191e7d6e8ae7"},
    {0, KEK24, KEY16 "0001020304050607",
     "031d33264e15d33268f24ec260743edce1c6c7ddee725a936ba814915c6762d2"},
    {0, KEK32, KEY16 "0001020304050607",
     "a8f9bc1612c68b3ff6e6f4fbe30e71e4769c8b80a32cb8958cd5d17d6b254da1"},
    {0, KEK32, KEY16 "000102030405060708090a0b0c0d0e0f",
     "28c9f404c4b810f4cbccb35cfb87f8263f5786e2d80ed326cbc7f0e71a99f43bfb988b9b7a02dd21"},
    {1, KEK_5649, "c37b7e6492584340bed12207808941155068f738",
     "138bdeaa9b8fa7fc61f97742e72248ee5ae6ae5360d1ae6a5f54f373fa543b6a"},
    {1, KEK_5649, "466f7250617369", "afbeb0f07dfbf5419200f2ccb50bb24f"},
};

static uint8_t digit(char c) {
    return (uint8_t)(c <= '9' ? c - '0' : c - 'a' + 10);
}

static size_t from_hex(const char *text, uint8_t *bytes) {
    size_t len = strlen(text) / 2;
    for (size_t i = 0; i < len; i++)
        bytes[i] = (uint8_t)(digit(text[2 * i]) << 4 | digit(text[2 * i + 1]));
    return len;
}

static int32_t unwrap(int padded, const uint8_t *kek, size_t kek_len, const uint8_t *wrapped,
                      size_t wrapped_len, uint8_t *key, size_t *key_len) {
    size_t room = KEYWRAP_ROOM(wrapped_len);
    *key_len = room;
    return padded ? keywrap_unwrap_padded(kek, kek_len, wrapped, wrapped_len, key, room, key_len)
                  : keywrap_unwrap(kek, kek_len, wrapped, wrapped_len, key, room);
}

static int is_right(const struct vector *vector) {
    uint8_t kek[32], key[LONGEST], wrapped[LONGEST], found[LONGEST];
    size_t kek_len = from_hex(vector->kek, kek), key_len = from_hex(vector->key, key);
    size_t wrapped_len = from_hex(vector->wrapped, wrapped), found_len;
    int32_t status = vector->padded
                         ? keywrap_wrap_padded(kek, kek_len, key, key_len, found, wrapped_len)
                         : keywrap_wrap(kek, kek_len, key, key_len, found, wrapped_len);
    if (status != KEYWRAP_OK || memcmp(found, wrapped, wrapped_len)) return 0;
    status = unwrap(vector->padded, kek, kek_len, wrapped, wrapped_len, found, &found_len);
    if (status != KEYWRAP_OK || found_len != key_len || memcmp(found, key, key_len)) return 0;
    wrapped[wrapped_len - 1] ^= 1;
    return unwrap(vector->padded, kek, kek_len, wrapped, wrapped_len, found, &found_len)
           == KEYWRAP_INTEGRITY;
}

int main(void) {
    const int count = sizeof VECTORS / sizeof *VECTORS;
    for (int i = 0; i < count; i++)
        if (!is_right(&VECTORS[i])) {
            printf("vector %d of %d: wrong\n", i + 1, count);
            return i + 1;
        }
    if (keywrap_self_test() != KEYWRAP_OK) {
        printf("%d vectors: right; the self test: wrong\n", count);
        return 9;
    }
    printf("%d vectors and the self test: right\n", count);
    return 0;
}
