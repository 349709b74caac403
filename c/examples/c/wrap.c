/* wrap.c: what a caller does, on vectors of RFC 3394 and RFC 5649.
 *
 *     cc wrap.c $(pkg-config --cflags --libs keywrap) -o wrap */

#include <keywrap.h>
#include <stdio.h>
#include <string.h>

static void print(const char *what, int32_t status, const uint8_t *bytes, size_t len) {
    char says[80];
    keywrap_status_text(status, says, sizeof says);
    printf("%s: %s", what, says);
    for (size_t i = 0; i < len && status == KEYWRAP_OK; i++)
        printf("%s%02x", i == 0 ? ": " : "", bytes[i]);
    printf("\n");
}

/* Two buffers: one for the wrapped key, and one for the key. */
static int two_buffers(const uint8_t *kek, size_t kek_len, const uint8_t key[16]) {
    uint8_t wrapped[KEYWRAP_TEXT_LEN(16)], back[16];
    int32_t status = keywrap_wrap(kek, kek_len, key, 16, wrapped, sizeof wrapped);
    print("wrap", status, wrapped, sizeof wrapped);
    if (status != KEYWRAP_OK) return 0;

    status = keywrap_unwrap(kek, kek_len, wrapped, sizeof wrapped, back, sizeof back);
    print("unwrap", status, back, sizeof back);
    if (status != KEYWRAP_OK || memcmp(back, key, sizeof back) != 0) return 0;

    wrapped[3] ^= 1;
    status = keywrap_unwrap(kek, kek_len, wrapped, sizeof wrapped, back, sizeof back);
    print("unwrap a damaged wrapped key", status, back, sizeof back);
    return status == KEYWRAP_INTEGRITY; /* and `back` is all zeros */
}

/* A key of any length. An unwrap removes its padding. */
static int padded(const uint8_t *kek, size_t kek_len, const uint8_t key[7]) {
    uint8_t wrapped[KEYWRAP_PADDED_TEXT_LEN(7)], back[KEYWRAP_ROOM(sizeof wrapped)];
    size_t key_len;
    int32_t status = keywrap_wrap_padded(kek, kek_len, key, 7, wrapped, sizeof wrapped);
    print("wrap, padded", status, wrapped, sizeof wrapped);
    if (status != KEYWRAP_OK) return 0;

    status =
        keywrap_unwrap_padded(kek, kek_len, wrapped, sizeof wrapped, back, sizeof back, &key_len);
    print("unwrap, padded", status, back, key_len);
    return status == KEYWRAP_OK && key_len == 7 && memcmp(back, key, 7) == 0;
}

/* An initial value that both ends agreed on, and one that is refused. */
static int agreed(const uint8_t *kek, size_t kek_len, const uint8_t key[16]) {
    static const uint8_t iv[8] = {0x01, 0x23, 0x45, 0x67, 0x89, 0xAB, 0xCD, 0xEF};
    static const uint8_t reserved[8] = {0xA6, 0x59, 0x59, 0xA6, 0, 0, 0, 16};
    uint8_t wrapped[KEYWRAP_TEXT_LEN(16)];
    int32_t status = keywrap_wrap_with(kek, kek_len, iv, 8, key, 16, wrapped, sizeof wrapped);
    print("wrap under a value", status, wrapped, sizeof wrapped);
    if (status != KEYWRAP_OK) return 0;

    status = keywrap_wrap_with(kek, kek_len, reserved, 8, key, 16, wrapped, sizeof wrapped);
    print("wrap under a reserved value", status, wrapped, sizeof wrapped);
    return status == KEYWRAP_BAD_IV;
}

/* One buffer for both: the key begins 8 bytes after its start. */
static int in_place(const uint8_t *kek, size_t kek_len, const uint8_t key[16]) {
    uint8_t buffer[KEYWRAP_TEXT_LEN(16)];
    int32_t status;
    memcpy(buffer + 8, key, 16);
    status = keywrap_wrap_in_place(kek, kek_len, buffer, sizeof buffer);
    print("wrap in place", status, buffer, sizeof buffer);
    if (status != KEYWRAP_OK) return 0;

    status = keywrap_unwrap_in_place(kek, kek_len, buffer, sizeof buffer);
    print("unwrap in place", status, buffer + 8, 16);
    return status == KEYWRAP_OK && memcmp(buffer + 8, key, 16) == 0;
}

int main(void) {
    static const uint8_t kek[24] = {0,  1,  2,  3,  4,  5,  6,  7,  8,  9,  10, 11,
                                    12, 13, 14, 15, 16, 17, 18, 19, 20, 21, 22, 23};
    static const uint8_t key[16] = {0x00, 0x11, 0x22, 0x33, 0x44, 0x55, 0x66, 0x77,
                                    0x88, 0x99, 0xAA, 0xBB, 0xCC, 0xDD, 0xEE, 0xFF};
    static const uint8_t kek_5649[24] = {0x58, 0x40, 0xDF, 0x6E, 0x29, 0xB0, 0x2A, 0xF1,
                                         0xAB, 0x49, 0x3B, 0x70, 0x5B, 0xF1, 0x6E, 0xA1,
                                         0xAE, 0x83, 0x38, 0xF4, 0xDC, 0xC1, 0x76, 0xA8};
    static const uint8_t key_5649[7] = {0x46, 0x6F, 0x72, 0x50, 0x61, 0x73, 0x69};
    return two_buffers(kek, sizeof kek, key) && padded(kek_5649, sizeof kek_5649, key_5649)
                   && agreed(kek, sizeof kek, key) && in_place(kek, sizeof kek, key)
               ? 0
               : 1;
}
