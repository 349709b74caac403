/* evp.c: wraps a key by libkeywrap's steps around OpenSSL's AES, as a KEK in a FIPS module would.
 *
 *     cc evp.c $(pkg-config --cflags --libs keywrap libcrypto) -o evp && ./evp */

#include <keywrap_steps.h>
#include <openssl/evp.h>
#include <stdio.h>

int main(void) {
    static const uint8_t iv[8] = {0xa6, 0xa6, 0xa6, 0xa6, 0xa6, 0xa6, 0xa6, 0xa6};
    uint8_t kek[16], wrapped[8 + 16], block[16];
    uint64_t done;
    int len, ok;
    for (int i = 0; i < 16; i++) {
        kek[i] = (uint8_t)i;
        wrapped[8 + i] = (uint8_t)(0x11 * i);
    }
    EVP_CIPHER_CTX *aes = EVP_CIPHER_CTX_new();
    ok = aes != NULL && EVP_EncryptInit_ex(aes, EVP_aes_128_ecb(), NULL, kek, NULL) == 1
         && keywrap_begin_wrap(iv, 8, wrapped + 8, 16, &done, block) == KEYWRAP_OK;
    while (ok && done < 6 * 16 / 8)
        ok = EVP_EncryptUpdate(aes, block, &len, block, 16) == 1
             && keywrap_step_wrap(wrapped + 8, 16, &done, block) == KEYWRAP_OK;
    ok = ok && keywrap_end_wrap(wrapped, wrapped + 8, 16, done, block) == KEYWRAP_OK;
    EVP_CIPHER_CTX_free(aes);
    if (!ok) return 1;
    for (size_t i = 0; i < sizeof wrapped; i++) printf("%02x", wrapped[i]);
    puts("");
    return 0;
}
