/* wrong_aes.c: c/aes/x86_64.c on a processor whose AES is wrong in one place, if the variable WRONG
 * names one: e or d, to encrypt or to decrypt a block, E or D for the first of many blocks, F or C for
 * the last of them; and the number of rounds. */

#include <stdio.h>
#include <stdlib.h>
#include <string.h>

#define keywrap_aes_encrypt right_encrypt
#define keywrap_aes_decrypt right_decrypt
#define keywrap_aes_encrypt_groups right_encrypt_groups
#define keywrap_aes_decrypt_groups right_decrypt_groups
#include "../../c/aes/x86_64.c"
#undef keywrap_aes_encrypt
#undef keywrap_aes_decrypt
#undef keywrap_aes_encrypt_groups
#undef keywrap_aes_decrypt_groups

void keywrap_aes_encrypt(const uint8_t *schedule, size_t len, uint8_t block[BLOCK]);
void keywrap_aes_decrypt(const uint8_t *schedule, size_t len, uint8_t block[BLOCK]);
void keywrap_aes_encrypt_groups(const uint8_t *schedule, size_t len, uint8_t *blocks,
                                size_t blocks_len);
void keywrap_aes_decrypt_groups(const uint8_t *schedule, size_t len, uint8_t *blocks,
                                size_t blocks_len);

static void spoil(char way, size_t len, uint8_t block[BLOCK]) {
    const char *wrong = getenv("WRONG");
    char place[24];
    snprintf(place, sizeof place, "%c%zu", way, len / BLOCK - 1);
    if (wrong != NULL && strcmp(place, wrong) == 0) block[BLOCK - 1] ^= 1;
}

void keywrap_aes_encrypt(const uint8_t *schedule, size_t len, uint8_t block[BLOCK]) {
    right_encrypt(schedule, len, block);
    spoil('e', len, block);
}

void keywrap_aes_decrypt(const uint8_t *schedule, size_t len, uint8_t block[BLOCK]) {
    right_decrypt(schedule, len, block);
    spoil('d', len, block);
}

void keywrap_aes_encrypt_groups(const uint8_t *schedule, size_t len, uint8_t *blocks,
                                size_t blocks_len) {
    right_encrypt_groups(schedule, len, blocks, blocks_len);
    spoil('E', len, blocks);
    spoil('F', len, blocks + blocks_len - BLOCK);
}

void keywrap_aes_decrypt_groups(const uint8_t *schedule, size_t len, uint8_t *blocks,
                                size_t blocks_len) {
    right_decrypt_groups(schedule, len, blocks, blocks_len);
    spoil('D', len, blocks);
    spoil('C', len, blocks + blocks_len - BLOCK);
}
