/* unaligned.c: the AES with schedules and blocks at each offset from an aligned address, against the example of
 * FIPS 197, appendix C.1. Writes how many offsets are right. */

#include <stdint.h>
#include <stdio.h>
#include <string.h>

#include "../../c/aes/aes.h"

enum { LEN = 176, KEPT = GROUP * BLOCK };

static const uint8_t KEK[BLOCK] = {0, 1, 2, 3, 4, 5, 6, 7, 8, 9, 10, 11, 12, 13, 14, 15};
static const uint8_t PLAIN[BLOCK] = {0x00, 0x11, 0x22, 0x33, 0x44, 0x55, 0x66, 0x77,
                                     0x88, 0x99, 0xaa, 0xbb, 0xcc, 0xdd, 0xee, 0xff};
static const uint8_t WANTED[BLOCK] = {0x69, 0xc4, 0xe0, 0xd8, 0x6a, 0x7b, 0x04, 0x30,
                                      0xd8, 0xcd, 0xb7, 0x80, 0x70, 0xb4, 0xc5, 0x5a};

static int is_right_at(size_t offset) {
    static uint8_t schedules[LEN + BLOCK], memory[KEPT + BLOCK];
    uint8_t *const schedule = schedules + offset, *const blocks = memory + offset;
    keywrap_aes_expand(KEK, sizeof KEK, schedule, LEN);
    memset(blocks, 0, KEPT);
    memcpy(blocks, PLAIN, BLOCK);
    keywrap_aes_encrypt(schedule, LEN, blocks);
    if (memcmp(blocks, WANTED, BLOCK) != 0) return 0;
    keywrap_aes_decrypt(schedule, LEN, blocks);
    if (memcmp(blocks, PLAIN, BLOCK) != 0) return 0;
    keywrap_aes_encrypt_many(schedule, LEN, blocks, KEPT);
    if (memcmp(blocks, WANTED, BLOCK) != 0) return 0;
    keywrap_aes_decrypt_many(schedule, LEN, blocks, KEPT);
    return memcmp(blocks, PLAIN, BLOCK) == 0;
}

int main(void) {
    int right = 0;
    for (size_t offset = 0; offset < BLOCK; offset++) right += is_right_at(offset);
    printf("%d\n", right);
    return 0;
}
