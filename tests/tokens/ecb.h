/* ecb.h: AES-ECB under two KEKs in a token. */

#include <stddef.h>
#include <stdint.h>

/* Opens the token, and puts two KEKs of 64 hex digits into it, the old one and the new one. */
void ecb_open(const char *old_kek, const char *new_kek);

/* Encrypts or decrypts len bytes under one of them. Returns 0, or -1 if the token fails. */
int ecb_crypt(int is_new, int decrypts, const uint8_t *src, uint8_t *dst, size_t len);

/* How many calls there were, and how many blocks they had. */
unsigned long ecb_calls(void);
unsigned long ecb_blocks(void);
