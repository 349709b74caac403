/* no_aes.c: replaces getauxval of the C library: this processor has all of Armv8.0 except AES. */

unsigned long getauxval(unsigned long type);

/* AT_HWCAP, with these of its bits (asm/hwcap.h): FP, ASIMD, PMULL, SHA1, SHA2 and CRC32. */
unsigned long getauxval(unsigned long type) {
    return type == 16 ? 0xf3 : 0;
}
