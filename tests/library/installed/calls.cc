/* calls.cc: links only if the library has every call, whose names tests/test_library.py writes to names.h.
 * Prints the wrapped key of RFC 3394, 4.1. */

#include <cstdio>
#include <keywrap.h>
#include <keywrap_steps.h>

volatile void *calls[] = {
#include "names.h"
};

int main() {
    uint8_t kek[16], key[16], wrapped[KEYWRAP_TEXT_LEN(16)];
    for (unsigned i = 0; i < 16; i++) kek[i] = uint8_t(i), key[i] = uint8_t(0x11 * i);
    if (keywrap_wrap(kek, 16, key, 16, wrapped, sizeof wrapped) != KEYWRAP_OK) return 1;
    for (uint8_t byte : wrapped) std::printf("%02x", byte);
}
