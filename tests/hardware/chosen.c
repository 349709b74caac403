/* chosen.c: writes which AES libkeywrap_hw chooses on this processor. */

#include <stdio.h>

#include "../../c/aes/aes.h"

int main(void) {
    puts(keywrap_aes_available() ? "instructions" : "software");
    return 0;
}
