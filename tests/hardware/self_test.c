/* self_test.c: writes what keywrap_self_test returns before and after the AES of wrong_aes.c becomes
 * wrong. */

#define _POSIX_C_SOURCE 200112L

#include <keywrap.h>
#include <stdio.h>
#include <stdlib.h>

int main(void) {
    int before = keywrap_self_test();
    if (setenv("WRONG", "d12", 1) != 0) return 1;
    printf("%d %d\n", before, (int)keywrap_self_test());
    return 0;
}
