/* The functions that clang calls for long copies, by the instructions of WebAssembly. */
#include <stddef.h>

void *memset(void *to, int value, size_t n) {
    return __builtin_memset(to, value, n);
}
void *memcpy(void *to, const void *from, size_t n) {
    return __builtin_memcpy(to, from, n);
}
void *memmove(void *to, const void *from, size_t n) {
    return __builtin_memmove(to, from, n);
}
