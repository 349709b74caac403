/* A malloc and a realloc that fail at one call, for tests/test_allocations.py, built as a shared
   library that LD_PRELOAD names. FAIL_ALLOC=N makes the Nth call fail, and FAIL_ALLOC=N+ each
   call from the Nth on. If a call fails, a byte goes to the descriptor that MET names.
   The GNU C library exports its own functions under names that begin with __libc_. No header is
   included, since the kit's compiler has none. */

typedef __SIZE_TYPE__ size_t;

extern void *__libc_malloc(size_t size);
extern void *__libc_realloc(void *old, size_t size);
extern char *getenv(const char *name);
extern long write(int descriptor, const void *bytes, size_t count);

static long calls, first;
static int all, met;

static void read_wish(void) {
    const char *digit = getenv("FAIL_ALLOC");
    while (digit && *digit >= '0' && *digit <= '9') first = 10 * first + (*digit++ - '0');
    all = digit && *digit == '+';
    for (digit = getenv("MET"); digit && *digit; digit++) met = 10 * met + (*digit - '0');
}

static int fails(void) {
    if (calls++ == 0) read_wish();
    int fails = calls == first || (all && calls > first);
    if (fails) (void)!write(met, ".", 1);
    return fails;
}

void *malloc(size_t size) {
    return fails() ? 0 : __libc_malloc(size);
}

void *realloc(void *old, size_t size) {
    return fails() ? 0 : __libc_realloc(old, size);
}
