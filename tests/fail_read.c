/* A read for the tests of --lines, built as a shared library that LD_PRELOAD names. FAIL_READ=N makes the Nth call
   fail with EIO, and then a byte goes to the descriptor that MET names. SLOW_READ=N makes each call wait N
   milliseconds. HOLD_READ=N makes a call wait, once N bytes were read, until there is a file `go`. KEEP_READ=N keeps N
   bytes of memory for each 33 that a call reads, and a call fails if there are none. With TICK_READ=N the clock that
   nobody sets only goes on by N milliseconds in each call, whatever the machine does. No header is included, since the
   kit's compiler has none. */

extern char *getenv(const char *name);
extern void *malloc(unsigned long size);
extern int usleep(unsigned microseconds);
extern int access(const char *name, int mode);
extern long write(int descriptor, const void *bytes, unsigned long count);
extern long syscall(long number, ...);
extern int *__errno_location(void);

enum { EIO = 5, SYS_READ = 0, SYS_CLOCK_GETTIME = 228, MONOTONIC = 1 };

static long calls;

static long wish(const char *name) {
    const char *digit = getenv(name);
    long number = 0;
    while (digit && *digit >= '0' && *digit <= '9') number = 10 * number + (*digit++ - '0');
    return number;
}

long read(int descriptor, void *bytes, unsigned long count) {
    static long all;
    static void *volatile kept;
    usleep(1000 * (unsigned)wish("SLOW_READ"));
    while (wish("HOLD_READ") && all >= wish("HOLD_READ") && access("go", 0)) usleep(10000);
    if (++calls != wish("FAIL_READ")) {
        long got = syscall(SYS_READ, descriptor, bytes, count),
             keep = got > 0 ? got * wish("KEEP_READ") / 33 : 0;
        all += got > 0 ? got : 0;
        if (!keep || (kept = malloc((unsigned long)keep))) return got;
    }
    (void)!write((int)wish("MET"), ".", 1);
    *__errno_location() = EIO;
    return -1;
}

struct time {
    long seconds, nanoseconds;
};

int clock_gettime(int clock, struct time *now) {
    long tick = wish("TICK_READ"), milliseconds = calls * tick;
    if (!tick || clock != MONOTONIC) return (int)syscall(SYS_CLOCK_GETTIME, clock, now);
    now->seconds = milliseconds / 1000;
    now->nanoseconds = milliseconds % 1000 * 1000000;
    return 0;
}
