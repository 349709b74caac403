/* fsync, rename, fchmod, fchown and statx for tests/test_filesystem.py, built as a shared library that LD_PRELOAD
   names. The program of dist/ asks by fstat, stat and lstat, which count as statx. Each call writes its name to the
   descriptor that MET names. FAIL_CALL=NAME makes each call of that name fail with EIO, FAIL_CALL=NAME:N only the Nth,
   and NAME:N+ each from the Nth on. FAIL_ERRNO=N makes it fail with that error. ONE_MODE=N adds the bits of N to the
   mode of each open file, as a file system without modes does. No header is included, since the kit's compiler has
   none. */

extern char *getenv(const char *name);
extern int strncmp(const char *one, const char *other, unsigned long count);
extern unsigned long strlen(const char *text);
extern long write(int descriptor, const void *bytes, unsigned long count);
extern long syscall(long number, ...);
extern int *__errno_location(void);

enum {
    EIO = 5,
    SYS_FSYNC = 74,
    SYS_RENAME = 82,
    SYS_FCHMOD = 91,
    SYS_FCHOWN = 93,
    SYS_STATX = 332,
    MODE = 28,
    SYS_STAT = 4,
    SYS_FSTAT = 5,
    SYS_LSTAT = 6,
    MODE_OF_STAT = 24
};

static long number(const char *digits) {
    long value = 0;
    for (; *digits && *digits != '+'; digits++)
        value = *digits == ':' ? 0 : 10 * value + (*digits - '0');
    return value;
}

static int fails(const char *name, long call) {
    const char *wish = getenv("FAIL_CALL");
    const char *error = getenv("FAIL_ERRNO");
    unsigned long length = strlen(name);
    long wanted;
    (void)!write((int)number(getenv("MET")), name, length);
    (void)!write((int)number(getenv("MET")), "\n", 1);
    if (!wish || strncmp(wish, name, length) != 0) return 0;
    wanted = number(wish + length);
    if (wanted != 0 && (wish[strlen(wish) - 1] == '+' ? wanted > call : wanted != call)) return 0;
    *__errno_location() = error ? (int)number(error) : EIO;
    return 1;
}

int fsync(int descriptor) {
    static long calls;
    return fails("fsync", ++calls) ? -1 : (int)syscall(SYS_FSYNC, descriptor);
}

int rename(const char *from, const char *to) {
    static long calls;
    return fails("rename", ++calls) ? -1 : (int)syscall(SYS_RENAME, from, to);
}

int fchmod(int descriptor, unsigned mode) {
    static long calls;
    return fails("fchmod", ++calls) ? -1 : (int)syscall(SYS_FCHMOD, descriptor, mode);
}

int fchown(int descriptor, unsigned owner, unsigned group) {
    static long calls;
    return fails("fchown", ++calls) ? -1 : (int)syscall(SYS_FCHOWN, descriptor, owner, group);
}

static long asked;

int statx(int directory, const char *path, int flags, unsigned mask, void *found) {
    if (fails("statx", ++asked) || syscall(SYS_STATX, directory, path, flags, mask, found) != 0)
        return -1;
    if (!*path && getenv("ONE_MODE"))
        *(unsigned short *)((char *)found + MODE) |= (unsigned short)number(getenv("ONE_MODE"));
    return 0;
}

int stat64(const char *path, void *found) {
    return fails("statx", ++asked) ? -1 : (int)syscall(SYS_STAT, path, found);
}

int lstat64(const char *path, void *found) {
    return fails("statx", ++asked) ? -1 : (int)syscall(SYS_LSTAT, path, found);
}

int fstat64(int descriptor, void *found) {
    if (fails("statx", ++asked) || syscall(SYS_FSTAT, descriptor, found) != 0) return -1;
    if (getenv("ONE_MODE"))
        *(unsigned *)((char *)found + MODE_OF_STAT) |= (unsigned)number(getenv("ONE_MODE"));
    return 0;
}

/* Their names where off_t has 64 bits anyway. */
int stat(const char *path, void *found) {
    return stat64(path, found);
}

int lstat(const char *path, void *found) {
    return lstat64(path, found);
}

int fstat(int descriptor, void *found) {
    return fstat64(descriptor, found);
}
