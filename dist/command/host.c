/* host.c: what the program's module needs of the system. The module has the numbers and the layouts of Linux on a
 * 64-bit processor, which this file translates: first what is the same on every system, then POSIX. host_windows.c
 * has Windows. */

#define _GNU_SOURCE /* pipe2 */
#define _FILE_OFFSET_BITS 64
#include <stdio.h>
#include <stddef.h>

#include "host.h"

static ALIGNED u8 memory[SIZE];
u8 *base = memory;

static int arg_count;
static char **args;

/*** Memory ***/

/* Writes whether there is a block, and its address. */
static void give(u64 result, void *block) {
    put(result, 1, block != NULL);
    put(result + 8, 8, ADDRESS(block ? block : memory));
}

/* On every system of the table of platforms malloc aligns blocks to 8 bytes or more, and the module wants no more. The
 * types of C do not show it: on i686 none of them needs more than 4. */
enum { ALIGNED_BY_MALLOC = 8 };

static size_t size_of_block(u64 size, u64 align) {
    if (align > ALIGNED_BY_MALLOC) abort();
    size = size ? size : align;
    return size <= SIZE_MAX ? (size_t)size : SIZE_MAX;
}

void host_rattle_alloc(u64 result, u64 size, u64 align) {
    give(result, malloc(size_of_block(size, align)));
}

void host_rattle_realloc(u64 result, u64 block, u64 old_size, u64 size, u64 align) {
    (void)old_size;
    give(result, realloc(AT(block), size_of_block(size, align)));
}

void host_rattle_dealloc(u64 block) {
    free(AT(block));
}

/*** Arguments and environment ***/

/* Copies a text that fits, and returns its length, -1 if there is none, or -2 if it does not fit. */
static u64 copy_text(const char *text, u64 to, u64 len) {
    size_t size;
    if (!text) return (u64)-1;
    size = strlen(text);
    memcpy(AT(to), text, size < len ? size : (size_t)len);
    return size <= len ? size : (u64)-2;
}

u64 host_rattle_arg(u64 number, u64 to, u64 len) {
    return copy_text(number < (u64)arg_count ? args[number] : NULL, to, len);
}

u64 host_rattle_env(u64 name, u64 to, u64 len) {
    return copy_text(getenv(AT(name)), to, len);
}

/*** Numbers of 128 bits ***/

static void put_pair(u64 to, u64 low, u64 high) {
    put(to, 8, low);
    put(to + 8, 8, high);
}

void host___multi3(u64 result, u64 a, u64 a_high, u64 b, u64 b_high) {
    u64 low = (a & 0xffffffff) * (b & 0xffffffff),
        middle = (a >> 32) * (b & 0xffffffff) + (low >> 32);
    u64 other = (a & 0xffffffff) * (b >> 32) + (middle & 0xffffffff);
    u64 high = (a >> 32) * (b >> 32) + (middle >> 32) + (other >> 32);
    put_pair(result, a * b, high + a * b_high + a_high * b);
}

/*** What the module has, and the program never calls ***/

u64 host_rattle_env_at(u64 number, u64 to, u64 len) {
    (void)number, (void)to, (void)len;
    abort();
}

u32 host_fdatasync(u32 file) {
    (void)file;
    abort();
}

u32 host_ftruncate(u32 file, u64 len) {
    (void)file, (void)len;
    abort();
}

u32 host_flock(u32 file, u32 operation) {
    (void)file, (void)operation;
    abort();
}

void host___ashlti3(u64 result, u64 low, u64 high, u32 by) {
    (void)result, (void)low, (void)high, (void)by;
    abort();
}

void host___lshrti3(u64 result, u64 low, u64 high, u32 by) {
    (void)result, (void)low, (void)high, (void)by;
    abort();
}

/*** The program ***/

#ifdef _WIN32
/* The module's message names the key that ends a typed input on POSIX. */
static void name_the_key_of_windows(void) {
    static const char MESSAGE[] = "; Ctrl-D ends it";
    for (size_t at = TOP; at + sizeof MESSAGE <= SIZE; at++)
        if (!memcmp(memory + at, MESSAGE, sizeof MESSAGE - 1)) {
            memory[at + sizeof "; Ctrl-" - 1] = 'Z';
            return;
        }
    abort();
}
#endif

int run_program(int count, char **words) {
    static const char BUILD[] = "built from C (dist/command)\n";
    int status;
    arg_count = count;
    args = words;
    memcpy(memory + TOP, constants, sizeof constants);
#ifdef _WIN32
    name_the_key_of_windows();
#endif
    status = (int)module_main(0, 0);
    /* After `--version` alone a second line says which build this is. */
    if (status == 0 && count == 2 && (!strcmp(words[1], "--version") || !strcmp(words[1], "-V"))
        && host_write(1, ADDRESS(BUILD), sizeof BUILD - 1) != sizeof BUILD - 1)
        status = 6;
    return status;
}

#ifndef _WIN32

#include <errno.h>
#include <fcntl.h>
#include <limits.h>
#include <signal.h>
#include <sys/stat.h>
#include <time.h>
#include <unistd.h>

/* KEYWRAP_HOST_NOT_LINUX compiles on Linux what other systems get, so that it can be tested there. */
#if defined(__linux__) && !defined(KEYWRAP_HOST_NOT_LINUX)
#define IS_LINUX 1
#else
#define IS_LINUX 0
#endif

#ifndef O_CLOEXEC
#error "O_CLOEXEC is missing: a child would inherit the descriptor of the KEK"
#endif

/*** Errors of POSIX ***/

/* The number of an error on Linux, and here. */
static const struct {
    int linux_number, number;
} errors[] = {
    {1, EPERM},       {2, ENOENT},    {3, ESRCH},       {4, EINTR},        {5, EIO},
    {6, ENXIO},       {7, E2BIG},     {8, ENOEXEC},     {9, EBADF},        {10, ECHILD},
    {11, EAGAIN},     {12, ENOMEM},   {13, EACCES},     {14, EFAULT},      {16, EBUSY},
    {17, EEXIST},     {18, EXDEV},    {19, ENODEV},     {20, ENOTDIR},     {21, EISDIR},
    {22, EINVAL},     {23, ENFILE},   {24, EMFILE},     {25, ENOTTY},      {26, ETXTBSY},
    {27, EFBIG},      {28, ENOSPC},   {29, ESPIPE},     {30, EROFS},       {31, EMLINK},
    {32, EPIPE},      {33, EDOM},     {34, ERANGE},     {35, EDEADLK},     {36, ENAMETOOLONG},
    {37, ENOLCK},     {38, ENOSYS},   {39, ENOTEMPTY},  {40, ELOOP},       {75, EOVERFLOW},
    {84, EILSEQ},     {88, ENOTSOCK}, {95, EOPNOTSUPP}, {104, ECONNRESET}, {107, ENOTCONN},
    {110, ETIMEDOUT}, {116, ESTALE},  {122, EDQUOT},    {125, ECANCELED},
#ifdef ENOTBLK
    {15, ENOTBLK},
#endif
};
enum { ERRORS = sizeof errors / sizeof *errors, OTHERS = 4096 };

/* 0 is no error on any system. Other errors keep their numbers on Linux. Elsewhere they get numbers that no error of
 * Linux has. */
static u32 to_linux(int number) {
    if (number == 0) return 0;
    for (int i = 0; i < ERRORS; i++)
        if (errors[i].number == number) return (u32)errors[i].linux_number;
    return (u32)number + (IS_LINUX ? 0 : OTHERS);
}

static int from_linux(u32 number) {
    for (int i = 0; i < ERRORS; i++)
        if ((u32)errors[i].linux_number == number) return errors[i].number;
    return (int)(number >= OTHERS ? number - OTHERS : number);
}

u32 host_rattle_errno(void) {
    return to_linux(errno);
}

void host_rattle_set_errno(u32 number) {
    errno = from_linux(number);
}

u32 host___xpg_strerror_r(u32 number, u64 to, u64 len) {
    return put_error_text(strerror(from_linux(number)), to, len);
}

/*** Files of POSIX ***/

/* Here and below, what the program never does ends it. */
u32 host_open(u64 path, u32 flags, u64 rest) {
    switch (flags) {
    case OPEN_TO_READ: return (u32)open(AT(path), O_RDONLY | O_NOCTTY | O_CLOEXEC);
    case OPEN_NEW_TO_WRITE:
        return (u32)open(AT(path), O_WRONLY | O_CREAT | O_EXCL | O_NOCTTY | O_CLOEXEC,
                         (mode_t)get(rest, 4));
    default: abort();
    }
}

u32 host_close(u32 file) {
    return (u32)close((int)file);
}

u64 host_read(u32 file, u64 to, u64 len) {
    return (u64)(s64)read((int)file, AT(to), len < SSIZE_MAX ? (size_t)len : SSIZE_MAX);
}

u64 host_write(u32 file, u64 from, u64 len) {
    return (u64)(s64)write((int)file, AT(from), len < SSIZE_MAX ? (size_t)len : SSIZE_MAX);
}

u64 host_lseek(u32 file, u64 offset, u32 whence) {
    if (whence != FROM_HERE) abort();
    return (u64)(s64)lseek((int)file, (off_t)offset, SEEK_CUR);
}

/* On macOS fsync leaves bytes in the disk's own memory. Not every file system there has the call that does not. */
u32 host_fsync(u32 file) {
#ifdef F_FULLFSYNC
    if (fcntl((int)file, F_FULLFSYNC) != -1) return 0;
#endif
    return (u32)fsync((int)file);
}

u32 host_fchmod(u32 file, u32 mode) {
    return (u32)fchmod((int)file, (mode_t)mode);
}

u32 host_fchown(u32 file, u32 owner, u32 group) {
    return (u32)fchown((int)file, (uid_t)owner, (gid_t)group);
}

u32 host_isatty(u32 file) {
    return (u32)isatty((int)file);
}

u32 host_fcntl(u32 file, u32 command, u64 rest) {
    if (command != DUPLICATE_CLOSE_ON_EXEC) abort();
    return (u32)fcntl((int)file, F_DUPFD_CLOEXEC, (int)get(rest, 4));
}

u32 host_pipe2(u64 files, u32 flags) {
    int ends[2];
    if (flags != PIPE_CLOSE_ON_EXEC) abort();
#if IS_LINUX
    if (pipe2(ends, O_CLOEXEC)) return (u32)-1;
#else
    if (pipe(ends)) return (u32)-1;
    fcntl(ends[0], F_SETFD, FD_CLOEXEC);
    fcntl(ends[1], F_SETFD, FD_CLOEXEC);
#endif
    put(files, 4, (u32)ends[0]);
    put(files + 4, 4, (u32)ends[1]);
    return 0;
}

u32 host_rename(u64 from, u64 to) {
    return (u32)rename(AT(from), AT(to));
}

u32 host_unlink(u64 path) {
    return (u32)unlink(AT(path));
}

static u32 linux_kind(mode_t mode) {
    return S_ISREG(mode)    ? KIND_REGULAR
           : S_ISDIR(mode)  ? KIND_DIRECTORY
           : S_ISLNK(mode)  ? KIND_LINK
           : S_ISFIFO(mode) ? KIND_PIPE
                            : 0;
}

static void put_found(u64 to, const struct stat *found) {
    struct status status = {
        .owner = (u32)found->st_uid,
        .group = (u32)found->st_gid,
        .mode = (u32)(found->st_mode & 0777) | linux_kind(found->st_mode),
        .device = (u64)found->st_dev,
        .inode = (u64)found->st_ino,
        .size = (u64)found->st_size,
    };
    put_status(to, &status);
}

u32 host_statx(u32 file, u64 path, u32 flags, u32 mask, u64 to) {
    const char *name = AT(path);
    struct stat found;
    int failed;
    (void)mask;
    if (!IS_LINUX && standard_stream(name) >= 0) {
        file = (u32)standard_stream(name);
        name = "";
        flags |= OF_DESCRIPTOR;
    }
    if (!*name && flags & OF_DESCRIPTOR) failed = fstat((int)file, &found);
    else if (flags & OF_LINK) failed = lstat(name, &found);
    else failed = stat(name, &found);
    if (failed) return (u32)-1;
    put_found(to, &found);
    return 0;
}

/*** Time and signals of POSIX ***/

u32 host_clock_gettime(u32 clock, u64 to) {
    struct timespec time;
    if (clock_gettime(clock == 1 ? CLOCK_MONOTONIC : CLOCK_REALTIME, &time)) return (u32)-1;
    put(to, 8, (u64)time.tv_sec);
    put(to + 8, 8, (u64)time.tv_nsec);
    return 0;
}

/* The program ignores SIGPIPE when it starts, and changes no other signal. */
u64 host___sysv_signal(u32 number, u64 action) {
    if (number != 13 || action != 1) abort();
    return signal(SIGPIPE, SIG_IGN) == SIG_ERR ? (u64)-1 : 0;
}

int main(int count, char **words) {
    return run_program(count, words);
}

#endif
