/* host.h: what host.c and host_windows.c share. host.c has what is the same on every system, and POSIX. */

#ifndef HOST_H
#define HOST_H

#include "module.h"

#define AT(address) ((void *)POINTER(address))

/* A number in the module's byte order. */
INLINE u64 get(u64 address, unsigned len) {
    const u8 *from = AT(address);
    u64 value = 0;
    for (unsigned i = len; i-- > 0;) value = value << 8 | from[i];
    return value;
}

INLINE void put(u64 address, unsigned len, u64 value) {
    u8 *to = AT(address);
    for (unsigned i = 0; i < len; i++) to[i] = (u8)(value >> 8 * i);
}

/* The kinds of a file, as in Linux's mode. The other kinds are all the same to the program. */
enum { KIND_REGULAR = 0100000, KIND_DIRECTORY = 0040000, KIND_LINK = 0120000, KIND_PIPE = 0010000 };

/* What the program reads of a file's status. */
struct status {
    u32 owner, group;
    u32 mode; /* with the kind */
    u64 device, inode, size;
};

/* Writes Linux's struct statx. The rest of it is 0. The module joins the two halves of a device, so they are split
 * alike here. */
INLINE void put_status(u64 to, const struct status *found) {
    u64 device = found->device;
    memset(AT(to), 0, 256);
    put(to + 20, 4, found->owner);
    put(to + 24, 4, found->group);
    put(to + 28, 2, found->mode);
    put(to + 32, 8, found->inode);
    put(to + 40, 8, found->size);
    put(to + 136, 4, (device >> 32 & 0xfffff000) | (device >> 8 & 0xfff));
    put(to + 140, 4, (device >> 12 & 0xffffff00) | (device & 0xff));
}

/* If this is Linux's name of a standard stream, returns its descriptor, otherwise -1. */
INLINE int standard_stream(const char *name) {
    static const char DIRECTORY[] = "/proc/self/fd/";
    const size_t len = sizeof DIRECTORY - 1;
    if (strncmp(name, DIRECTORY, len) != 0) return -1;
    if (name[len] < '0' || name[len] > '2' || name[len + 1]) return -1;
    return name[len] - '0';
}

/* Copies the text of an error, and returns Linux's ERANGE if it does not fit. */
INLINE u32 put_error_text(const char *text, u64 to, u64 len) {
    enum { RANGE = 34 };
    size_t needed = strlen(text) + 1;
    if (len > 0) {
        size_t kept = needed <= len ? needed - 1 : (size_t)len - 1;
        memcpy(AT(to), text, kept);
        put(to + kept, 1, 0);
    }
    return needed <= len ? 0 : RANGE;
}

/* The flags of the module's calls, which are Linux's: open reads a file or makes a new one, fcntl and pipe2 make
 * descriptors that no child inherits, lseek moves on from where it is, and statx takes a name or a descriptor. */
enum {
    OPEN_TO_READ = 02000400,        /* O_NOCTTY | O_CLOEXEC */
    OPEN_NEW_TO_WRITE = 02000701,   /* these, O_WRONLY | O_CREAT | O_EXCL */
    DUPLICATE_CLOSE_ON_EXEC = 1030, /* F_DUPFD_CLOEXEC */
    PIPE_CLOSE_ON_EXEC = 02000000,  /* O_CLOEXEC */
    FROM_HERE = 1,                  /* SEEK_CUR */
    OF_DESCRIPTOR = 0x1000,         /* AT_EMPTY_PATH */
    OF_LINK = 0x100,                /* AT_SYMLINK_NOFOLLOW */
};

/* Runs the program with these arguments, and returns its exit status. */
int run_program(int count, char **words);

#endif
