/* in_memory.c: the system that host.c sees through in_memory.h, and whole commands over it. */

#include "in_memory.h"

#undef open
#undef close
#undef read
#undef write
#undef lseek
#undef isatty
#undef fcntl
#undef fstat
#undef lstat
#undef stat
#undef malloc
#undef realloc
#undef free
#undef getenv
#undef signal
#undef main

#include <errno.h>
#include <stdint.h>
#include <string.h>

#include "commands.h"

int host_main(int count, char **words);

enum { FIRST_FILE = 50 };

static const struct command *running;
static struct outcome *outcome;
/* How much of standard input and of the file of the KEK has been read. */
static size_t input_at, kek_at;
static unsigned calls[CALLS];

/* Whether this call is the one that has to fail. */
static int fails(enum call call) {
    calls[call]++;
    return running->failing == call && running->failing_at == calls[call];
}

/*** Files: the file k has the KEK ***/

int memory_open(const char *path, int flags, ...) {
    (void)flags;
    if (fails(OPEN)) {
        errno = EACCES;
        return -1;
    }
    if (strcmp(path, "k") != 0) {
        errno = ENOENT;
        return -1;
    }
    kek_at = 0;
    return FIRST_FILE;
}

int memory_close(int file) {
    (void)file;
    return 0;
}

ssize_t memory_read(int file, void *to, size_t len) {
    int is_kek = file >= FIRST_FILE;
    const struct text *text = is_kek ? &running->kek : &running->input;
    size_t *at = is_kek ? &kek_at : &input_at;
    size_t left = text->len - *at;
    if (fails(READ)) {
        errno = EIO;
        return -1;
    }
    if (len > left) len = left;
    if (running->most_read > 0 && len > running->most_read) len = running->most_read;
    memcpy(to, text->bytes + *at, len);
    *at += len;
    return (ssize_t)len;
}

ssize_t memory_write(int file, const void *from, size_t len) {
    struct text *to = file == STDOUT_FILENO ? &outcome->output : &outcome->errors;
    if (file == STDOUT_FILENO && fails(WRITE)) {
        errno = ENOSPC;
        return -1;
    }
    if (len > sizeof to->bytes - to->len) abort();
    memcpy(to->bytes + to->len, from, len);
    to->len += len;
    return (ssize_t)len;
}

off_t memory_lseek(int file, off_t offset, int whence) {
    (void)file, (void)offset, (void)whence;
    errno = ESPIPE;
    return -1;
}

int memory_isatty(int file) {
    (void)file;
    return 0;
}

int memory_fcntl(int file, int command, ...) {
    (void)command;
    return file;
}

int memory_fstat(int file, struct stat *found) {
    memset(found, 0, sizeof *found);
    found->st_mode = S_IFIFO | 0600;
    found->st_ino = 7 + (ino_t)file;
    return 0;
}

int memory_stat(const char *path, struct stat *found) {
    (void)path;
    return memory_fstat(FIRST_FILE, found);
}

char *memory_getenv(const char *name) {
    (void)name;
    return NULL;
}

/*** Memory: each block has its length before it, so that a freed block can be searched for the KEK ***/

enum { HEAD = 16 };

void *memory_malloc(size_t len) {
    unsigned char *block;
    if (fails(ALLOCATE) || len > SIZE_MAX - HEAD) return NULL;
    block = malloc(HEAD + len);
    if (!block) return NULL;
    memcpy(block, &len, sizeof len);
    return block + HEAD;
}

static size_t length_of(const unsigned char *block) {
    size_t len;
    memcpy(&len, block - HEAD, sizeof len);
    return len;
}

void memory_free(void *block) {
    unsigned char *bytes = block;
    if (!block) return;
    if (memmem(bytes, length_of(bytes), running->secret, sizeof running->secret))
        outcome->freed_with_kek++;
    free(bytes - HEAD);
}

void *memory_realloc(void *block, size_t len) {
    void *other = memory_malloc(len);
    if (!other) return NULL;
    if (block) {
        size_t old = length_of(block);
        memcpy(other, block, old < len ? old : len);
        memory_free(block);
    }
    return other;
}

/*** Commands ***/

void run_command(const struct command *command, struct outcome *result) {
    int count = 0;
    running = command;
    outcome = result;
    memset(calls, 0, sizeof calls);
    input_at = kek_at = 0;
    result->output.len = result->errors.len = 0;
    result->freed_with_kek = 0;
    while (command->words[count]) count++;
    result->status = host_main(count, (char **)command->words);
    memcpy(result->calls, calls, sizeof calls);
}
