/* commands.h: a whole command of the program in one process, over files in memory. */

#ifndef COMMANDS_H
#define COMMANDS_H

#include <stddef.h>

struct text {
    unsigned char bytes[8192];
    size_t len;
};

/* Calls of the system that can fail. */
enum call { OPEN, READ, WRITE, ALLOCATE, CALLS };

struct command {
    const char
        *words[16];    /* the arguments, with the name of the program; a null pointer ends them */
    struct text kek;   /* the file k */
    struct text input; /* standard input */
    size_t most_read;  /* the most bytes that one read returns; 0: as many as are wanted */
    enum call failing; /* the call that fails once, the failing_at-th of its kind; CALLS: none */
    unsigned failing_at;
    unsigned char secret[16]; /* the bytes of the KEK, for which freed memory is searched */
};

struct outcome {
    int status;
    struct text output, errors;
    unsigned calls[CALLS];   /* how many calls of each kind there were */
    unsigned freed_with_kek; /* how many freed blocks had the bytes of the KEK in them */
};

void run_command(const struct command *command, struct outcome *result);

#endif
