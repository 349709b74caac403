/* in_memory.h: makes host.c run over files in memory, so that one process runs thousands of commands.
 * `cc -include` puts it before host.c, whose calls of the system become calls of in_memory.c. host.c
 * itself stays as it is. */

#ifndef IN_MEMORY_H
#define IN_MEMORY_H

#define _GNU_SOURCE
#define _FILE_OFFSET_BITS 64
#include <fcntl.h>
#include <signal.h>
#include <stdio.h>
#include <stdlib.h>
#include <sys/stat.h>
#include <unistd.h>

int memory_open(const char *path, int flags, ...);
int memory_close(int file);
ssize_t memory_read(int file, void *to, size_t len);
ssize_t memory_write(int file, const void *from, size_t len);
off_t memory_lseek(int file, off_t offset, int whence);
int memory_isatty(int file);
int memory_fcntl(int file, int command, ...);
int memory_stat(const char *path, struct stat *found);
int memory_fstat(int file, struct stat *found);
void *memory_malloc(size_t len);
void *memory_realloc(void *block, size_t len);
void memory_free(void *block);
char *memory_getenv(const char *name);

#define open memory_open
#define close memory_close
#define read memory_read
#define write memory_write
#define lseek memory_lseek
#define isatty memory_isatty
#define fcntl memory_fcntl
#define fstat(file, found) memory_fstat(file, found)
#define lstat(path, found) memory_stat(path, found)
#define stat(path, found) memory_stat(path, found)
#define malloc memory_malloc
#define realloc memory_realloc
#define free memory_free
#define getenv memory_getenv
#define signal(number, action) SIG_DFL
#define main host_main

#endif
