/* windows.c: calls host_windows.c directly, in the place of the program. Built with it alone.
 *
 * usage: windows size FILE        prints the length that host_statx gives for the file
 *        windows mode FILE        prints the mode that host_statx gives for the file, without its kind, in octal digits
 *        windows same FILE FILE   prints whether host_statx gives one identity for both
 *        windows empty-write      prints what is read from a pipe to which first nothing is written, then 3 bytes
 *        windows hold FILE        prints "held" while it has the file open, until its input ends: meanwhile nobody
 *                                 else may write, rename or remove the file
 *        windows half PROGRAM     starts the program with the arguments "check --kek kek?", in which half of a
 *                                 surrogate pair takes the place of the ?, and prints its exit status */

#include <stdio.h>
#include <windows.h>

#include "host.h"

enum { MODE_AT = 28, INODE_AT = 32, SIZE_AT = 40, DEVICE_AT = 136, STATUS = 256 };

/* Address A is the byte at the pointer A. */
u8 *base = NULL;

static void look_at(const char *name, u8 *status) {
    if (host_statx(0, ADDRESS(name), 0, 0, ADDRESS(status))) {
        printf("error %u\n", (unsigned)host_rattle_errno());
        exit(1);
    }
}

static int print_size(const char *name) {
    u8 status[STATUS];
    look_at(name, status);
    printf("%llu\n", (unsigned long long)get(ADDRESS(status) + SIZE_AT, 8));
    return 0;
}

static int print_mode(const char *name) {
    u8 status[STATUS];
    look_at(name, status);
    printf("%o\n", (unsigned)get(ADDRESS(status) + MODE_AT, 2) & 0777);
    return 0;
}

static int print_whether_same(const char *name, const char *other_name) {
    u8 status[STATUS], other[STATUS];
    look_at(name, status);
    look_at(other_name, other);
    puts(!memcmp(status + INODE_AT, other + INODE_AT, 8)
                 && !memcmp(status + DEVICE_AT, other + DEVICE_AT, 8)
             ? "same"
             : "different");
    return 0;
}

static DWORD WINAPI write_nothing_then_more(void *writer) {
    host_write(*(u32 *)writer, ADDRESS("abc"), 0);
    host_write(*(u32 *)writer, ADDRESS("abc"), 3);
    return 0;
}

static int print_after_empty_write(void) {
    u32 ends[2];
    char text[8] = "";
    HANDLE thread;
    if (host_pipe2(ADDRESS(ends), PIPE_CLOSE_ON_EXEC)) return 1;
    thread = CreateThread(NULL, 0, write_nothing_then_more, &ends[1], 0, NULL);
    if (thread == NULL) return 1;
    printf("%lld", (long long)host_read(ends[0], ADDRESS(text), sizeof text - 1));
    printf(" %s\n", text);
    return 0;
}

static int hold(const char *name) {
    HANDLE handle = CreateFileA(name, GENERIC_READ, FILE_SHARE_READ, NULL, OPEN_EXISTING, 0, NULL);
    if (handle == INVALID_HANDLE_VALUE) return 1;
    puts("held");
    fflush(stdout);
    while (getchar() != EOF) continue;
    CloseHandle(handle);
    return 0;
}

static int start_with_half_a_pair(const char *program) {
    wchar_t line[] = L"keywrap check --kek kek\xd800";
    wchar_t name[MAX_PATH];
    STARTUPINFOW how = {.cb = sizeof how};
    PROCESS_INFORMATION started;
    DWORD status;
    if (!MultiByteToWideChar(CP_UTF8, 0, program, -1, name, MAX_PATH)) return 1;
    if (!CreateProcessW(name, line, NULL, NULL, TRUE, 0, NULL, NULL, &how, &started)) return 1;
    WaitForSingleObject(started.hProcess, INFINITE);
    if (!GetExitCodeProcess(started.hProcess, &status)) return 1;
    printf("%lu\n", (unsigned long)status);
    return 0;
}

int run_program(int count, char **words) {
    if (count == 3 && !strcmp(words[1], "size")) return print_size(words[2]);
    if (count == 3 && !strcmp(words[1], "mode")) return print_mode(words[2]);
    if (count == 3 && !strcmp(words[1], "hold")) return hold(words[2]);
    if (count == 3 && !strcmp(words[1], "half")) return start_with_half_a_pair(words[2]);
    if (count == 4 && !strcmp(words[1], "same")) return print_whether_same(words[2], words[3]);
    if (count == 2 && !strcmp(words[1], "empty-write")) return print_after_empty_write();
    return 2;
}
