/* host_windows.c: what the program's module needs of Windows 8 or newer. What other systems share with it is in host.c.
 *
 * Files are read and written by the calls of the system. Those of C know text files, which a byte 1A ends. */

#ifdef _WIN32

#define WIN32_LEAN_AND_MEAN
#undef _WIN32_WINNT
#define _WIN32_WINNT 0x0602 /* FileIdInfo */
#include <windows.h>
#include <shellapi.h>
#include <signal.h>
#include <stdio.h>
#ifdef _MSC_VER /* never compiled by it so far */
#pragma comment(lib, "advapi32")
#pragma comment(lib, "shell32")
#endif

#endif

/* Its SIZE would change the headers of Windows. */
#include "host.h"

#ifdef _WIN32

/*** Errors ***/

/* Linux's errors by which the module decides, or which this file finds itself. */
enum {
    NO_FILE = 2,
    IO = 5,
    BAD_DESCRIPTOR = 9,
    NO_MEMORY = 12,
    DENIED = 13,
    EXISTS = 17,
    NO_DIRECTORY = 20,
    IS_DIRECTORY = 21,
    INVALID = 22,
    TOO_MANY_FILES = 24,
    NO_SPACE = 28,
    CANNOT_SEEK = 29,
    READ_ONLY = 30,
    BROKEN_PIPE = 32,
    NAME_TOO_LONG = 36,
    UNSUPPORTED = 95,
    /* An error of Windows without one of Linux: its number is added. */
    OTHERS = 1 << 20
};

/* The number of Linux, or OTHERS and that of Windows, for the last call that failed. */
static u32 last_error;

static const struct {
    DWORD windows;
    u32 number;
} errors[] = {
    {ERROR_FILE_NOT_FOUND, NO_FILE},
    {ERROR_PATH_NOT_FOUND, NO_FILE},
    {ERROR_INVALID_NAME, NO_FILE},
    {ERROR_BAD_PATHNAME, NO_FILE},
    {ERROR_BAD_NETPATH, NO_FILE},
    {ERROR_BAD_NET_NAME, NO_FILE},
    {ERROR_INVALID_DRIVE, NO_FILE},
    {ERROR_INVALID_HANDLE, BAD_DESCRIPTOR},
    {ERROR_NOT_ENOUGH_MEMORY, NO_MEMORY},
    {ERROR_OUTOFMEMORY, NO_MEMORY},
    {ERROR_ACCESS_DENIED, DENIED},
    {ERROR_SHARING_VIOLATION, DENIED},
    {ERROR_LOCK_VIOLATION, DENIED},
    {ERROR_PRIVILEGE_NOT_HELD, DENIED},
    {ERROR_FILE_EXISTS, EXISTS},
    {ERROR_ALREADY_EXISTS, EXISTS},
    {ERROR_DIRECTORY, NO_DIRECTORY},
    {ERROR_INVALID_PARAMETER, INVALID},
    {ERROR_TOO_MANY_OPEN_FILES, TOO_MANY_FILES},
    {ERROR_DISK_FULL, NO_SPACE},
    {ERROR_HANDLE_DISK_FULL, NO_SPACE},
    {ERROR_WRITE_PROTECT, READ_ONLY},
    {ERROR_BROKEN_PIPE, BROKEN_PIPE},
    {ERROR_NO_DATA, BROKEN_PIPE},
    {ERROR_FILENAME_EXCED_RANGE, NAME_TOO_LONG},
    {ERROR_NOT_SUPPORTED, UNSUPPORTED},
    {ERROR_CRC, IO},
    {ERROR_IO_DEVICE, IO},
    {ERROR_READ_FAULT, IO},
    {ERROR_WRITE_FAULT, IO},
};

/* The words of Linux, in English for every user, where strerror and Windows have the user's language. */
static const struct {
    u32 number;
    const char *words;
} texts[] = {
    {NO_FILE, "No such file or directory"},  {IO, "Input/output error"},
    {BAD_DESCRIPTOR, "Bad file descriptor"}, {NO_MEMORY, "Cannot allocate memory"},
    {DENIED, "Permission denied"},           {EXISTS, "File exists"},
    {NO_DIRECTORY, "Not a directory"},       {IS_DIRECTORY, "Is a directory"},
    {INVALID, "Invalid argument"},           {TOO_MANY_FILES, "Too many open files"},
    {NO_SPACE, "No space left on device"},   {CANNOT_SEEK, "Illegal seek"},
    {READ_ONLY, "Read-only file system"},    {BROKEN_PIPE, "Broken pipe"},
    {NAME_TOO_LONG, "File name too long"},   {UNSUPPORTED, "Operation not supported"},
};

enum { ERRORS = sizeof errors / sizeof *errors, TEXTS = sizeof texts / sizeof *texts };

/* Keeps an error of Linux, and returns what a call then returns. */
static u32 fail_with(u32 number) {
    last_error = number;
    return (u32)-1;
}

/* Keeps the error of the last call of Windows. */
static u32 fail(void) {
    DWORD number = GetLastError();
    for (int i = 0; i < ERRORS; i++)
        if (errors[i].windows == number) return fail_with(errors[i].number);
    return fail_with(OTHERS + number);
}

u32 host_rattle_errno(void) {
    return last_error;
}

void host_rattle_set_errno(u32 number) {
    last_error = number;
}

u32 host___xpg_strerror_r(u32 number, u64 to, u64 len) {
    char other[40];
    for (int i = 0; i < TEXTS; i++)
        if (texts[i].number == number) return put_error_text(texts[i].words, to, len);
    snprintf(other, sizeof other, "Error %lu of Windows", (unsigned long)(number % OTHERS));
    return put_error_text(other, to, len);
}

/*** Descriptors: the lowest free one comes first, as the module fills those of the closed standard streams ***/

enum { STANDARD = 3, DESCRIPTORS = 16 };

/* NULL is free. A file that was closed for a rename keeps its place. */
static HANDLE handles[DESCRIPTORS];
#define CLOSED INVALID_HANDLE_VALUE

/* Returns the handle, or NULL and keeps the error. */
static HANDLE handle_of(u32 file) {
    if (file < DESCRIPTORS && handles[file] != NULL && handles[file] != CLOSED)
        return handles[file];
    fail_with(BAD_DESCRIPTOR);
    return NULL;
}

/* Returns the lowest free descriptor from this one on, which gets the handle. */
static u32 new_descriptor(HANDLE handle, u32 from) {
    for (u32 file = from; file < DESCRIPTORS; file++)
        if (handles[file] == NULL) {
            handles[file] = handle;
            return file;
        }
    CloseHandle(handle);
    return fail_with(TOO_MANY_FILES);
}

u32 host_close(u32 file) {
    if (file >= DESCRIPTORS || handles[file] == NULL) return fail_with(BAD_DESCRIPTOR);
    if (handles[file] != CLOSED) CloseHandle(handles[file]);
    handles[file] = NULL;
    return 0;
}

/* Fails for a standard stream that is closed. */
u32 host_fcntl(u32 file, u32 command, u64 rest) {
    HANDLE handle = handle_of(file), made, self = GetCurrentProcess();
    if (command != DUPLICATE_CLOSE_ON_EXEC) abort();
    if (handle == NULL) return (u32)-1;
    if (!DuplicateHandle(self, handle, self, &made, 0, FALSE, DUPLICATE_SAME_ACCESS)) return fail();
    return new_descriptor(made, (u32)get(rest, 4));
}

u32 host_pipe2(u64 files, u32 flags) {
    HANDLE reader, writer;
    u32 ends[2];
    if (flags != PIPE_CLOSE_ON_EXEC) abort();
    if (!CreatePipe(&reader, &writer, NULL, 0)) return fail();
    ends[0] = new_descriptor(reader, 0);
    ends[1] = new_descriptor(writer, 0);
    if (ends[0] == (u32)-1 || ends[1] == (u32)-1) return (u32)-1;
    put(files, 4, ends[0]);
    put(files + 4, 4, ends[1]);
    return 0;
}

u32 host_isatty(u32 file) {
    HANDLE handle = handle_of(file);
    DWORD mode;
    return handle != NULL && GetConsoleMode(handle, &mode);
}

/*** Names ***/

/* The module has Linux's names of standard input. Windows could have files of these names. */
static int is_standard_input(const char *name) {
    return !strcmp(name, "/dev/stdin") || !strcmp(name, "/dev/fd/0") || standard_stream(name) == 0;
}

/* Returns an allocated copy in UTF-16, or NULL and keeps the error. */
static wchar_t *utf16(const char *text) {
    int count = MultiByteToWideChar(CP_UTF8, MB_ERR_INVALID_CHARS, text, -1, NULL, 0);
    wchar_t *wide;
    if (count == 0) {
        fail_with(NO_FILE);
        return NULL;
    }
    wide = malloc((size_t)count * sizeof *wide);
    if (wide == NULL) fail_with(NO_MEMORY);
    else MultiByteToWideChar(CP_UTF8, MB_ERR_INVALID_CHARS, text, -1, wide, count);
    return wide;
}

/* Returns the beginning that a full name needs so that it may be longer than 260 characters. */
static const wchar_t *long_prefix(const wchar_t *full) {
    if (!wcsncmp(full, L"\\\\.\\", 4) || !wcsncmp(full, L"\\\\?\\", 4)) return L"";
    if (!wcsncmp(full, L"\\\\", 2)) return L"\\\\?\\UNC";
    return L"\\\\?\\";
}

/* Returns an allocated name for the calls of the system, or NULL and keeps the error. */
static wchar_t *system_name(const char *name) {
    enum { PREFIX = 8 };
    wchar_t *wide, *full, *whole = NULL;
    DWORD size;
    if (!*name || is_standard_input(name)) {
        fail_with(NO_FILE);
        return NULL;
    }
    wide = utf16(name);
    if (wide == NULL) return NULL;
    size = GetFullPathNameW(wide, 0, NULL, NULL);
    full = malloc((size_t)size * sizeof *full + sizeof *full);
    if (full != NULL) whole = malloc(((size_t)size + PREFIX) * sizeof *whole);
    if (whole == NULL) fail_with(NO_MEMORY);
    else if (size == 0 || GetFullPathNameW(wide, size, full, NULL) >= size) {
        fail();
        free(whole);
        whole = NULL;
    } else {
        const wchar_t *prefix = long_prefix(full);
        /* \\server\share becomes \\?\UNC\server\share */
        wcscpy(whole, prefix);
        wcscat(whole, wcslen(prefix) == 7 ? full + 1 : full);
    }
    free(full);
    free(wide);
    return whole;
}

/*** Who may use a file ***/

/* The module compares the group of files, and gives a new file the group of an old one. Here group N is the Nth list of
 * access rights that the run has met. A list is a security descriptor with nothing else. */
enum { GROUPS = DESCRIPTORS };
static PSECURITY_DESCRIPTOR groups[GROUPS];

static PSID user(void) {
    static union {
        TOKEN_USER user;
        u8 bytes[sizeof(TOKEN_USER) + SECURITY_MAX_SID_SIZE];
    } found;
    static int is_known;
    HANDLE token;
    DWORD size;
    if (!is_known && OpenProcessToken(GetCurrentProcess(), TOKEN_QUERY, &token)) {
        is_known = GetTokenInformation(token, TokenUser, &found, sizeof found, &size) != 0;
        CloseHandle(token);
    }
    return is_known ? found.user.User.Sid : NULL;
}

/* Makes a descriptor by which only this user may use a file: nothing is inherited from the directory. */
static int make_private(SECURITY_DESCRIPTOR *made) {
    static union {
        ACL list;
        u8 bytes[sizeof(ACL) + sizeof(ACCESS_ALLOWED_ACE) + SECURITY_MAX_SID_SIZE];
    } only;
    return user() != NULL && InitializeAcl(&only.list, sizeof only, ACL_REVISION)
           && AddAccessAllowedAce(&only.list, ACL_REVISION, FILE_ALL_ACCESS, user())
           && InitializeSecurityDescriptor(made, SECURITY_DESCRIPTOR_REVISION)
           && SetSecurityDescriptorOwner(made, user(), FALSE)
           && SetSecurityDescriptorDacl(made, TRUE, &only.list, FALSE)
           && SetSecurityDescriptorControl(made, SE_DACL_PROTECTED, SE_DACL_PROTECTED);
}

static ACL *list_of(PSECURITY_DESCRIPTOR descriptor) {
    BOOL is_there, is_default;
    ACL *list;
    if (!GetSecurityDescriptorDacl(descriptor, &is_there, &list, &is_default)) return NULL;
    return is_there ? list : NULL;
}

/* Returns an allocated descriptor, or NULL and keeps the error. */
static PSECURITY_DESCRIPTOR read_access(HANDLE handle) {
    DWORD size = 0;
    PSECURITY_DESCRIPTOR read;
    GetKernelObjectSecurity(handle, DACL_SECURITY_INFORMATION, NULL, 0, &size);
    read = malloc(size ? size : 1);
    if (read == NULL) {
        fail_with(NO_MEMORY);
        return NULL;
    }
    if (!GetKernelObjectSecurity(handle, DACL_SECURITY_INFORMATION, read, size, &size)) {
        fail();
        free(read);
        return NULL;
    }
    return read;
}

static int is_same_list(const ACL *one, const ACL *other) {
    if (one == NULL || other == NULL) return one == other;
    return one->AclSize == other->AclSize && !memcmp(one, other, one->AclSize);
}

/* Returns the number of the list, which is kept if it is new. Otherwise it is freed. */
static u32 group_of(PSECURITY_DESCRIPTOR read) {
    for (u32 i = 0; i < GROUPS; i++) {
        if (groups[i] == NULL) groups[i] = read;
        if (groups[i] == read) return i;
        if (is_same_list(list_of(groups[i]), list_of(read))) {
            free(read);
            return i;
        }
    }
    abort();
}

/* Whether nobody but this user and the system itself may use a file with this list. Without a list everybody may. */
static int is_private(const ACL *list) {
    u8 system[SECURITY_MAX_SID_SIZE];
    DWORD size = sizeof system;
    if (list == NULL || user() == NULL) return 0;
    if (!CreateWellKnownSid(WinLocalSystemSid, NULL, system, &size)) return 0;
    for (DWORD i = 0; i < list->AceCount; i++) {
        ACCESS_ALLOWED_ACE *entry;
        PSID who;
        if (!GetAce((ACL *)list, i, (void **)&entry)) return 0;
        who = &entry->SidStart;
        if (entry->Header.AceType == ACCESS_DENIED_ACE_TYPE) continue;
        if (entry->Header.AceType != ACCESS_ALLOWED_ACE_TYPE) return 0;
        if (!EqualSid(who, user()) && !EqualSid(who, system)) return 0;
    }
    return 1;
}

/* A new file is its maker's, also if it replaces one of somebody else: who may use it is in its list. */
u32 host_fchown(u32 file, u32 owner, u32 group) {
    HANDLE handle = handle_of(file);
    (void)owner;
    if (handle == NULL) return (u32)-1;
    if (group >= GROUPS || groups[group] == NULL) return fail_with(INVALID);
    if (!SetKernelObjectSecurity(handle, DACL_SECURITY_INFORMATION, groups[group])) return fail();
    return 0;
}

/* The mode only shows whether the list is private. */
u32 host_fchmod(u32 file, u32 mode) {
    (void)mode;
    return handle_of(file) == NULL ? (u32)-1 : 0;
}

/*** Files ***/

/* Others may read, write, rename and remove a file while it is open, as on POSIX. Directories open, too. */
static HANDLE open_with(const char *name, DWORD access, DWORD how, DWORD flags,
                        SECURITY_ATTRIBUTES *security) {
    const DWORD shared = FILE_SHARE_READ | FILE_SHARE_WRITE | FILE_SHARE_DELETE;
    wchar_t *wide = system_name(name);
    HANDLE handle;
    if (wide == NULL) return INVALID_HANDLE_VALUE;
    handle = CreateFileW(wide, access, shared, security, how, flags, NULL);
    if (handle == INVALID_HANDLE_VALUE) fail();
    free(wide);
    return handle;
}

static HANDLE open_to_read(const char *name) {
    return open_with(name, GENERIC_READ, OPEN_EXISTING, FILE_FLAG_BACKUP_SEMANTICS, NULL);
}

static HANDLE open_new(const char *name) {
    const DWORD access = GENERIC_WRITE | READ_CONTROL | WRITE_DAC;
    SECURITY_DESCRIPTOR only;
    SECURITY_ATTRIBUTES security = {sizeof security, &only, FALSE};
    if (!make_private(&only)) {
        fail();
        return INVALID_HANDLE_VALUE;
    }
    return open_with(name, access, CREATE_NEW, FILE_ATTRIBUTE_NORMAL, &security);
}

/* Here and below, what the program never does ends it. */
u32 host_open(u64 path, u32 flags, u64 rest) {
    HANDLE handle;
    switch (flags) {
    case OPEN_TO_READ: handle = open_to_read(AT(path)); break;
    case OPEN_NEW_TO_WRITE:
        if (get(rest, 4) != 0600) abort();
        handle = open_new(AT(path));
        break;
    default: abort();
    }
    return handle == INVALID_HANDLE_VALUE ? (u32)-1 : new_descriptor(handle, 0);
}

static int is_directory(HANDLE handle) {
    BY_HANDLE_FILE_INFORMATION found;
    return GetFileType(handle) == FILE_TYPE_DISK && GetFileInformationByHandle(handle, &found)
           && found.dwFileAttributes & FILE_ATTRIBUTE_DIRECTORY;
}

/* A call of the system takes 32 bits for a length. */
static DWORD piece(u64 len) {
    enum { MOST = 1 << 30 };
    return len < MOST ? (DWORD)len : MOST;
}

static int is_pipe_with_writer(HANDLE handle) {
    return PeekNamedPipe(handle, NULL, 0, NULL, NULL, NULL) != 0;
}

u64 host_read(u32 file, u64 to, u64 len) {
    HANDLE handle = handle_of(file);
    DWORD count;
    if (handle == NULL) return (u64)-1;
    /* A writer may write nothing to a pipe: its reader then gets 0 bytes, and this is not the end. */
    do {
        if (!ReadFile(handle, AT(to), piece(len), &count, NULL)) {
            DWORD number = GetLastError();
            if (number == ERROR_HANDLE_EOF || number == ERROR_BROKEN_PIPE) return 0;
            fail();
            if (is_directory(handle)) fail_with(IS_DIRECTORY);
            return (u64)-1;
        }
    } while (count == 0 && len > 0 && is_pipe_with_writer(handle));
    return count;
}

u64 host_write(u32 file, u64 from, u64 len) {
    HANDLE handle = handle_of(file);
    DWORD count;
    if (handle == NULL) return (u64)-1;
    if (!WriteFile(handle, AT(from), piece(len), &count, NULL)) {
        fail();
        return (u64)-1;
    }
    return count;
}

u64 host_lseek(u32 file, u64 offset, u32 whence) {
    HANDLE handle = handle_of(file);
    LARGE_INTEGER by, at;
    if (whence != FROM_HERE) abort();
    if (handle == NULL) return (u64)-1;
    by.QuadPart = (s64)offset;
    if (GetFileType(handle) != FILE_TYPE_DISK) fail_with(CANNOT_SEEK);
    else if (!SetFilePointerEx(handle, by, &at, FILE_CURRENT)) fail();
    else return (u64)at.QuadPart;
    return (u64)-1;
}

/* Windows cannot flush a directory. The module goes on after this error. */
u32 host_fsync(u32 file) {
    HANDLE handle = handle_of(file);
    if (handle == NULL) return (u32)-1;
    if (is_directory(handle)) return fail_with(INVALID);
    return FlushFileBuffers(handle) ? 0 : fail();
}

u32 host_unlink(u64 path) {
    wchar_t *name = system_name(AT(path));
    BOOL done;
    if (name == NULL) return (u32)-1;
    done = DeleteFileW(name);
    if (!done) fail();
    free(name);
    return done ? 0 : (u32)-1;
}

/*** Status ***/

/* Gives the file's number on its volume, which has 128 bits, and that of the volume. Together they have one bit pattern
 * for each file of a volume. */
static void put_identity(HANDLE handle, const BY_HANDLE_FILE_INFORMATION *found,
                         struct status *status) {
    FILE_ID_INFO id;
    status->device = found->dwVolumeSerialNumber;
    status->inode = (u64)found->nFileIndexHigh << 32 | found->nFileIndexLow;
    if (GetFileInformationByHandleEx(handle, FileIdInfo, &id, sizeof id)) {
        u64 halves[2];
        memcpy(halves, &id.FileId, sizeof halves);
        status->device = id.VolumeSerialNumber ^ halves[1];
        status->inode = halves[0];
    }
}

/* Whether the open file is a link or a directory that leads elsewhere. */
static int is_link(HANDLE handle) {
    FILE_ATTRIBUTE_TAG_INFO found;
    return GetFileInformationByHandleEx(handle, FileAttributeTagInfo, &found, sizeof found)
           && found.FileAttributes & FILE_ATTRIBUTE_REPARSE_POINT
           && IsReparseTagNameSurrogate(found.ReparseTag);
}

static u32 kind_of_disk_file(HANDLE handle, const BY_HANDLE_FILE_INFORMATION *found) {
    if (is_link(handle)) return KIND_LINK;
    return found->dwFileAttributes & FILE_ATTRIBUTE_DIRECTORY ? KIND_DIRECTORY : KIND_REGULAR;
}

/* Returns 0, or keeps the error. */
static u32 status_of_disk_file(HANDLE handle, struct status *status) {
    BY_HANDLE_FILE_INFORMATION found;
    PSECURITY_DESCRIPTOR access;
    if (!GetFileInformationByHandle(handle, &found)) return fail();
    /* Standard input may be open without the right to read its list. Then it counts as everybody's, in no group. */
    access = read_access(handle);
    status->mode = kind_of_disk_file(handle, &found) | 0666;
    status->group = GROUPS;
    if (access != NULL) {
        if (is_private(list_of(access))) status->mode &= ~(u32)0066;
        status->group = group_of(access);
    }
    status->size = (u64)found.nFileSizeHigh << 32 | found.nFileSizeLow;
    put_identity(handle, &found, status);
    return 0;
}

static u32 status_of(HANDLE handle, struct status *status) {
    /* A pipe or a console is no file that an output could replace. */
    const struct status no_file = {.device = UINT64_MAX};
    *status = no_file;
    switch (GetFileType(handle)) {
    case FILE_TYPE_DISK: return status_of_disk_file(handle, status);
    case FILE_TYPE_PIPE: status->mode = KIND_PIPE; return 0;
    case FILE_TYPE_CHAR: return 0;
    default: return fail_with(BAD_DESCRIPTOR);
    }
}

u32 host_statx(u32 file, u64 path, u32 flags, u32 mask, u64 to) {
    const char *name = AT(path);
    struct status status;
    HANDLE handle;
    u32 failed;
    (void)mask;
    if (standard_stream(name) >= 0) {
        file = (u32)standard_stream(name);
        name = "";
        flags |= OF_DESCRIPTOR;
    }
    if (!*name && flags & OF_DESCRIPTOR) {
        handle = handle_of(file);
        if (handle == NULL) return (u32)-1;
        failed = status_of(handle, &status);
    } else {
        DWORD how = FILE_FLAG_BACKUP_SEMANTICS;
        if (flags & OF_LINK) how |= FILE_FLAG_OPEN_REPARSE_POINT;
        handle = open_with(name, FILE_READ_ATTRIBUTES | READ_CONTROL, OPEN_EXISTING, how, NULL);
        if (handle == INVALID_HANDLE_VALUE) return (u32)-1;
        failed = status_of(handle, &status);
        CloseHandle(handle);
    }
    if (!failed) put_status(to, &status);
    return failed;
}

/*** Renaming ***/

/* Renames as POSIX does, so that also an open file can be replaced: on NTFS since Windows 10, version 1709. */
static BOOL rename_as_posix(const wchar_t *from, const wchar_t *to) {
    /* FILE_RENAME_FLAG_REPLACE_IF_EXISTS | FILE_RENAME_FLAG_POSIX_SEMANTICS, FileRenameInfoEx */
    enum { REPLACE_AS_POSIX = 3, RENAME_INFO_EX = 22 };
    size_t len = wcslen(to) * sizeof *to, size = sizeof(FILE_RENAME_INFO) + len;
    FILE_RENAME_INFO *info = calloc(1, size);
    HANDLE handle;
    BOOL done = FALSE;
    if (info == NULL) return FALSE;
    /* The flags are in a union with this member, which older headers have alone. */
    memcpy(info, &(DWORD){REPLACE_AS_POSIX}, sizeof(DWORD));
    info->FileNameLength = (DWORD)len;
    memcpy(info->FileName, to, len);
    handle = CreateFileW(from, DELETE | SYNCHRONIZE,
                         FILE_SHARE_READ | FILE_SHARE_WRITE | FILE_SHARE_DELETE, NULL,
                         OPEN_EXISTING, 0, NULL);
    if (handle != INVALID_HANDLE_VALUE) {
        done = SetFileInformationByHandle(handle, (FILE_INFO_BY_HANDLE_CLASS)RENAME_INFO_EX, info,
                                          (DWORD)size);
        CloseHandle(handle);
    }
    free(info);
    return done;
}

/* Lets go of this run's own files that have this name. The module renames last, and reads nothing afterwards. */
static void close_files_named(const char *name) {
    struct status target, open;
    HANDLE handle = open_with(name, FILE_READ_ATTRIBUTES | READ_CONTROL, OPEN_EXISTING, 0, NULL);
    if (handle == INVALID_HANDLE_VALUE) return;
    if (status_of(handle, &target)) target.device = UINT64_MAX;
    CloseHandle(handle);
    for (u32 file = 0; file < DESCRIPTORS; file++) {
        if (handles[file] == NULL || handles[file] == CLOSED) continue;
        if (target.device == UINT64_MAX || status_of(handles[file], &open)) continue;
        if (open.device == target.device && open.inode == target.inode) {
            CloseHandle(handles[file]);
            handles[file] = CLOSED;
        }
    }
}

u32 host_rename(u64 from, u64 to) {
    wchar_t *old_name = system_name(AT(from)), *new_name = system_name(AT(to));
    BOOL done = FALSE;
    if (old_name != NULL && new_name != NULL) {
        done = rename_as_posix(old_name, new_name);
        if (!done) {
            close_files_named(AT(to));
            done =
                MoveFileExW(old_name, new_name, MOVEFILE_REPLACE_EXISTING | MOVEFILE_WRITE_THROUGH);
        }
        if (!done) fail();
    }
    free(old_name);
    free(new_name);
    return done ? 0 : (u32)-1;
}

/*** Time and signals ***/

u32 host_clock_gettime(u32 clock, u64 to) {
    enum { NANOSECONDS = 1000000000 };
    LARGE_INTEGER ticks, per_second;
    (void)clock;
    QueryPerformanceFrequency(&per_second);
    QueryPerformanceCounter(&ticks);
    put(to, 8, (u64)(ticks.QuadPart / per_second.QuadPart));
    put(to + 8, 8, (u64)(ticks.QuadPart % per_second.QuadPart * NANOSECONDS / per_second.QuadPart));
    return 0;
}

/* The program ignores SIGPIPE when it starts. Windows has none. */
u64 host___sysv_signal(u32 number, u64 action) {
    if (number != 13 || action != 1) abort();
    return 0;
}

/*** The program ***/

/* abort would end with status 3, which is one of the program's. A shell shows this one for it on Linux. */
static void end_aborted(int number) {
    (void)number;
    TerminateProcess(GetCurrentProcess(), 128 + 6);
}

/* Returns an allocated copy in UTF-8. What is not UTF-16 becomes what is not UTF-8, which the module refuses. */
static char *utf8(const wchar_t *wide) {
    int size = WideCharToMultiByte(CP_UTF8, WC_ERR_INVALID_CHARS, wide, -1, NULL, 0, NULL, NULL);
    char *text = calloc((size_t)size + 2, 1);
    if (text == NULL) return NULL;
    if (size == 0) *text = (char)0xff;
    else WideCharToMultiByte(CP_UTF8, WC_ERR_INVALID_CHARS, wide, -1, text, size, NULL, NULL);
    return text;
}

static UINT code_page;

static void restore_code_page(void) {
    SetConsoleOutputCP(code_page);
}

/* A console shows the program's UTF-8 if this is its code page. */
static void prepare_console(void) {
    if (!host_isatty(1) && !host_isatty(2)) return;
    code_page = GetConsoleOutputCP();
    if (SetConsoleOutputCP(CP_UTF8)) atexit(restore_code_page);
}

int main(void) {
    static const DWORD streams[STANDARD] = {STD_INPUT_HANDLE, STD_OUTPUT_HANDLE, STD_ERROR_HANDLE};
    int count;
    wchar_t **words = CommandLineToArgvW(GetCommandLineW(), &count);
    char **texts_of_words = words == NULL ? NULL : calloc((size_t)count + 1, sizeof(char *));
    signal(SIGABRT, end_aborted);
    if (texts_of_words == NULL) abort();
    for (int i = 0; i < count; i++) {
        texts_of_words[i] = utf8(words[i]);
        if (texts_of_words[i] == NULL) abort();
    }
    for (int i = 0; i < STANDARD; i++) {
        HANDLE handle = GetStdHandle(streams[i]);
        handles[i] = handle == INVALID_HANDLE_VALUE ? NULL : handle;
    }
    prepare_console();
    return run_program(count, texts_of_words);
}

#endif
