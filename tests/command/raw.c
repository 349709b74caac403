/* raw.c: what the program in C needs of a system, over files in memory and without a C library, so that raw.py can run
 * whole commands for all inputs at once. Nothing fails here. AES is left to raw.py: a key schedule is the KEK itself,
 * followed by zeros. */

#include <stddef.h>

size_t strlen(const char *text);
int strncmp(const char *one, const char *other, size_t most);

#include "host.h"

enum { KEK_FILE = 3, ARENA = 1 << 23, NO_ENTRY = 2 };

static ALIGNED u8 memory[SIZE];
u8 *base = memory;

struct text {
    u8 *bytes;
    u32 len, at;
};
static struct text kek, input, output, errors;
static const char *const *words;
static u32 last_error;
/* The number of the bug that runs, in a program with planted bugs. */
u32 planted;

size_t strlen(const char *text) {
    size_t len = 0;
    while (text[len]) len++;
    return len;
}

int strncmp(const char *one, const char *other, size_t most) {
    for (size_t i = 0; i < most; i++)
        if (one[i] != other[i] || !one[i]) return one[i] - other[i];
    return 0;
}

void abort(void) {
    __builtin_trap();
}

/*** Memory: no block is used again ***/

static ALIGNED u8 arena[ARENA];
static size_t used;

static void *allocated(u64 size) {
    u8 *block = arena + used;
    if (size > ARENA - used - 16) abort();
    used += ((size_t)size + 15) / 16 * 16;
    return block;
}

static void give(u64 result, void *block) {
    put(result, 1, 1);
    put(result + 8, 8, ADDRESS(block));
}

void host_rattle_alloc(u64 result, u64 size, u64 align) {
    if (align > 16) abort();
    give(result, allocated(size));
}

void host_rattle_realloc(u64 result, u64 block, u64 old_size, u64 size, u64 align) {
    void *other = allocated(size);
    if (align > 16) abort();
    memcpy(other, AT(block), old_size < size ? old_size : size);
    give(result, other);
}

void host_rattle_dealloc(u64 block) {
    (void)block;
}

/*** Arguments, errors, numbers ***/

u64 host_rattle_arg(u64 number, u64 to, u64 len) {
    size_t size;
    for (u64 i = 0; i <= number; i++)
        if (!words[i]) return (u64)-1;
    size = strlen(words[number]);
    if (size > len) return (u64)-2;
    memcpy(AT(to), words[number], size);
    return size;
}

u64 host_rattle_env(u64 name, u64 to, u64 len) {
    (void)name, (void)to, (void)len;
    return (u64)-1;
}

u32 host_rattle_errno(void) {
    return last_error;
}

void host_rattle_set_errno(u32 number) {
    last_error = number;
}

void host___multi3(u64 result, u64 a, u64 a_high, u64 b, u64 b_high) {
    u64 low = (a & 0xffffffff) * (b & 0xffffffff),
        middle = (a >> 32) * (b & 0xffffffff) + (low >> 32);
    u64 other = (a & 0xffffffff) * (b >> 32) + (middle & 0xffffffff);
    u64 high = (a >> 32) * (b >> 32) + (middle >> 32) + (other >> 32);
    put(result, 8, a * b);
    put(result + 8, 8, high + a * b_high + a_high * b);
}

/*** Files: k has the KEK ***/

u32 host_open(u64 path, u32 flags, u64 rest) {
    const char *name = AT(path);
    (void)flags, (void)rest;
    if (name[0] != 'k' || name[1]) {
        last_error = NO_ENTRY;
        return (u32)-1;
    }
    return KEK_FILE;
}

u32 host_close(u32 file) {
    (void)file;
    return 0;
}

u64 host_read(u32 file, u64 to, u64 len) {
    struct text *from = file == KEK_FILE ? &kek : &input;
    u32 count = from->len - from->at;
    if (count > len) count = (u32)len;
    memcpy(AT(to), from->bytes + from->at, count);
    from->at += count;
    return count;
}

u64 host_write(u32 file, u64 from, u64 len) {
    struct text *to = file == 1 ? &output : &errors;
    if (len > to->len - to->at) abort();
    memcpy(to->bytes + to->at, AT(from), (size_t)len);
    to->at += (u32)len;
    return len;
}

u64 host_lseek(u32 file, u64 offset, u32 whence) {
    (void)file, (void)offset, (void)whence;
    return (u64)-1;
}

u32 host_isatty(u32 file) {
    (void)file;
    return 0;
}

u32 host_fcntl(u32 file, u32 command, u64 rest) {
    (void)command, (void)rest;
    return file;
}

u32 host_statx(u32 file, u64 path, u32 flags, u32 mask, u64 to) {
    struct status status = {.mode = KIND_PIPE | 0600, .inode = 7 + file};
    (void)path, (void)flags, (void)mask;
    put_status(to, &status);
    return 0;
}

u64 host___sysv_signal(u32 number, u64 action) {
    (void)number, (void)action;
    return 0;
}

/*** AES ***/

/* raw.py computes it. clang has to make these calls. */
__attribute__((noinline)) void ideal_aes(u8 *block, const u8 *key, u32 key_len, u32 inverse) {
    __asm__ volatile("" : : "r"(block), "r"(key), "r"(key_len), "r"(inverse) : "memory");
}

u32 host_aes_available(void) {
    return 1;
}

void host_aes_expand(u64 kek, u64 kek_len, u64 schedule, u64 len) {
    memset(AT(schedule), 0, (size_t)len);
    memcpy(AT(schedule), AT(kek), (size_t)kek_len);
}

static u32 key_len_of(u64 schedule_len) {
    return ((u32)schedule_len - 112) / 4;
}

void host_aes_encrypt(u64 schedule, u64 len, u64 block) {
    ideal_aes(AT(block), AT(schedule), key_len_of(len), 0);
}

void host_aes_decrypt(u64 schedule, u64 len, u64 block) {
    ideal_aes(AT(block), AT(schedule), key_len_of(len), 1);
}

/*** What these commands never do ***/

#define NEVER(type, name, ...)   \
    type name(__VA_ARGS__) {     \
        abort();                 \
        __builtin_unreachable(); \
    }
NEVER(u64, host_rattle_env_at, u64 a, u64 b, u64 c)
NEVER(u32, host_fchown, u32 a, u32 b, u32 c)
NEVER(u32, host_pipe2, u64 a, u32 b)
NEVER(u32, host_ftruncate, u32 a, u64 b)
NEVER(u32, host_fchmod, u32 a, u32 b)
NEVER(u32, host_fsync, u32 a)
NEVER(u32, host_fdatasync, u32 a)
NEVER(u32, host_flock, u32 a, u32 b)
NEVER(u32, host_unlink, u64 a)
NEVER(u32, host_rename, u64 a, u64 b)
NEVER(u32, host_clock_gettime, u32 a, u64 b)
NEVER(u32, host___xpg_strerror_r, u32 a, u64 b, u64 c)
NEVER(void, host___ashlti3, u64 a, u64 b, u64 c, u32 d)
NEVER(void, host___lshrti3, u64 a, u64 b, u64 c, u32 d)

/*** Commands ***/

static const char *const COMMANDS[][8] = {
    {"keywrap", "wrap", "--raw", "--raw-kek", "--kek", "k"},
    {"keywrap", "unwrap", "--raw", "--raw-kek", "--kek", "k"},
    {"keywrap", "wrap", "--padded", "--raw", "--raw-kek", "--kek", "k"},
    {"keywrap", "unwrap", "--padded", "--raw", "--raw-kek", "--kek", "k"},
};

/* Runs a command with one of the planted bugs, or with none: 0. `lengths` are those of the KEK, the
 * input, and the rooms for output and errors; of these two it has how much was written afterwards.
 * Returns the exit status. */
u32 run(u32 command, u32 bug, u8 *kek_bytes, u8 *input_bytes, u8 *output_bytes, u8 *error_bytes,
        u32 *lengths) {
    u32 status;
    planted = bug;
    words = COMMANDS[command];
    kek = (struct text){kek_bytes, lengths[0], 0};
    input = (struct text){input_bytes, lengths[1], 0};
    output = (struct text){output_bytes, lengths[2], 0};
    errors = (struct text){error_bytes, lengths[3], 0};
    memcpy(memory + TOP, constants, sizeof constants);
    status = module_main(0, 0);
    lengths[2] = output.at;
    lengths[3] = errors.at;
    return status;
}
