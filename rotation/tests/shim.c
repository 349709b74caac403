/* A PKCS#11 library for tests: it has the functions of the library that SHIM_MODULE names, but calls
 * are late, fail or lie as the lines of the file SHIM_RULES say. The file is read before each call of
 * the functions below. A line is
 *
 *     FUNCTION FROM TO WHAT VALUE
 *
 * for the calls FROM to TO of this function, over all processes. Each such call adds a line to the file
 * SHIM_CALLS: its function, its process, and the one that initialized the library. Without this file
 * the number of each call is 0. WHAT and VALUE are
 *
 *     return 48       returns this value and does nothing
 *     late 1000       waits for so many microseconds before the call
 *     short 16        the result is so many bytes shorter
 *     lie 0           returns CKR_OK and does nothing
 *     most 2048       returns CKR_DATA_LEN_RANGE for more bytes than this
 *     die 9           the process gets this signal before the call */
#include <dlfcn.h>
#include <fcntl.h>
#include <p11-kit/pkcs11.h>
#include <signal.h>
#include <stdio.h>
#include <stdlib.h>
#include <string.h>
#include <unistd.h>

static CK_FUNCTION_LIST ours;
static CK_FUNCTION_LIST_PTR real;
static pid_t owner;

/* Adds a line for a call. Returns how many calls of this function there were, this one included. */
static long number_of(const char *function) {
    char line[128], all[256];
    long count = 0;
    const char *name = getenv("SHIM_CALLS");
    if (!name) return 0;
    int file = open(name, O_WRONLY | O_CREAT | O_APPEND, 0600);
    int length = snprintf(line, sizeof line, "%s %d %d\n", function, (int)getpid(), (int)owner);
    if (file < 0 || write(file, line, (size_t)length) != length) abort();
    close(file);
    FILE *calls = fopen(name, "r");
    while (calls && fgets(all, sizeof all, calls))
        count += !strncmp(all, function, strlen(function)) && all[strlen(function)] == ' ';
    if (calls) fclose(calls);
    return count;
}

struct rule {
    char what[16];
    long value;
};

static struct rule rule_of(const char *function) {
    struct rule found = {"", 0}, one;
    char line[256], name[64];
    long from, to, number = -1;
    const char *path = getenv("SHIM_RULES");
    FILE *rules = path ? fopen(path, "r") : NULL;
    while (rules && fgets(line, sizeof line, rules)) {
        if (sscanf(line, "%63s %ld %ld %15s %ld", name, &from, &to, one.what, &one.value) != 5)
            continue;
        if (strcmp(name, function)) continue;
        if (number < 0) number = number_of(function);
        if (number < from || number > to) continue;
        found = one;
    }
    if (rules) fclose(rules);
    if (!strcmp(found.what, "late")) usleep((useconds_t)found.value);
    if (!strcmp(found.what, "die")) kill(getpid(), (int)found.value);
    return found;
}

#define IS(word) (!strcmp(rule.what, word))
#define BEGIN(name)                             \
    struct rule rule = rule_of(name);           \
    if (IS("return")) return (CK_RV)rule.value; \
    if (IS("lie")) return CKR_OK

static CK_RV initialize(void *given) {
    BEGIN("C_Initialize");
    owner = getpid();
    return real->C_Initialize(given);
}

static CK_RV open_session(CK_SLOT_ID slot, CK_FLAGS flags, void *application, CK_NOTIFY notify,
                          CK_SESSION_HANDLE *session) {
    BEGIN("C_OpenSession");
    return real->C_OpenSession(slot, flags, application, notify, session);
}

static CK_RV login(CK_SESSION_HANDLE session, CK_USER_TYPE user, CK_BYTE *pin, CK_ULONG pin_len) {
    BEGIN("C_Login");
    return real->C_Login(session, user, pin, pin_len);
}

static CK_RV encrypt_init(CK_SESSION_HANDLE session, CK_MECHANISM *mechanism,
                          CK_OBJECT_HANDLE key) {
    BEGIN("C_EncryptInit");
    /* A session belongs to the process that initialized the library. */
    if (owner != getpid()) return CKR_CRYPTOKI_NOT_INITIALIZED;
    return real->C_EncryptInit(session, mechanism, key);
}

static CK_RV decrypt_init(CK_SESSION_HANDLE session, CK_MECHANISM *mechanism,
                          CK_OBJECT_HANDLE key) {
    BEGIN("C_DecryptInit");
    if (owner != getpid()) return CKR_CRYPTOKI_NOT_INITIALIZED;
    return real->C_DecryptInit(session, mechanism, key);
}

typedef CK_RV operation(CK_SESSION_HANDLE, CK_BYTE *, CK_ULONG, CK_BYTE *, CK_ULONG *);

static CK_RV operate(const char *name, operation *real_one, CK_SESSION_HANDLE session, CK_BYTE *in,
                     CK_ULONG in_len, CK_BYTE *out, CK_ULONG *out_len) {
    BEGIN(name);
    if (IS("most") && in_len > (CK_ULONG)rule.value) return CKR_DATA_LEN_RANGE;
    CK_RV status = real_one(session, in, in_len, out, out_len);
    if (IS("short") && status == CKR_OK) *out_len -= (CK_ULONG)rule.value;
    return status;
}

static CK_RV encrypt(CK_SESSION_HANDLE session, CK_BYTE *in, CK_ULONG in_len, CK_BYTE *out,
                     CK_ULONG *out_len) {
    return operate("C_Encrypt", real->C_Encrypt, session, in, in_len, out, out_len);
}

static CK_RV decrypt(CK_SESSION_HANDLE session, CK_BYTE *in, CK_ULONG in_len, CK_BYTE *out,
                     CK_ULONG *out_len) {
    return operate("C_Decrypt", real->C_Decrypt, session, in, in_len, out, out_len);
}

CK_RV C_GetFunctionList(CK_FUNCTION_LIST_PTR_PTR list) {
    void *library = dlopen(getenv("SHIM_MODULE"), RTLD_NOW | RTLD_LOCAL);
    CK_RV (*get)(CK_FUNCTION_LIST_PTR_PTR);
    if (!library) return CKR_GENERAL_ERROR;
    *(void **)&get = dlsym(library, "C_GetFunctionList");
    CK_RV status = get(&real);
    if (status != CKR_OK) return status;
    ours = *real;
    ours.C_Initialize = initialize;
    ours.C_OpenSession = open_session;
    ours.C_Login = login;
    ours.C_EncryptInit = encrypt_init;
    ours.C_Encrypt = encrypt;
    ours.C_DecryptInit = decrypt_init;
    ours.C_Decrypt = decrypt;
    *list = &ours;
    return CKR_OK;
}
