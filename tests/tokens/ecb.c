/* ecb.c: AES-ECB under two KEKs in a PKCS #11 token, which the environment's KEYWRAP_MODULE names. The
 * programs of tests/tokens rewrap by it. It counts the calls of the token and their blocks. */

#include "ecb.h"

#include <dlfcn.h>
#include <p11-kit/pkcs11.h>
#include <stdio.h>
#include <stdlib.h>
#include <string.h>

static CK_FUNCTION_LIST_PTR token;
static CK_SESSION_HANDLE session;
static CK_OBJECT_HANDLE keks[2];
static unsigned long calls, blocks;

static void must(CK_RV returned, const char *call) {
    if (returned == CKR_OK) return;
    fprintf(stderr, "%s: %#lx\n", call, returned);
    exit(1);
}

/* Puts a KEK into the token, for this session only. */
static CK_OBJECT_HANDLE put(const char *digits) {
    CK_OBJECT_CLASS class = CKO_SECRET_KEY;
    CK_KEY_TYPE type = CKK_AES;
    CK_BBOOL yes = CK_TRUE, no = CK_FALSE;
    CK_BYTE kek[32];
    CK_OBJECT_HANDLE object;
    CK_ATTRIBUTE is[] = {{CKA_CLASS, &class, sizeof class},
                         {CKA_KEY_TYPE, &type, sizeof type},
                         {CKA_TOKEN, &no, 1},
                         {CKA_ENCRYPT, &yes, 1},
                         {CKA_DECRYPT, &yes, 1},
                         {CKA_VALUE, kek, sizeof kek}};
    for (size_t i = 0; i < sizeof kek; i++) {
        unsigned byte;
        if (sscanf(digits + 2 * i, "%2x", &byte) != 1) exit(1);
        kek[i] = (CK_BYTE)byte;
    }
    must(token->C_CreateObject(session, is, 6, &object), "C_CreateObject");
    return object;
}

void ecb_open(const char *old_kek, const char *new_kek) {
    CK_SLOT_ID slots[16];
    CK_ULONG count = 16;
    void *module = dlopen(getenv("KEYWRAP_MODULE"), RTLD_NOW);
    if (module == NULL) exit(1);
    CK_C_GetFunctionList list = (CK_C_GetFunctionList)(uintptr_t)dlsym(module, "C_GetFunctionList");
    must(list(&token), "C_GetFunctionList");
    must(token->C_Initialize(NULL), "C_Initialize");
    must(token->C_GetSlotList(CK_TRUE, slots, &count), "C_GetSlotList");
    must(token->C_OpenSession(slots[0], CKF_SERIAL_SESSION | CKF_RW_SESSION, NULL, NULL, &session),
         "C_OpenSession");
    must(token->C_Login(session, CKU_USER, (CK_UTF8CHAR *)"1234", 4), "C_Login");
    keks[0] = put(old_kek);
    keks[1] = put(new_kek);
}

int ecb_crypt(int is_new, int decrypts, const uint8_t *src, uint8_t *dst, size_t len) {
    CK_MECHANISM ecb = {CKM_AES_ECB, NULL, 0};
    CK_ULONG written = len;
    CK_RV returned;
    calls++;
    blocks += len / 16;
    if (decrypts) {
        must(token->C_DecryptInit(session, &ecb, keks[is_new]), "C_DecryptInit");
        returned = token->C_Decrypt(session, (CK_BYTE *)src, len, dst, &written);
    } else {
        must(token->C_EncryptInit(session, &ecb, keks[is_new]), "C_EncryptInit");
        returned = token->C_Encrypt(session, (CK_BYTE *)src, len, dst, &written);
    }
    return returned == CKR_OK && written == len ? 0 : -1;
}

unsigned long ecb_calls(void) {
    return calls;
}

unsigned long ecb_blocks(void) {
    return blocks;
}
