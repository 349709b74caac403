/* token.c: wraps and unwraps keys under a KEK that never leaves a PKCS #11 token. The token only
 * encrypts and decrypts single blocks (CKM_AES_ECB); libkeywrap does the rest.
 *
 *     cc token.c $(pkg-config --cflags --libs keywrap p11-kit-1) -ldl -o token
 *     ./token /usr/lib/softhsm/libsofthsm2.so PIN [COUNT]
 *
 * It generates two KEKs in the token, never extractable, and shows that the wrapped key is the one
 * that the token's own C_WrapKey makes. It also wraps a key of 20 bytes with padding, for which
 * many tokens have no mechanism, and rewraps it from one KEK to the other. At last it rewraps 1,000
 * keys, with a block of each in one call of the token, or COUNT keys, and prints how fast. */

#include <dlfcn.h>
#include <keywrap.h>
#include <keywrap_steps.h>
#include <p11-kit/pkcs11.h>
#include <stdio.h>
#include <stdlib.h>
#include <string.h>
#include <time.h>

static CK_FUNCTION_LIST_PTR token;
static CK_SESSION_HANDLE session;
static CK_OBJECT_HANDLE kek, new_kek;
static const uint8_t iv[8] = {0xa6, 0xa6, 0xa6, 0xa6, 0xa6, 0xa6, 0xa6, 0xa6};

static void must(int holds, const char *what) {
    if (holds) return;
    fprintf(stderr, "token: %s\n", what);
    exit(1);
}

/* Makes all steps with the token's AES under this KEK, or undoes them. */
static void run_steps(CK_OBJECT_HANDLE under, int decrypts, uint8_t *registers, size_t room,
                      uint64_t *steps, uint8_t block[16]) {
    CK_MECHANISM ecb = {CKM_AES_ECB, NULL, 0};
    CK_BYTE nothing[16];
    CK_ULONG len = 16, rest = sizeof nothing;
    must((decrypts ? token->C_DecryptInit : token->C_EncryptInit)(session, &ecb, under) == CKR_OK,
         "C_EncryptInit, C_DecryptInit");
    for (uint64_t left = keywrap_step_count(room); left > 0; left--) {
        must((decrypts ? token->C_DecryptUpdate : token->C_EncryptUpdate)(session, block, 16, block,
                                                                          &len)
                     == CKR_OK
                 && len == 16,
             "the token's AES");
        must((decrypts ? keywrap_step_unwrap : keywrap_step_wrap)(registers, room, steps, block)
                 == KEYWRAP_OK,
             "step");
    }
    must((decrypts ? token->C_DecryptFinal : token->C_EncryptFinal)(session, nothing, &rest)
             == CKR_OK,
         "C_EncryptFinal, C_DecryptFinal");
}

/* Makes all steps of a wrapping that has begun. */
static void finish_wrap(uint8_t *wrapped, size_t room, uint8_t block[16]) {
    uint64_t done = 0;
    run_steps(kek, 0, wrapped + 8, room, &done, block);
    must(keywrap_end_wrap(wrapped, wrapped + 8, room, done, block) == KEYWRAP_OK, "end");
}

/* Wraps a key of 32 bytes by the token's own mechanism, and returns the length of the wrapped key. */
static size_t wrapped_by_token(CK_OBJECT_HANDLE under, const uint8_t key[32], uint8_t wrapped[64]) {
    CK_OBJECT_CLASS class = CKO_SECRET_KEY;
    CK_KEY_TYPE type = CKK_AES;
    CK_BBOOL yes = CK_TRUE, no = CK_FALSE;
    CK_OBJECT_HANDLE object;
    CK_ULONG len = 64;
    CK_MECHANISM own = {CKM_AES_KEY_WRAP, NULL, 0};
    CK_ATTRIBUTE is[] = {{CKA_CLASS, &class, sizeof class},
                         {CKA_KEY_TYPE, &type, sizeof type},
                         {CKA_TOKEN, &no, 1},
                         {CKA_EXTRACTABLE, &yes, 1},
                         {CKA_VALUE, (void *)key, 32}};
    must(token->C_CreateObject(session, is, 5, &object) == CKR_OK, "C_CreateObject");
    must(token->C_WrapKey(session, &own, under, object, wrapped, &len) == CKR_OK, "C_WrapKey");
    must(token->C_DestroyObject(session, object) == CKR_OK, "C_DestroyObject");
    return len;
}

/* A key of 32 bytes is wrapped by steps and by the token itself. */
static void plain(void) {
    uint8_t key[32], wrapped[8 + 32], block[16], by_token[64];
    uint64_t done, left;
    for (size_t i = 0; i < sizeof key; i++) key[i] = (uint8_t)(7 * i + 1);
    memcpy(wrapped + 8, key, sizeof key);
    must(keywrap_begin_wrap(iv, 8, wrapped + 8, 32, &done, block) == KEYWRAP_OK, "begin");
    finish_wrap(wrapped, 32, block);

    must(wrapped_by_token(kek, key, by_token) == sizeof wrapped, "C_WrapKey makes another length");
    must(!memcmp(by_token, wrapped, sizeof wrapped), "C_WrapKey makes other bytes");
    puts("plain: the same wrapped key as C_WrapKey");

    uint8_t *registers = by_token + 8;
    must(keywrap_begin_unwrap(by_token, registers, 32, &left, block) == KEYWRAP_OK, "begin");
    run_steps(kek, 1, registers, 32, &left, block);
    must(keywrap_end_unwrap(iv, 8, registers, 32, left, block) == KEYWRAP_OK, "integrity");
    must(!memcmp(registers, key, 32), "another key");
    puts("plain: unwrapped");
}

/* Rewraps a text. Which steps come next, and under which KEK, is in the phase. */
static int32_t rewrap(uint8_t *text, size_t text_len, uint32_t flags) {
    uint8_t block[16];
    uint64_t steps;
    uint32_t phase;
    int32_t status = keywrap_begin_rewrap(flags, text, text_len, &phase, &steps, block);
    while (phase != 0) {
        run_steps(phase & KEYWRAP_NEW ? new_kek : kek, phase & KEYWRAP_DECRYPT, text + 8,
                  text_len - 8, &steps, block);
        status = keywrap_next_rewrap(flags, text, text_len, &phase, &steps, block);
    }
    return status;
}

/* A wrapped key of 20 bytes is rewrapped, and is refused, unchanged, once it is under the new KEK. */
static void rewrapped(void) {
    uint8_t key[20], text[8 + 24], again[8 + 24], block[16];
    uint64_t done, left;
    size_t len;
    uint32_t is_padded;
    for (size_t i = 0; i < sizeof key; i++) key[i] = (uint8_t)(3 * i + 4);
    memcpy(text + 8, key, sizeof key);
    must(keywrap_begin_wrap_padded(20, text + 8, 24, &done, block) == KEYWRAP_OK, "begin");
    finish_wrap(text, 24, block);
    must(rewrap(text, sizeof text, KEYWRAP_KEEP_FORM) == KEYWRAP_OK, "rewrap");
    memcpy(again, text, sizeof again);
    must(rewrap(again, sizeof again, KEYWRAP_KEEP_FORM) == KEYWRAP_INTEGRITY, "rewrapped twice");
    must(!memcmp(again, text, sizeof text), "the refused text is another");
    must(rewrap(again, sizeof again, KEYWRAP_KEEP_FORM | KEYWRAP_PASS_NEW) == KEYWRAP_ALREADY_NEW,
         "not passed");

    must(keywrap_begin_unwrap_padded(text, text + 8, 24, &left, block) == KEYWRAP_OK, "begin");
    run_steps(new_kek, 1, text + 8, 24, &left, block);
    must(keywrap_end_unwrap_any(text + 8, 24, left, block, &is_padded, &len) == KEYWRAP_OK,
         "integrity");
    must(is_padded == 1 && len == 20 && !memcmp(text + 8, key, 20), "another key");
    puts("rewrap: from one KEK of the token to another");
}

enum { KEY_LEN = 32, TEXT_LEN = 8 + KEY_LEN };

/* Many wrapped keys, one behind the other. */
struct texts {
    size_t count;
    uint8_t *all, *copies, *blocks, *statuses;
    uint64_t steps;
    int calls;
};

static void *allocated(size_t len) {
    void *memory = calloc(len, 1);
    must(memory != NULL, "no memory");
    return memory;
}

/* Makes all steps of each text, or undoes them. A call of the token has a block of each. */
static void run_steps_of_all(struct texts *t, CK_OBJECT_HANDLE under, int decrypts) {
    CK_MECHANISM ecb = {CKM_AES_ECB, NULL, 0};
    const CK_ULONG blocks_len = 16 * t->count;
    for (uint64_t left = keywrap_step_count(KEY_LEN); left > 0; left--) {
        CK_ULONG len = blocks_len;
        must((decrypts ? token->C_DecryptInit : token->C_EncryptInit)(session, &ecb, under)
                 == CKR_OK,
             "C_EncryptInit, C_DecryptInit");
        must((decrypts ? token->C_Decrypt : token->C_Encrypt)(session, t->blocks, blocks_len,
                                                              t->blocks, &len)
                     == CKR_OK
                 && len == blocks_len,
             "the token's AES");
        must((decrypts ? keywrap_step_unwrap_many : keywrap_step_wrap_many)(
                 t->all, TEXT_LEN * t->count, TEXT_LEN, &t->steps, t->blocks, blocks_len)
                 == KEYWRAP_OK,
             "step");
        t->calls++;
    }
}

/* Rewraps the texts. One that is refused stays as it is, and its status says so. */
static void rewrap_all(struct texts *t) {
    const size_t all_len = TEXT_LEN * t->count, blocks_len = 16 * t->count;
    memcpy(t->copies, t->all, all_len);
    must(keywrap_begin_unwrap_many(t->all, all_len, TEXT_LEN, &t->steps, t->blocks, blocks_len)
             == KEYWRAP_OK,
         "begin");
    run_steps_of_all(t, kek, 1);
    must(keywrap_end_unwrap_many(iv, 8, t->all, all_len, TEXT_LEN, t->steps, t->blocks, blocks_len,
                                 t->statuses, t->count)
             == KEYWRAP_OK,
         "end");
    must(keywrap_begin_wrap_many(iv, 8, t->all, all_len, TEXT_LEN, &t->steps, t->blocks, blocks_len)
             == KEYWRAP_OK,
         "begin");
    run_steps_of_all(t, new_kek, 0);
    must(keywrap_end_wrap_many(t->all, all_len, TEXT_LEN, t->steps, t->blocks, blocks_len)
             == KEYWRAP_OK,
         "end");
    /* The bytes of a refused one are now a wrapping of zeros, which is a key that nobody wrapped. */
    for (size_t i = 0; i < t->count; i++)
        if (t->statuses[i] != KEYWRAP_OK)
            memcpy(t->all + TEXT_LEN * i, t->copies + TEXT_LEN * i, TEXT_LEN);
}

/* A key for each number. */
static void make_key(uint8_t key[KEY_LEN], size_t number) {
    for (size_t i = 0; i < KEY_LEN; i++) key[i] = (uint8_t)((number >> (i % 3 * 8)) + 5 * i);
}

/* Many keys that the token has wrapped are rewrapped, except one that is damaged. The token wraps each
 * of them under the new KEK, too. Returns how many a second of the processor. */
static double many(size_t count) {
    struct texts t = {.count = count};
    uint8_t key[KEY_LEN], by_token[64];
    t.all = allocated(TEXT_LEN * count);
    t.copies = allocated(TEXT_LEN * count);
    t.blocks = allocated(16 * count);
    t.statuses = allocated(count);
    for (size_t i = 0; i < count; i++) {
        make_key(key, i);
        must(wrapped_by_token(kek, key, by_token) == TEXT_LEN, "C_WrapKey makes another length");
        memcpy(t.all + TEXT_LEN * i, by_token, TEXT_LEN);
    }
    t.all[TEXT_LEN * (count / 2)] ^= 1;

    const clock_t begun = clock();
    rewrap_all(&t);
    const double seconds = (double)(clock() - begun) / CLOCKS_PER_SEC;

    for (size_t i = 0; i < count; i++) {
        const uint8_t *text = t.all + TEXT_LEN * i;
        if (i == count / 2) {
            must(t.statuses[i] == KEYWRAP_INTEGRITY, "the damaged one is not refused");
            must(!memcmp(text, t.copies + TEXT_LEN * i, TEXT_LEN), "the refused text is another");
            continue;
        }
        make_key(key, i);
        must(t.statuses[i] == KEYWRAP_OK, "refused");
        wrapped_by_token(new_kek, key, by_token);
        must(!memcmp(text, by_token, TEXT_LEN), "C_WrapKey makes other bytes");
    }
    printf("many: %zu keys rewrapped in %d calls of the token, 1 refused\n", count - 1, t.calls);
    free(t.all);
    free(t.copies);
    free(t.blocks);
    free(t.statuses);
    return (double)count / seconds;
}

/* Generates a KEK of 32 bytes that cannot be read. */
static CK_OBJECT_HANDLE generate(void) {
    CK_OBJECT_HANDLE made;
    CK_MECHANISM of_aes = {CKM_AES_KEY_GEN, NULL, 0};
    CK_ULONG len = 32;
    CK_BBOOL yes = CK_TRUE, no = CK_FALSE, never = CK_FALSE;
    CK_ATTRIBUTE is[] = {{CKA_VALUE_LEN, &len, sizeof len},
                         {CKA_TOKEN, &no, 1},
                         {CKA_SENSITIVE, &yes, 1},
                         {CKA_EXTRACTABLE, &no, 1},
                         {CKA_ENCRYPT, &yes, 1},
                         {CKA_DECRYPT, &yes, 1},
                         {CKA_WRAP, &yes, 1}};
    CK_ATTRIBUTE asked = {CKA_NEVER_EXTRACTABLE, &never, 1};
    must(token->C_GenerateKey(session, &of_aes, is, 7, &made) == CKR_OK, "C_GenerateKey");
    must(token->C_GetAttributeValue(session, made, &asked, 1) == CKR_OK && never == CK_TRUE,
         "the KEK could be extracted");
    return made;
}

int main(int argc, char **argv) {
    CK_SLOT_ID slots[16];
    CK_ULONG count = 16;
    must(argc == 3 || argc == 4, "usage: token MODULE PIN [COUNT]");
    const size_t number = argc == 4 ? strtoul(argv[3], NULL, 10) : 1000;
    must(number > 0, "COUNT is not a number");
    void *module = dlopen(argv[1], RTLD_NOW);
    must(module != NULL, "no such module");
    CK_C_GetFunctionList list = (CK_C_GetFunctionList)(uintptr_t)dlsym(module, "C_GetFunctionList");
    must(list != NULL && list(&token) == CKR_OK, "no C_GetFunctionList");
    must(token->C_Initialize(NULL) == CKR_OK, "C_Initialize");
    must(token->C_GetSlotList(CK_TRUE, slots, &count) == CKR_OK && count > 0, "no token");
    must(token->C_OpenSession(slots[0], CKF_SERIAL_SESSION | CKF_RW_SESSION, NULL, NULL, &session)
             == CKR_OK,
         "C_OpenSession");
    must(token->C_Login(session, CKU_USER, (CK_UTF8CHAR *)argv[2], (CK_ULONG)strlen(argv[2]))
             == CKR_OK,
         "C_Login");
    kek = generate();
    new_kek = generate();
    plain();
    rewrapped();
    const double rate = many(number);
    if (argc == 4) printf("%.0f keys a second of the processor\n", rate);
    token->C_Finalize(NULL);
    return 0;
}
