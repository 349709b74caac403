/* fuzz.c: random calls, right ones and refusals, of the library and of keywrap.c of dist/. The status and each byte
 * that a call may write have to agree.
 *
 * usage: fuzz CASES SEED */

#include <keywrap_steps.h>
#include <stdio.h>
#include <stdlib.h>
#include <string.h>

#include "fuzz.h"

static uint64_t state;

static uint32_t any(uint32_t below) {
    state ^= state << 13;
    state ^= state >> 7;
    state ^= state << 17;
    return (uint32_t)(state >> 16) % below;
}

static size_t any_kek_len(void) {
    static const size_t LENS[] = {16,  24,  32, 184, 216, 248, 16, 24,  32,  184,
                                  216, 248, 0,  8,   17,  33,  40, 176, 185, 264};
    return LENS[any(20)];
}

/* A kept KEK, of some KEK or with random round keys. Some have no mark. */
static void keep(uint8_t *kek, size_t len) {
    uint8_t from[40];
    if (len < 176) return;
    memcpy(from, kek + 8, sizeof from);
    memcpy(kek, "kept KEK", 8);
    if (any(2) && keywrap_kek_init(from, len / 4 - 30, kek, len) != KEYWRAP_OK) return;
    if (any(8) == 0) kek[any(8)] ^= (uint8_t)(1 << any(8));
}

static struct choice any_choice(void) {
    struct choice c = {.call = (int)any(CALLS)};
    c.kek_len = any_kek_len();
    c.new_kek_len = any_kek_len();
    if (c.call == KEK_INIT && c.kek_len <= 32 && any(4)) c.new_kek_len = KEYWRAP_KEK_LEN(c.kek_len);
    c.iv_len = any(8) ? 8 : any(12);
    c.key_len = any(4) ? 8 * (size_t)any(16) : any(120);
    c.text_len = any(6) ? (c.key_len + 7) / 8 * 8 + 8 : any(LONGEST);
    c.room = any(6) ? KEYWRAP_ROOM(c.text_len) : any(LONGEST);
    c.count = any(20) ? 1 + any(SLOTS) : 0;
    c.texts_len = any(12) ? c.count * c.text_len : any(SLOTS * LONGEST);
    if (c.texts_len > SLOTS * LONGEST) c.texts_len = 0;
    c.others = any(12) ? c.count : any(SLOTS);
    c.flags = any(8) ? any(6) : any(20);
    if (any(3) == 0) c.flags |= KEYWRAP_PASS_NEW;
    return c;
}

/* Wraps a key into the text, in any form and under any of the two KEKs; some are damaged. */
static void fill(struct world *w, const struct choice *c, uint8_t *text) {
    const int is_new = any(5) == 0, padded = (int)any(2);
    const uint8_t *kek = is_new ? w->new_kek : w->kek;
    const size_t kek_len = is_new ? c->new_kek_len : c->kek_len;
    int32_t status;
    if (c->call == UNWRAP_WITH)
        status = keywrap_wrap_with(kek, kek_len, w->iv, c->iv_len, w->key, c->key_len, text,
                                   c->text_len);
    else if (padded)
        status = keywrap_wrap_padded(kek, kek_len, w->key, c->key_len, text, c->text_len);
    else status = keywrap_wrap(kek, kek_len, w->key, c->key_len, text, c->text_len);
    if (status == KEYWRAP_OK && any(6) == 0)
        text[any((uint32_t)c->text_len)] ^= (uint8_t)(1 << any(8));
}

/* Puts the first run of a rewrap at its end, or before it. */
static void begin_rewrap(struct world *w, const struct choice *c) {
    uint8_t block[16];
    const int32_t status =
        keywrap_begin_rewrap(c->flags, w->text, c->text_len, &w->flag, &w->steps, block);
    if (status == KEYWRAP_OK && any(4)) w->steps = 0;
}

static void fill_all(struct world *w, const struct choice *c) {
    static const uint8_t RESERVED[4] = {0xa6, 0x59, 0x59, 0xa6};
    for (size_t i = 0; i < sizeof *w; i++) ((uint8_t *)w)[i] = (uint8_t)any(256);
    keep(w->kek, c->kek_len);
    keep(w->new_kek, c->new_kek_len);
    if (any(2)) memset(w->iv, 0xa6, 8);
    if (any(6) == 0) memcpy(w->iv, RESERVED, 4);
    if (any(8)) fill(w, c, w->text);
    if (c->count * c->text_len <= sizeof w->texts)
        for (size_t i = 0; i < c->count; i++)
            if (any(8)) fill(w, c, w->texts + c->text_len * i);
    /* Of many wrapped keys the length of a text says how many steps there are. */
    const size_t registers = c->call < BEGIN_WRAP_MANY ? c->room / 8 : c->text_len / 8 - 1;
    const uint32_t steps = c->text_len < 8 ? 0 : 6 * (uint32_t)registers;
    w->steps = any(4) ? any(steps + 2) : any(3) ? 0 : steps;
    for (size_t i = 0; i < SLOTS && any(3); i++) memcpy(w->blocks + 16 * i, w->iv, 8);
    if (any(3) == 0) memcpy(w->block, w->iv, 8);
    if ((c->call == NEXT_REWRAP || c->call == NEXT_REWRAP_FROM) && any(8)) begin_rewrap(w, c);
    if ((c->call == END_UNWRAP_PADDED || c->call == END_UNWRAP_ANY) && any(3)) {
        memcpy(w->block, RESERVED, 4);
        for (int i = 4; i < 8; i++) w->block[i] = (uint8_t)(c->key_len >> 8 * (7 - i));
        if (any(4)) memset(w->key + c->key_len, 0, 8);
        w->steps = 0;
    }
}

int main(int argc, char **argv) {
    static struct world before, one, two;
    static long done[CALLS], refused[CALLS];
    const long cases = argc > 1 ? atol(argv[1]) : 1000;
    state = 88172645463325252u + (argc > 2 ? (uint64_t)atol(argv[2]) : 0);
    for (long i = 0; i < cases; i++) {
        const struct choice choice = any_choice();
        fill_all(&before, &choice);
        one = two = before;
        const int32_t expected = library_call(&one, &choice), status = dist_call(&two, &choice);
        if (status != expected || memcmp(&one, &two, sizeof one) != 0) {
            printf("FAILED: case %ld, call %d: %d for %d\n", i, choice.call, (int)status,
                   (int)expected);
            return 1;
        }
        (status == KEYWRAP_OK ? done : refused)[choice.call]++;
    }
    for (int call = 0; call < CALLS; call++)
        if (done[call] == 0 || refused[call] == 0) {
            if (call == STATUS_TEXT || call == KEK_CLEAR) continue;
            printf("FAILED: call %d: %ld done, %ld refused\n", call, done[call], refused[call]);
            return 1;
        }
    printf("%ld cases agree\n", cases);
    return 0;
}
