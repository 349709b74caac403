/* threads.c: threads that wrap, rewrap and unwrap many keys at the same time, each over buffers of its
 * own. They begin together, so their first calls decide together which AES is used. Each key comes
 * back as it was, and a damaged one is refused. The last line is 'N passed, M failed'. */

#define _POSIX_C_SOURCE 200809L

#include <keywrap.h>
#include <pthread.h>
#include <stdio.h>
#include <string.h>

enum { THREADS = 8, ROUNDS = 40, SLOTS = 49, KEY_LEN = 32, TEXT_LEN = KEY_LEN + 8 };

struct work {
    uint8_t old_kek[32], new_kek[24], keys[SLOTS][KEY_LEN];
    uint8_t texts[SLOTS][TEXT_LEN], wanted[SLOTS][TEXT_LEN], statuses[SLOTS];
    size_t key_lens[SLOTS];
    unsigned failed;
};

static struct work works[THREADS];
static pthread_barrier_t begin;

static void check(struct work *work, int right) {
    work->failed += !right;
}

/* Whether the call succeeded, and refused this slot alone. */
static int are_statuses(const struct work *work, int32_t status, size_t refused) {
    for (size_t i = 0; i < SLOTS; i++)
        if (work->statuses[i] != (i == refused ? KEYWRAP_INTEGRITY : KEYWRAP_OK)) return 0;
    return status == KEYWRAP_OK;
}

/* Wraps the keys under the old KEK, by one call and one by one. */
static void wraps(struct work *work) {
    for (size_t i = 0; i < SLOTS; i++) {
        memset(work->texts[i], 0, 8);
        memcpy(work->texts[i] + 8, work->keys[i], KEY_LEN);
        check(work, keywrap_wrap(work->old_kek, sizeof work->old_kek, work->keys[i], KEY_LEN,
                                 work->wanted[i], TEXT_LEN)
                        == KEYWRAP_OK);
    }
    const int32_t status = keywrap_wrap_many(work->old_kek, sizeof work->old_kek, *work->texts,
                                             sizeof work->texts, KEY_LEN, 0, work->statuses, SLOTS);
    check(work, are_statuses(work, status, SLOTS));
    check(work, memcmp(work->texts, work->wanted, sizeof work->texts) == 0);
}

/* Rewraps them, of which a damaged one is refused, and unwraps them under the new KEK. */
static void rewraps(struct work *work, size_t damaged) {
    work->texts[damaged][damaged % TEXT_LEN] ^= 1;
    int32_t status = keywrap_rewrap_many(work->old_kek, sizeof work->old_kek, work->new_kek,
                                         sizeof work->new_kek, *work->texts, sizeof work->texts,
                                         KEYWRAP_KEEP_FORM, work->statuses, SLOTS);
    check(work, are_statuses(work, status, damaged));
    status =
        keywrap_unwrap_many(work->new_kek, sizeof work->new_kek, *work->texts, sizeof work->texts,
                            0, work->key_lens, SLOTS, work->statuses, SLOTS);
    check(work, are_statuses(work, status, damaged));
    memset(work->keys[damaged], 0, KEY_LEN);
    for (size_t i = 0; i < SLOTS; i++)
        check(work, memcmp(work->texts[i] + 8, work->keys[i], KEY_LEN) == 0);
}

static void *works_alone(void *argument) {
    struct work *work = argument;
    const size_t thread = (size_t)(work - works);
    pthread_barrier_wait(&begin);
    for (size_t round = 0; round < ROUNDS; round++) {
        const size_t damaged = (7 * thread + 5 * round) % SLOTS;
        for (size_t i = 0; i < SLOTS; i++)
            for (size_t j = 0; j < KEY_LEN; j++)
                work->keys[i][j] = (uint8_t)(thread + 3 * round + 31 * i + 11 * j);
        memset(work->old_kek, (int)(2 * thread + 1), sizeof work->old_kek);
        memset(work->new_kek, (int)(2 * thread + 2), sizeof work->new_kek);
        wraps(work);
        rewraps(work, damaged);
    }
    return NULL;
}

int main(void) {
    pthread_t threads[THREADS];
    unsigned failed = 0;
    if (pthread_barrier_init(&begin, NULL, THREADS) != 0) return 2;
    for (size_t i = 0; i < THREADS; i++)
        if (pthread_create(threads + i, NULL, works_alone, works + i) != 0) return 2;
    for (size_t i = 0; i < THREADS; i++) {
        if (pthread_join(threads[i], NULL) != 0) return 2;
        failed += works[i].failed;
    }
    printf("%d passed, %u failed\n", THREADS * ROUNDS, failed);
    return failed != 0;
}
