/* timing.c: measures whether the time of a call depends on its inputs, by fixed inputs against random ones, and Welch's
 * t-test (the method of dudect). For each call it prints the median time, the largest |t| over all crops, and the |t|
 * without a crop. Above 4.5 the means differ. It needs an x86-64, for its counter.
 *
 * usage: timing CALLS        (the number of measured calls; 10000000 for the figures of SECURITY.md) */

#include <keywrap.h>
#include <math.h>
#include <stdio.h>
#include <stdlib.h>
#include <string.h>
#include <x86intrin.h>

enum { KEK = 32, KEY = 32, TEXT = KEY + 8, BATCH = 4096, CROPS = 20 };

struct input {
    uint8_t kek[KEK], key[KEY], text[TEXT];
};

enum call { WRAP, UNWRAP, REFUSED };
static const char *const NAMES[] = {"keywrap_wrap", "keywrap_unwrap", "keywrap_unwrap, refused"};

/* xorshift64*: the inputs need not be secret. */
static uint64_t state = 88172645463325252u;
static uint64_t number(void) {
    state ^= state >> 12;
    state ^= state << 25;
    state ^= state >> 27;
    return state * 2685821657736338717u;
}

static void fill(uint8_t *to, size_t n) {
    for (size_t i = 0; i < n; i += 8) {
        const uint64_t v = number();
        memcpy(to + i, &v, 8);
    }
}

static void must_be(int32_t status, int32_t wanted) {
    if (status == wanted) return;
    fprintf(stderr, "timing: status %d\n", (int)status);
    exit(1);
}

/* Random bytes. To unwrap, the text is the key's; to refuse, it is any. */
static void make(struct input *in, enum call call) {
    fill(in->kek, KEK);
    fill(in->key, KEY);
    fill(in->text, TEXT);
    if (call == UNWRAP)
        must_be(keywrap_wrap(in->kek, KEK, in->key, KEY, in->text, TEXT), KEYWRAP_OK);
}

static uint64_t measured(const struct input *in, enum call call) {
    uint8_t out[TEXT];
    unsigned processor;
    int32_t status;
    _mm_lfence();
    const uint64_t begun = __rdtsc();
    _mm_lfence();
    if (call == WRAP) status = keywrap_wrap(in->kek, KEK, in->key, KEY, out, TEXT);
    else status = keywrap_unwrap(in->kek, KEK, in->text, TEXT, out, KEY);
    const uint64_t ended = __rdtscp(&processor);
    _mm_lfence();
    must_be(status, call == REFUSED ? KEYWRAP_INTEGRITY : KEYWRAP_OK);
    return ended - begun;
}

/* The mean and the squares of the deviations so far, of both classes. */
struct test {
    double n[2], mean[2], squares[2];
};

static void add(struct test *test, int class, double x) {
    test->n[class]++;
    const double before = x - test->mean[class];
    test->mean[class] += before / test->n[class];
    test->squares[class] += before * (x - test->mean[class]);
}

static double t_of(const struct test *test) {
    double variance = 0;
    for (int i = 0; i < 2; i++) {
        if (test->n[i] < 1000) return 0;
        variance += test->squares[i] / (test->n[i] - 1) / test->n[i];
    }
    return variance > 0 ? fabs(test->mean[0] - test->mean[1]) / sqrt(variance) : 0;
}

static int compare(const void *a, const void *b) {
    const uint64_t x = *(const uint64_t *)a, y = *(const uint64_t *)b;
    return (x > y) - (x < y);
}

static void run(enum call call, long calls) {
    static struct input inputs[BATCH];
    static int classes[BATCH];
    static uint64_t times[BATCH], sorted[BATCH];
    struct test tests[CROPS + 1] = {0};
    uint64_t most[CROPS];
    struct input fixed;
    make(&fixed, call);
    for (long done = 0; done < calls + BATCH; done += BATCH) {
        for (int i = 0; i < BATCH; i++) {
            /* Both classes are made in the same way, so that the caches are in the same state. */
            make(&inputs[i], call);
            classes[i] = (int)(number() >> 63);
            struct input *from[] = {&fixed, &inputs[i]};
            const struct input chosen = *from[classes[i]];
            inputs[i] = chosen;
        }
        for (int i = 0; i < BATCH; i++) times[i] = measured(&inputs[i], call);
        if (done == 0) {
            /* The first batch only warms up, and chooses the crops: from half of the calls to almost all. */
            memcpy(sorted, times, sizeof sorted);
            qsort(sorted, BATCH, sizeof *sorted, compare);
            for (int i = 0; i < CROPS; i++)
                most[i] = sorted[(int)(BATCH * (1 - pow(0.5, 1 + 0.5 * i)))];
            continue;
        }
        for (int i = 0; i < BATCH; i++) {
            add(&tests[CROPS], classes[i], (double)times[i]);
            for (int j = 0; j < CROPS; j++)
                if (times[i] <= most[j]) add(&tests[j], classes[i], (double)times[i]);
        }
    }
    double largest = 0;
    for (int i = 0; i < CROPS; i++) largest = fmax(largest, t_of(&tests[i]));
    printf("%-24s %12ld calls, %6ld cycles, |t| %6.2f cropped, %6.2f of all\n", NAMES[call], calls,
           (long)most[0], largest, t_of(&tests[CROPS]));
    fflush(stdout);
}

int main(int argc, char **argv) {
    const long calls = argc == 2 ? atol(argv[1]) : 0;
    if (calls < BATCH) {
        fprintf(stderr, "usage: timing CALLS\n");
        return 2;
    }
    for (int call = WRAP; call <= REFUSED; call++) run((enum call)call, calls);
    return 0;
}
