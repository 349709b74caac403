/* turns.h: times several ways to do the same. They take turns, by the processor time of this thread,
 * so that a busy machine slows all of them equally. */

#define _POSIX_C_SOURCE 200809L

#include <time.h>

enum { ROUNDS_AT_LEAST = 5, TURN_NS = 300000, LONG_NS = 3000000 };

static double now(void) {
    struct timespec t;
    clock_gettime(CLOCK_THREAD_CPUTIME_ID, &t);
    return (double)t.tv_sec * 1e9 + (double)t.tv_nsec;
}

/* Writes the best time of each way, from rounds that take about all_ns. turn(way, calls) returns the
 * nanoseconds per call of a turn. A turn has enough calls to take about TURN_NS. A way with a
 * call longer than LONG_NS only has turns in some of the rounds. */
static void take_turns(int ways, double (*turn)(int way, unsigned calls), double all_ns,
                       double *best) {
    const double begun = now();
    unsigned calls[ways], every[ways];
    for (int w = 0; w < ways; w++) {
        best[w] = turn(w, 1);
        calls[w] = (unsigned)(TURN_NS / best[w]) + 1;
        every[w] = (unsigned)(best[w] / LONG_NS) + 1;
    }
    for (unsigned round = 0; round < ROUNDS_AT_LEAST || now() - begun < all_ns; round++)
        for (int w = 0; w < ways; w++) {
            const double time = round % every[w] == 0 ? turn(w, calls[w]) : best[w];
            if (time < best[w]) best[w] = time;
        }
}
