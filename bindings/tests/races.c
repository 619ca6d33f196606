/* A stencil whose threads meet at a phaser between two steps: with a race detector there is none.
 * With WITHOUT_BARRIER they do not meet, and there are races. */
#include "phase_shared.h"
#include <pthread.h>
#include <stdio.h>

enum { THREADS = 4, CELLS = 64, STEPS = 50 };

static int64_t now[CELLS + 2], next[CELLS + 2];

struct worker {
    phase_registration own;
    pthread_t thread;
    size_t from;
};

/* Whether all are behind a step. */
static void meets(phase_registration *own)
{
#ifdef WITHOUT_BARRIER
    (void)own;
#else
    int64_t all = 0;
    if (phase_shared_meet(own, 1, &all) != PHASE_OK || all != THREADS)
        printf("races: %lld met\n", (long long)all);
#endif
}

static void *works(void *of)
{
    struct worker *worker = of;
    for (int step = 0; step < STEPS; step++) {
        for (size_t at = worker->from; at < worker->from + CELLS / THREADS; at++)
            next[at] = (now[at - 1] + 2 * now[at] + now[at + 1]) / 4;
        meets(&worker->own);
        for (size_t at = worker->from; at < worker->from + CELLS / THREADS; at++)
            now[at] = next[at];
        meets(&worker->own);
    }
    phase_shared_leave(&worker->own);
    return NULL;
}

int main(void)
{
    struct worker workers[THREADS] = {{.from = 0}};
    phase_registration founder = PHASE_REGISTRATION_INIT;
    now[CELLS / 2] = 1000000;
    if (phase_shared_new(PHASE_SUM, 2, 2 * STEPS, &founder) != PHASE_OK)
        return 1;
    for (size_t at = 0; at < THREADS; at++) {
        workers[at].from = 1 + at * (CELLS / THREADS);
        if (phase_shared_register(&founder, PHASE_SIG_WAIT, &workers[at].own) != PHASE_OK)
            return 1;
    }
    phase_shared_leave(&founder);
    for (size_t at = 0; at < THREADS; at++)
        if (pthread_create(&workers[at].thread, NULL, works, &workers[at]) != 0)
            return 1;
    for (size_t at = 0; at < THREADS; at++)
        pthread_join(workers[at].thread, NULL);
    int64_t sum = 0;
    for (size_t at = 1; at <= CELLS; at++)
        sum += now[at];
    printf("races: %lld\n", (long long)sum);
    return 0;
}
