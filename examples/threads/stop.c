/* Two threads work until the one that may signal leaves. */
#include "phase_shared.h"
#include <pthread.h>
#include <stdio.h>

struct worker {
    phase_registration stop, begun;
    pthread_t thread;
    long pieces;
};

/* A piece of work. Behind its first one it signals that it has begun. */
static void works_on(struct worker *worker)
{
    const int64_t one = 1;
    uint64_t phase;
    if (worker->pieces++ == 0)
        phase_shared_signal(&worker->begun, &one, 1, PHASE_NO_SINGLE, 0, 0, &phase);
}

static void *works(void *of)
{
    struct worker *worker = of;
    uint64_t phase;
    int64_t value;
    /* For a thousandth of a second, at most, it waits for what will never come but the end. */
    while (phase_shared_wait_for(&worker->stop, &phase, &value, 1000000) == PHASE_E_NOT_YET)
        works_on(worker);
    phase_shared_leave(&worker->begun);
    phase_shared_leave(&worker->stop);
    return NULL;
}

int main(void)
{
    struct worker workers[2] = {{.pieces = 0}, {.pieces = 0}};
    phase_registration founder = PHASE_REGISTRATION_INIT, begun = PHASE_REGISTRATION_INIT;
    uint64_t phase;
    int64_t busy;
    if (phase_shared_new(PHASE_ANY, 1, 1, &founder) != PHASE_OK
        || phase_shared_new(PHASE_SUM, 1, 1, &begun) != PHASE_OK)
        return 1;
    for (int i = 0; i < 2; i++)
        if (phase_shared_register(&founder, PHASE_WAIT, &workers[i].stop) != PHASE_OK
            || phase_shared_register(&begun, PHASE_SIG, &workers[i].begun) != PHASE_OK
            || pthread_create(&workers[i].thread, NULL, works, &workers[i]) != 0)
            return 1;
    /* Each worker has signalled a 1 when this phase is complete. */
    if (phase_shared_next(&begun, NULL, 0, PHASE_NO_SINGLE, 0, 0, &phase, &busy) != PHASE_OK)
        return 1;
    phase_shared_leave(&begun);
    phase_shared_leave(&founder);
    for (int i = 0; i < 2; i++)
        pthread_join(workers[i].thread, NULL);
    printf("%d worked, and have stopped\n", (int)busy);
    return 0;
}
