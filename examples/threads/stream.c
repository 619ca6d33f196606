/* One thread sends squares, at most four ahead of the slower of two others, each of which gets all
 * of them. */
#include "phase_shared.h"
#include <pthread.h>
#include <stdio.h>

enum { COUNT = 10, BOUND = 4 };

struct consumer {
    phase_registration own;
    pthread_t thread;
    int64_t sum, greatest;
};

static void *consumes(void *of)
{
    struct consumer *consumer = of;
    uint64_t phase;
    int64_t value;
    while (phase_shared_wait(&consumer->own, &phase, &value) == PHASE_OK) {
        consumer->sum += value;
        consumer->greatest = value > consumer->greatest ? value : consumer->greatest;
    }
    phase_shared_leave(&consumer->own);
    return NULL;
}

int main(void)
{
    struct consumer consumers[2] = {{.sum = 0}, {.sum = 0}};
    phase_registration founder = PHASE_REGISTRATION_INIT, producer = PHASE_REGISTRATION_INIT;
    if (phase_shared_new(PHASE_SUM, BOUND, COUNT, &founder) != PHASE_OK
        || phase_shared_register(&founder, PHASE_SIG, &producer) != PHASE_OK)
        return 1;
    for (int i = 0; i < 2; i++)
        if (phase_shared_register(&founder, PHASE_WAIT, &consumers[i].own) != PHASE_OK
            || pthread_create(&consumers[i].thread, NULL, consumes, &consumers[i]) != 0)
            return 1;
    /* It would have to signal each phase, too. */
    phase_shared_leave(&founder);
    for (int64_t n = 0; n < COUNT; n++) {
        int64_t square = n * n;
        uint64_t phase;
        if (phase_shared_signal(&producer, &square, 1, PHASE_NO_SINGLE, 0, 0, &phase) != PHASE_OK)
            return 1;
    }
    /* Nobody is left to signal, so the consumers end behind the last square. */
    phase_shared_leave(&producer);
    for (int i = 0; i < 2; i++)
        pthread_join(consumers[i].thread, NULL);
    printf("sum %ld, greatest %ld\n", (long)consumers[0].sum, (long)consumers[1].greatest);
    return 0;
}
