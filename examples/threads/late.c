/* A thread that joins while others are at work gets each value from then on. */
#include "phase_shared.h"
#include <pthread.h>
#include <stdio.h>

enum { BOUND = 4, PHASES = 6 };

static phase_registration late = PHASE_REGISTRATION_INIT;

static void *watches(void *nothing)
{
    uint64_t phase;
    int64_t value;
    while (phase_shared_wait(&late, &phase, &value) == PHASE_OK)
        printf("phase %ld: %ld\n", (long)phase, (long)value);
    phase_shared_leave(&late);
    return nothing;
}

int main(void)
{
    phase_registration founder = PHASE_REGISTRATION_INIT;
    pthread_t thread;
    uint64_t phase;
    if (phase_shared_new(PHASE_SUM, BOUND, PHASES, &founder) != PHASE_OK)
        return 1;
    for (int64_t n = 0; n < PHASES; n++) {
        int64_t value;
        if (n == 3
            && (phase_shared_register_now(&founder, &late, &phase) != PHASE_OK
                || pthread_create(&thread, NULL, watches, NULL) != 0))
            return 1;
        if (phase_shared_next(&founder, &n, 1, PHASE_NO_SINGLE, 0, 0, &phase, &value) != PHASE_OK)
            return 1;
    }
    phase_shared_leave(&founder);
    pthread_join(thread, NULL);
    return 0;
}
