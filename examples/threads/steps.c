/* Four parts cool, step by step. In each step all send what they have, get the total, and so stop
 * at one step. */
#include "phase_shared.h"
#include <pthread.h>
#include <stdio.h>

enum { PARTS = 4, COLD = 200, STEPS_MAX = 1000 };

struct part {
    phase_registration own;
    pthread_t thread;
    int64_t heat;
    uint64_t step;
    int64_t total;
};

static void *cools(void *of)
{
    struct part *part = of;
    part->total = INT64_MAX;
    while (part->total > COLD) {
        part->heat -= part->heat / 10;
        if (phase_shared_next(&part->own, &part->heat, 1, PHASE_NO_SINGLE, 0, 0, &part->step,
                              &part->total) != PHASE_OK)
            break;
    }
    phase_shared_leave(&part->own);
    return NULL;
}

int main(void)
{
    struct part parts[PARTS] = {{.heat = 100}, {.heat = 200}, {.heat = 300}, {.heat = 400}};
    if (phase_shared_new(PHASE_SUM, 2, STEPS_MAX, &parts[0].own) != PHASE_OK)
        return 1;
    for (int i = 1; i < PARTS; i++)
        if (phase_shared_register(&parts[0].own, PHASE_SIG_WAIT, &parts[i].own) != PHASE_OK)
            return 1;
    for (int i = 1; i < PARTS; i++)
        if (pthread_create(&parts[i].thread, NULL, cools, &parts[i]) != 0)
            return 1;
    cools(&parts[0]);
    for (int i = 1; i < PARTS; i++)
        pthread_join(parts[i].thread, NULL);
    printf("step %ld: %ld\n", (long)parts[0].step, (long)parts[0].total);
    return 0;
}
