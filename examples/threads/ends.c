/* Of four threads one never signals. The main thread tells which, and ends all. */
#include "phase_shared.h"
#include <inttypes.h>
#include <pthread.h>
#include <sched.h>
#include <stdio.h>

enum { THREADS = 4 };

struct task {
    phase_registration own;
    pthread_t thread;
    int32_t status;
};

static void *meets(void *of)
{
    struct task *task = of;
    const int64_t one = 1;
    task->status = phase_shared_next_or_closed(&task->own, &one, 1, PHASE_NO_SINGLE, 0, 0, NULL,
                                               NULL, PHASE_FOR_EVER);
    phase_shared_leave(&task->own);
    return NULL;
}

int main(void)
{
    static struct task tasks[THREADS];
    phase_registration founder = PHASE_REGISTRATION_INIT, *silent = &tasks[0].own;
    if (phase_shared_new(PHASE_SUM, 2, 100, &founder) != PHASE_OK)
        return 1;
    for (int at = 0; at < THREADS; at++)
        if (phase_shared_register(&founder, PHASE_SIG_WAIT, &tasks[at].own) != PHASE_OK)
            return 1;
    phase_shared_leave(&founder);
    for (int at = 1; at < THREADS; at++)
        if (pthread_create(&tasks[at].thread, NULL, meets, &tasks[at]) != 0)
            return 1;

    phase_member_counts counts;
    uint64_t missing[THREADS];
    while (phase_shared_missing(silent, &counts, missing, THREADS) == PHASE_OK
           && counts.signallers - counts.signalled > 1)
        sched_yield();
    printf("missing: [%" PRIu64 "]\n", missing[0]);
    phase_shared_close(silent);
    int ended = 0;
    for (int at = 1; at < THREADS; at++) {
        pthread_join(tasks[at].thread, NULL);
        ended += tasks[at].status == PHASE_SIGNALLED;
    }
    phase_shared_leave(silent);
    printf("ended: %d\n", ended);
    return 0;
}
