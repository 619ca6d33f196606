/* Threads that come and go on one phaser, each step at random from a seed. Each signal sends 1, so
 * that the value of a phase is how many signalled it, and all who got it got that.
 * usage: churn THREADS BOUND PHASES SEED */
#define _POSIX_C_SOURCE 200809L
#include "phase_shared.h"
#include <pthread.h>
#include <stdatomic.h>
#include <stdio.h>
#include <stdlib.h>
#include <time.h>

static uint64_t phases;
static long threads_most;

/* Of each phase: how many signalled it, and what the first that got it was given. */
static _Atomic int64_t *sent, *got;

static _Atomic long faults, live, made, calls;

static pthread_attr_t detached;

struct task {
    phase_registration registration;
    uint32_t mode;
    uint64_t seed;
    uint64_t steps;
};

static uint64_t below(struct task *task, uint64_t most)
{
    task->seed = task->seed * 6364136223846793005u + 1442695040888963407u;
    return (task->seed >> 33) % most;
}

static void fault(const char *what, int32_t status)
{
    fprintf(stderr, "churn: %s: %s\n", what, phase_status_text(status));
    atomic_fetch_add(&faults, 1);
}

/* So long that others fall asleep. */
static void linger(struct task *task)
{
    struct timespec time = {0, (long)(1 + below(task, 3)) * 1000000};
    nanosleep(&time, NULL);
}

/* So short that the others go on. */
static void rest(void)
{
    nanosleep(&(struct timespec){0, 1000}, NULL);
}

static void note_sent(uint64_t phase)
{
    atomic_fetch_add(&sent[phase], 1);
}

static void note_got(uint64_t phase, int64_t value)
{
    int64_t none = 0;
    if (!atomic_compare_exchange_strong(&got[phase], &none, value) && none != value)
        fault("two got different values", PHASE_OK);
}

static const int64_t one = 1;

static int32_t signals(struct task *task)
{
    uint64_t phase = 0;
    int32_t status = phase_shared_signal(&task->registration, &one, 1, PHASE_NO_SINGLE, 0, 0,
                                         &phase);
    if (status == PHASE_OK)
        note_sent(phase);
    return status;
}

static int32_t waits(struct task *task)
{
    uint64_t phase = 0;
    int64_t value = 0;
    int32_t status = phase_shared_wait(&task->registration, &phase, &value);
    if (status == PHASE_OK)
        note_got(phase, value);
    return status;
}

/* A signal and a wait, each tried again and again. */
static int32_t tries(struct task *task)
{
    uint64_t phase = 0;
    int64_t value = 0;
    int32_t status;
    while ((status = phase_shared_try_signal(&task->registration, &one, 1, PHASE_NO_SINGLE, 0, 0,
                                             &phase)) == PHASE_E_BUSY
           || status == PHASE_E_AHEAD)
        rest();
    if (status != PHASE_OK)
        return status;
    note_sent(phase);
    while ((status = phase_shared_try_wait(&task->registration, &phase, &value)) == PHASE_E_BUSY
           || status == PHASE_E_NOT_YET)
        rest();
    if (status == PHASE_OK)
        note_got(phase, value);
    return status;
}

/* A signal and a wait by one call, for at most so long, and then the rest of it. */
static int32_t goes_next(struct task *task, uint64_t nanoseconds)
{
    uint64_t phase = 0;
    int64_t value = 0;
    int32_t status;
    do {
        status = phase_shared_next_for(&task->registration, &one, 1, PHASE_NO_SINGLE, 0, 0,
                                       &phase, &value, nanoseconds);
        /* What came of an ask that stands is got by a wait, which may say that it was ahead. */
        if (status == PHASE_ASKED)
            status = phase_shared_wait(&task->registration, &phase, &value);
        if (status == PHASE_E_AHEAD)
            rest();
    } while (status == PHASE_E_AHEAD);
    if (status < 0)
        return status;
    note_sent(phase);
    if (status == PHASE_SIGNALLED)
        return waits(task);
    note_got(phase, value);
    return PHASE_OK;
}

/* One phase, in one of the ways that the mode has. */
static int32_t step(struct task *task)
{
    atomic_fetch_add(&calls, 1);
    if (task->mode == PHASE_SIG)
        return signals(task);
    if (task->mode == PHASE_WAIT)
        return waits(task);
    switch (below(task, 4)) {
    case 0: return tries(task);
    case 1: return goes_next(task, below(task, 2) * 20000);
    case 2: return goes_next(task, UINT64_MAX);
    default: {
        int32_t status = signals(task);
        if (below(task, 8) == 0)
            linger(task);
        return status == PHASE_OK ? waits(task) : status;
    }
    }
}

static void *runs(void *of);

/* Registers a child in a mode that the parent's holds, or now, and gives it a thread. */
static void has_child(struct task *task)
{
    static const uint32_t modes[] = {PHASE_SIG, PHASE_WAIT, PHASE_SIG_WAIT};
    struct task *child = calloc(1, sizeof *child);
    if (child == NULL)
        return;
    pthread_t thread;
    uint64_t phase = 0;
    child->mode = task->mode < PHASE_SIG_WAIT ? task->mode : modes[below(task, 3)];
    child->seed = below(task, UINT32_MAX);
    child->steps = 1 + below(task, 60);
    int32_t status;
    if (child->mode == PHASE_WAIT && below(task, 2) == 0)
        status = phase_shared_register_now(&task->registration, &child->registration, &phase);
    else
        status = phase_shared_register(&task->registration, child->mode, &child->registration);
    if (status != PHASE_OK) {
        fault("register", status);
        free(child);
        return;
    }
    atomic_fetch_add(&live, 1);
    atomic_fetch_add(&made, 1);
    if (pthread_create(&thread, &detached, runs, child) != 0) {
        fault("no thread", PHASE_OK);
        phase_shared_leave(&child->registration);
        free(child);
        atomic_fetch_sub(&live, 1);
    }
}

static void lives(struct task *task)
{
    for (uint64_t at = 0; at < task->steps; at++) {
        int32_t status = step(task);
        if (status == PHASE_ENDED || status == PHASE_E_SPENT)
            break;
        if (status != PHASE_OK)
            fault("a step", status);
        if (atomic_load(&live) < threads_most && below(task, 6) == 0)
            has_child(task);
    }
    int32_t status = phase_shared_leave(&task->registration);
    if (status != PHASE_OK)
        fault("leave", status);
}

static void *runs(void *of)
{
    lives(of);
    free(of);
    atomic_fetch_sub(&live, 1);
    return NULL;
}

int main(int count, char **words)
{
    if (count != 5)
        return 2;
    threads_most = strtol(words[1], NULL, 10);
    uint64_t bound = strtoull(words[2], NULL, 10);
    phases = strtoull(words[3], NULL, 10);
    sent = calloc(phases, sizeof *sent);
    got = calloc(phases, sizeof *got);
    struct task first = {.mode = PHASE_SINGLE, .steps = phases};
    first.seed = strtoull(words[4], NULL, 10);
    if (sent == NULL || got == NULL || pthread_attr_init(&detached) != 0
        || pthread_attr_setdetachstate(&detached, PTHREAD_CREATE_DETACHED) != 0)
        return 2;
    if (phase_shared_new(PHASE_SUM, bound, phases, &first.registration) != PHASE_OK)
        return 2;
    atomic_fetch_add(&live, 1);
    lives(&first);
    atomic_fetch_sub(&live, 1);
    while (atomic_load(&live) > 0)
        nanosleep(&(struct timespec){0, 1000000}, NULL);
    uint64_t seen = 0;
    for (uint64_t phase = 0; phase < phases; phase++) {
        seen += got[phase] != 0;
        if (got[phase] != 0 && got[phase] != sent[phase])
            fault("a value is not how many signalled", PHASE_OK);
    }
    printf("churn: %llu phases, %ld threads, %ld calls, %ld faults\n", (unsigned long long)seen,
           made, calls, faults);
    pthread_attr_destroy(&detached);
    free((void *)sent);
    free((void *)got);
    return faults != 0 || seen != phases;
}
