/* Phases a second of threads that meet and add up: by phase_shared_next, or by a barrier of POSIX
 * with a shared sum. What it prints is as of PlainPhaser.java.
 * usage: threads phase|barrier THREADS COUNT */
#define _POSIX_C_SOURCE 200809L
#include "phase_shared.h"
#include <pthread.h>
#include <stdatomic.h>
#include <stdio.h>
#include <stdlib.h>
#include <string.h>
#include <time.h>

static int64_t threads, count, warm;
static bool is_phase;
static pthread_barrier_t barrier;

/* Of three phases in turn: who is in the next one does not write where another still reads. */
static _Atomic int64_t sums[3];

struct task {
    phase_registration own;
    pthread_t thread;
    int64_t number, check;
    double seconds;
};

static double now(void)
{
    struct timespec time;
    clock_gettime(CLOCK_MONOTONIC, &time);
    return (double)time.tv_sec + (double)time.tv_nsec * 1e-9;
}

static int64_t by_barrier(int64_t phase, int64_t value)
{
    atomic_fetch_add(&sums[phase % 3], value);
    if (pthread_barrier_wait(&barrier) == PTHREAD_BARRIER_SERIAL_THREAD)
        atomic_store(&sums[(phase + 2) % 3], 0);
    return atomic_load(&sums[phase % 3]);
}

static int64_t by_phase(phase_registration *own, int64_t value)
{
    uint64_t phase;
    int64_t sum;
    if (phase_shared_next(own, &value, 1, PHASE_NO_SINGLE, 0, 0, &phase, &sum) != PHASE_OK)
        exit(1);
    return sum;
}

static void *runs(void *of)
{
    struct task *task = of;
    double begun = now();
    for (int64_t phase = 0; phase < warm + count; phase++) {
        if (phase == warm)
            begun = now();
        int64_t value = phase + task->number;
        task->check += is_phase ? by_phase(&task->own, value) : by_barrier(phase, value);
    }
    task->seconds = now() - begun;
    if (is_phase)
        phase_shared_leave(&task->own);
    return NULL;
}

int main(int words_len, char **words)
{
    if (words_len != 4)
        return 2;
    is_phase = strcmp(words[1], "phase") == 0;
    threads = atol(words[2]);
    count = atol(words[3]);
    warm = count / 10;
    struct task *tasks = calloc((size_t)threads, sizeof *tasks);
    int64_t check = 0;
    if (tasks == NULL || pthread_barrier_init(&barrier, NULL, (unsigned)threads) != 0
        || phase_shared_new(PHASE_SUM, 2, (uint64_t)(warm + count), &tasks[0].own) != PHASE_OK)
        return 1;
    for (int64_t number = 1; number < threads; number++) {
        tasks[number].number = number;
        if (phase_shared_register(&tasks[0].own, PHASE_SIG_WAIT, &tasks[number].own) != PHASE_OK)
            return 1;
    }
    for (int64_t number = 0; number < threads; number++)
        if (pthread_create(&tasks[number].thread, NULL, runs, &tasks[number]) != 0)
            return 1;
    for (int64_t number = 0; number < threads; number++) {
        pthread_join(tasks[number].thread, NULL);
        check += tasks[number].check;
    }
    printf("{\"rows\": [{\"name\": \"c %s %ld\", \"count\": %ld, \"seconds\": %.6f, \"check\": "
           "%ld}]}\n",
           words[1], (long)threads, (long)count, tasks[0].seconds, (long)check);
    free(tasks);
    return 0;
}
