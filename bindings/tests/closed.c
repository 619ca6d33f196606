/* Who is missing, and an end for all, by the calls of phase_shared.h, beside values worked out by
 * hand: four threads of which one never signals; a close while 1 to 16 threads sleep in each call
 * that heeds it, and beside others that leave, register and signal; what is got of a phaser that is
 * closed; time limits; and each refusal. */
#define _POSIX_C_SOURCE 200809L
#include "phase_shared.h"
#include <pthread.h>
#include <stdatomic.h>
#include <stdio.h>
#include <string.h>
#include <time.h>

static _Atomic int passed, failed;

/* Whether a number is the one that is wanted. */
#define IS(found, wanted) is(__LINE__, #found, (int64_t)(found), (int64_t)(wanted))

static void is(int line, const char *name, int64_t found, int64_t wanted)
{
    if (found != wanted)
        printf("closed: line %d: %s is %lld, and not %lld\n", line, name, (long long)found,
               (long long)wanted);
    *(found == wanted ? &passed : &failed) += 1;
}

static const uint64_t MILLISECOND = 1000000;

static uint64_t now(void)
{
    struct timespec time;
    clock_gettime(CLOCK_MONOTONIC, &time);
    return (uint64_t)time.tv_sec * 1000 * MILLISECOND + (uint64_t)time.tv_nsec;
}

static void linger(uint64_t milliseconds)
{
    struct timespec time = {0, (long)(milliseconds * MILLISECOND)};
    nanosleep(&time, NULL);
}

enum { MOST = 16 };

/* A thread of a test, with its registration, the call that it makes, and how that was answered. */
struct task {
    phase_registration registration;
    pthread_t thread;
    int32_t (*call)(phase_registration *);
    int32_t status;
    uint64_t ended;
};

static const int64_t ONE[2] = {1, 1};

/* Calls that heed a close, with one send, or for two phases. */
static int32_t signals(phase_registration *it)
{
    return phase_shared_signal_or_closed(it, ONE, 1, PHASE_NO_SINGLE, 0, 0, NULL, PHASE_FOR_EVER);
}

static int32_t signals_two(phase_registration *it)
{
    return phase_shared_signal_block_or_closed(it, ONE, 2, PHASE_NO_SINGLE, 0, 0, NULL,
                                               PHASE_FOR_EVER);
}

static int32_t goes_next(phase_registration *it)
{
    return phase_shared_next_or_closed(it, ONE, 1, PHASE_NO_SINGLE, 0, 0, NULL, NULL,
                                       PHASE_FOR_EVER);
}

static int32_t goes_next_with_two(phase_registration *it)
{
    return phase_shared_next_or_closed(it, ONE, 2, PHASE_NO_SINGLE, 0, 0, NULL, NULL,
                                       PHASE_FOR_EVER);
}

static int32_t waits(phase_registration *it)
{
    return phase_shared_wait_or_closed(it, NULL, NULL, PHASE_FOR_EVER);
}

static int32_t waits_a_minute(phase_registration *it)
{
    return phase_shared_wait_or_closed(it, NULL, NULL, 60000 * MILLISECOND);
}

static int32_t waits_for_two(phase_registration *it)
{
    int64_t values[2];
    return phase_shared_wait_block_or_closed(it, values, 2, NULL, NULL, PHASE_FOR_EVER);
}

static int32_t signals_and_waits(phase_registration *it)
{
    int32_t status = signals(it);
    return status == PHASE_OK ? waits(it) : status;
}

static void *works(void *of)
{
    struct task *task = of;
    task->status = task->call(&task->registration);
    task->ended = now();
    return NULL;
}

static void starts(struct task *task, int32_t (*call)(phase_registration *))
{
    task->call = call;
    IS(pthread_create(&task->thread, NULL, works, task), 0);
}

static void ends(struct task *task, int32_t status)
{
    IS(pthread_join(task->thread, NULL), 0);
    IS(task->status, status);
}

static void leaves(phase_registration *it)
{
    IS(phase_shared_leave(it), PHASE_OK);
}

/* A phaser of bound 2 and a founder, and so many children in a mode. */
static phase_registration founder_of(struct task *tasks, int count, uint32_t mode)
{
    phase_registration founder = PHASE_REGISTRATION_INIT;
    memset(tasks, 0, sizeof *tasks * (size_t)count);
    IS(phase_shared_new(PHASE_SUM, 2, 1000, &founder), PHASE_OK);
    for (int at = 0; at < count; at++)
        IS(phase_shared_register(&founder, mode, &tasks[at].registration), PHASE_OK);
    return founder;
}

/* Whether the phaser stands so. */
static void stands(phase_registration *it, uint64_t tasks, uint64_t signallers, uint64_t waiters,
                   uint64_t phase, uint64_t signalled)
{
    phase_member_counts counts = {77, 77, 77, 77, 77};
    IS(phase_shared_missing(it, &counts, NULL, 0), PHASE_OK);
    IS(counts.tasks, tasks);
    IS(counts.signallers, signallers);
    IS(counts.waiters, waiters);
    IS(counts.phase, phase);
    IS(counts.signalled, signalled);
}

/* ---- Who is missing. */

/* Of four that signal and wait, and a waiter, number 2 never signals. The founder has left. */
static void one_never_signals(void)
{
    struct task tasks[4];
    phase_registration founder = founder_of(tasks, 4, PHASE_SIG_WAIT);
    phase_registration waiter = PHASE_REGISTRATION_INIT;
    uint64_t places[6] = {77, 77, 77, 77, 77, 77};
    IS(phase_shared_register(&founder, PHASE_WAIT, &waiter), PHASE_OK);
    leaves(&founder);
    stands(&waiter, 5, 4, 5, 0, 0);
    for (int at = 0; at < 4; at++)
        if (at != 2)
            starts(&tasks[at], signals_and_waits);
    phase_member_counts counts = {0, 0, 0, 0, 0};
    int wrong = 0;
    for (uint64_t since = now(); counts.signalled < 3 && now() - since < 30000 * MILLISECOND;)
        wrong += phase_shared_missing(&waiter, &counts, places, 6) != PHASE_OK;
    IS(wrong, 0);
    IS(counts.tasks, 5);
    IS(counts.signallers, 4);
    IS(counts.waiters, 5);
    IS(counts.phase, 0);
    IS(counts.signalled, 3);
    /* The founder is number 0, and so the third child is number 3. */
    IS(places[0], 3);
    places[0] = 77;
    IS(phase_shared_missing(&waiter, NULL, places, 1), PHASE_OK);
    IS(places[0], 3);
    IS(phase_shared_close(&waiter), PHASE_OK);
    for (int at = 0; at < 4; at++)
        if (at != 2)
            ends(&tasks[at], PHASE_E_CLOSED);
    /* What was signalled is not lost: with the last signal the phase is complete. */
    IS(signals(&tasks[2].registration), PHASE_OK);
    uint64_t phase = 77;
    int64_t value = 77;
    IS(phase_shared_wait_or_closed(&waiter, &phase, &value, PHASE_FOR_EVER), PHASE_OK);
    IS(phase, 0);
    IS(value, 4);
    stands(&waiter, 5, 4, 5, 1, 0);
    for (int at = 0; at < 4; at++)
        leaves(&tasks[at].registration);
    stands(&waiter, 1, 0, 1, 1, 0);
    IS(phase_shared_wait_or_closed(&waiter, &phase, &value, PHASE_FOR_EVER), PHASE_ENDED);
    leaves(&waiter);
}

/* ---- Who is missing, in words. */

static void are_words(phase_registration *it, size_t room, int32_t status, const char *wanted)
{
    char text[PHASE_LACKS_MAX + 1];
    memset(text, 'x', sizeof text);
    IS(phase_shared_lacks(it, text, room), status);
    IS(strcmp(text, wanted), 0);
    IS(text[room], 'x');
}

static void in_words(void)
{
    struct task tasks[20];
    phase_registration founder = founder_of(tasks, 20, PHASE_SIG_WAIT);
    phase_registration none = PHASE_REGISTRATION_INIT;
    leaves(&founder);
    phase_registration *first = &tasks[0].registration;
    are_words(first, PHASE_LACKS_MAX, PHASE_OK,
              "phase 0 lacks the signal of 1, 2, 3, 4, 5, 6, 7, 8, 9, 10, 11, 12, 13, 14, 15, 16 "
              "and 4 more");
    for (int at = 0; at < 18; at++)
        IS(signals(&tasks[at].registration), PHASE_OK);
    are_words(first, PHASE_LACKS_MAX, PHASE_OK, "phase 0 lacks the signal of 19, 20");
    are_words(first, 35, PHASE_OK, "phase 0 lacks the signal of 19, 20");
    are_words(first, 34, PHASE_OK, "phase 0 lacks the signal of 19, 2");
    are_words(first, 1, PHASE_OK, "");
    IS(phase_shared_lacks(first, NULL, 0), PHASE_OK);
    are_words(&none, 9, PHASE_E_NO_PHASER, "");
    for (int at = 1; at < 20; at++)
        leaves(&tasks[at].registration);
    /* Number 1 alone is left, and has signalled phase 0: that is complete. */
    are_words(first, PHASE_LACKS_MAX, PHASE_OK, "phase 1 lacks the signal of 1");
    leaves(first);
    /* Where nobody signals nobody is missing. */
    founder = founder_of(tasks, 1, PHASE_WAIT);
    leaves(&founder);
    are_words(first, PHASE_LACKS_MAX, PHASE_OK, "");
    leaves(first);
}

/* The first places have the first that are missing, as many as there are of both. */
static void places_are_few(void)
{
    struct task tasks[4];
    phase_registration founder = founder_of(tasks, 4, PHASE_SIG);
    uint64_t places[6] = {77, 77, 77, 77, 77, 77};
    phase_member_counts counts;
    IS(signals(&founder), PHASE_OK);
    IS(signals(&tasks[1].registration), PHASE_OK);
    IS(phase_shared_try_missing(&founder, &counts, places, 2), PHASE_OK);
    IS(counts.signallers - counts.signalled, 3);
    IS(places[0], 1);
    IS(places[1], 3);
    IS(places[2], 77);
    IS(phase_shared_missing(&founder, &counts, places, 6), PHASE_OK);
    IS(places[2], 4);
    IS(places[3], 77);
    for (int at = 0; at < 4; at++)
        leaves(&tasks[at].registration);
    /* Nobody but the founder is left, which has signalled phase 0 alone. */
    stands(&founder, 1, 1, 1, 1, 0);
    IS(phase_shared_missing(&founder, &counts, places, 6), PHASE_OK);
    IS(places[0], 0);
    leaves(&founder);
}

/* ---- An end for all. */

/* So many threads sleep in a call, and the phaser is closed, by the registration of one of them:
 * all are answered so. Returns how long that took. */
static uint64_t closes(int count, uint32_t mode, int32_t (*call)(phase_registration *),
                       int32_t status)
{
    struct task tasks[MOST];
    phase_registration founder = founder_of(tasks, count, mode);
    if (mode == PHASE_SIG) {
        /* The founder waits for phase 0, and so phase 2 is ahead of it. */
        for (int at = 0; at < count; at++)
            IS(phase_shared_signal_block(&tasks[at].registration, ONE, 2, PHASE_NO_SINGLE, 0, 0,
                                         NULL),
               PHASE_OK);
    }
    for (int at = 0; at < count; at++)
        starts(&tasks[at], call);
    linger(30);
    IS(phase_shared_closed(&founder), PHASE_OK);
    uint64_t since = now();
    IS(phase_shared_close(&tasks[0].registration), PHASE_OK);
    uint64_t took = 0;
    for (int at = 0; at < count; at++) {
        ends(&tasks[at], status);
        uint64_t time = tasks[at].ended > since ? tasks[at].ended - since : 0;
        took = time > took ? time : took;
    }
    IS(phase_shared_closed(&founder), PHASE_E_CLOSED);
    for (int at = 0; at < count; at++)
        leaves(&tasks[at].registration);
    leaves(&founder);
    return took;
}

/* All are back within 50 milliseconds, where the machine has the time: in one of ten tries. */
static void wakes(int count, uint32_t mode, int32_t (*call)(phase_registration *), int32_t status)
{
    uint64_t least = UINT64_MAX;
    for (int round = 0; round < 10 && least >= 50 * MILLISECOND; round++) {
        uint64_t took = closes(count, mode, call, status);
        least = took < least ? took : least;
    }
    IS(least < 50 * MILLISECOND, 1);
}

static void wakes_all(void)
{
    static const int counts[] = {1, 2, 4, 16};
    for (int at = 0; at < 4; at++) {
        wakes(counts[at], PHASE_WAIT, waits, PHASE_E_CLOSED);
        wakes(counts[at], PHASE_WAIT, waits_a_minute, PHASE_E_CLOSED);
        wakes(counts[at], PHASE_WAIT, waits_for_two, PHASE_E_CLOSED);
        wakes(counts[at], PHASE_SIG, signals, PHASE_E_CLOSED);
        wakes(counts[at], PHASE_SIG, signals_two, PHASE_E_CLOSED);
        /* The founder does not signal. One send may be asked for, and two are not. */
        wakes(counts[at], PHASE_SIG_WAIT, goes_next, PHASE_SIGNALLED);
        wakes(counts[at], PHASE_SIG_WAIT, goes_next_with_two, PHASE_SIGNALLED);
        wakes(counts[at], PHASE_SIG_WAIT, signals_and_waits, PHASE_E_CLOSED);
    }
}

/* A call that does not heed a close waits on, until the others have signalled. */
static int32_t waits_on(phase_registration *it)
{
    return phase_shared_wait(it, NULL, NULL);
}

static void others_go_on(void)
{
    struct task tasks[2];
    phase_registration founder = founder_of(tasks, 2, PHASE_WAIT);
    starts(&tasks[0], waits_on);
    starts(&tasks[1], waits);
    linger(30);
    IS(phase_shared_close(&founder), PHASE_OK);
    ends(&tasks[1], PHASE_E_CLOSED);
    linger(30);
    stands(&founder, 3, 1, 3, 0, 0);
    IS(phase_shared_signal(&founder, ONE, 1, PHASE_NO_SINGLE, 0, 0, NULL), PHASE_OK);
    ends(&tasks[0], PHASE_OK);
    /* Children come as before, and so do phases. */
    phase_registration child = PHASE_REGISTRATION_INIT;
    IS(phase_shared_register_now(&founder, &child, NULL), PHASE_OK);
    IS(phase_shared_closed(&child), PHASE_E_CLOSED);
    leaves(&child);
    for (int at = 0; at < 2; at++)
        leaves(&tasks[at].registration);
    leaves(&founder);
}

/* On a phaser that is closed what is complete is got, and what has room is signalled. */
static void complete_phases_are_got(void)
{
    struct task tasks[2];
    phase_registration founder = founder_of(tasks, 2, PHASE_WAIT);
    phase_registration signaller = PHASE_REGISTRATION_INIT;
    IS(phase_shared_register(&founder, PHASE_SIG, &signaller), PHASE_OK);
    leaves(&founder);
    IS(signals(&signaller), PHASE_OK);
    IS(phase_shared_close(&signaller), PHASE_OK);
    IS(phase_shared_close(&signaller), PHASE_OK);
    IS(signals(&signaller), PHASE_OK);
    uint64_t phase = 77;
    int64_t value = 77, values[2] = {77, 77};
    size_t count = 77;
    IS(phase_shared_signal_or_closed(&signaller, ONE, 1, PHASE_NO_SINGLE, 0, 0, &phase,
                                     PHASE_FOR_EVER),
       PHASE_E_CLOSED);
    IS(phase, 77);
    IS(phase_shared_wait_or_closed(&tasks[0].registration, &phase, &value, PHASE_FOR_EVER),
       PHASE_OK);
    IS(phase, 0);
    IS(value, 1);
    IS(phase_shared_wait_block_or_closed(&tasks[1].registration, values, 2, &phase, &count,
                                         PHASE_FOR_EVER),
       PHASE_OK);
    IS(phase, 0);
    IS(count, 2);
    IS(values[1], 1);
    phase = 77, value = 77, count = 77;
    IS(phase_shared_wait_block_or_closed(&tasks[1].registration, values, 2, &phase, &count,
                                         PHASE_FOR_EVER),
       PHASE_E_CLOSED);
    IS(phase, 77);
    IS(count, 77);
    /* The other waiter has phase 1 to get still, so that phase 2 has room and phase 3 has none. */
    IS(signals_two(&signaller), PHASE_E_CLOSED);
    IS(signals(&signaller), PHASE_OK);
    IS(signals(&signaller), PHASE_E_CLOSED);
    IS(phase_shared_wait_or_closed(&tasks[0].registration, &phase, &value, 0), PHASE_OK);
    IS(phase, 1);
    IS(phase_shared_wait_or_closed(&tasks[0].registration, &phase, &value, 0), PHASE_OK);
    IS(phase, 2);
    phase = 77, value = 77;
    IS(phase_shared_wait_or_closed(&tasks[0].registration, &phase, &value, 0), PHASE_E_CLOSED);
    IS(phase, 77);
    IS(value, 77);
    leaves(&signaller);
    IS(phase_shared_wait_or_closed(&tasks[0].registration, &phase, &value, 0), PHASE_ENDED);
    for (int at = 0; at < 2; at++)
        leaves(&tasks[at].registration);
}

/* A next phase on a phaser that is closed: alone it is complete at once; beside another it is
 * signalled, and then too far ahead. */
static void next_phases(void)
{
    struct task tasks[1];
    phase_registration founder = founder_of(tasks, 1, PHASE_SIG_WAIT);
    uint64_t phase = 77;
    int64_t value = 77;
    IS(phase_shared_close(&founder), PHASE_OK);
    IS(goes_next(&founder), PHASE_SIGNALLED);
    IS(phase_shared_next_or_closed(&tasks[0].registration, ONE, 1, PHASE_NO_SINGLE, 0, 0, &phase,
                                   &value, PHASE_FOR_EVER),
       PHASE_OK);
    IS(phase, 0);
    IS(value, 2);
    IS(waits(&founder), PHASE_OK);
    leaves(&tasks[0].registration);
    IS(phase_shared_next_or_closed(&founder, ONE, 2, PHASE_NO_SINGLE, 0, 0, &phase, &value,
                                   PHASE_FOR_EVER),
       PHASE_OK);
    IS(phase, 1);
    IS(value, 2);
    leaves(&founder);

    phase_registration first = PHASE_REGISTRATION_INIT, late = PHASE_REGISTRATION_INIT;
    IS(phase_shared_new(PHASE_SUM, 1, 9, &first), PHASE_OK);
    IS(phase_shared_register(&first, PHASE_WAIT, &late), PHASE_OK);
    IS(goes_next(&first), PHASE_OK);
    IS(phase_shared_close(&first), PHASE_OK);
    phase = 77, value = 77;
    IS(phase_shared_next_or_closed(&first, ONE, 1, PHASE_NO_SINGLE, 0, 0, &phase, &value,
                                   PHASE_FOR_EVER),
       PHASE_E_CLOSED);
    IS(phase, 77);
    IS(value, 77);
    IS(waits(&late), PHASE_OK);
    IS(goes_next(&first), PHASE_OK);
    leaves(&late);
    leaves(&first);
}

/* ---- Beside others that come, go and signal. */

static _Atomic int goes;

/* Waits for all to be there. */
static void begins(void)
{
    while (atomic_load(&goes) == 0)
        ;
}

static int32_t leaves_then(phase_registration *it)
{
    begins();
    return phase_shared_leave(it);
}

static int32_t signals_then(phase_registration *it)
{
    begins();
    return phase_shared_signal(it, ONE, 1, PHASE_NO_SINGLE, 0, 0, NULL);
}

static int32_t registers_then(phase_registration *it)
{
    phase_registration child = PHASE_REGISTRATION_INIT;
    begins();
    int32_t status = phase_shared_register(it, PHASE_WAIT, &child);
    return status == PHASE_OK ? phase_shared_leave(&child) : status;
}

static int32_t closes_then(phase_registration *it)
{
    begins();
    return phase_shared_close(it);
}

/* Three sleep in a wait while one closes, one registers a child, and the one that is missing
 * signals or leaves: each got the phase or is told of the close, and afterwards gets the phase. */
static void races(int32_t (*last)(phase_registration *))
{
    enum { WAITERS = 3, REGISTERS = WAITERS, CLOSES, LAST, ALL };
    struct task tasks[ALL];
    phase_registration founder = founder_of(tasks, LAST, PHASE_SIG_WAIT);
    memset(&tasks[LAST], 0, sizeof tasks[LAST]);
    IS(phase_shared_register(&founder, PHASE_SIG, &tasks[LAST].registration), PHASE_OK);
    leaves(&founder);
    atomic_store(&goes, 0);
    for (int at = 0; at < LAST; at++)
        IS(signals(&tasks[at].registration), PHASE_OK);
    for (int at = 0; at < WAITERS; at++)
        starts(&tasks[at], waits);
    starts(&tasks[REGISTERS], registers_then);
    starts(&tasks[CLOSES], closes_then);
    starts(&tasks[LAST], last);
    atomic_store(&goes, 1);
    for (int at = REGISTERS; at < ALL; at++)
        ends(&tasks[at], PHASE_OK);
    for (int at = 0; at < WAITERS; at++) {
        IS(pthread_join(tasks[at].thread, NULL), 0);
        if (tasks[at].status == PHASE_E_CLOSED)
            tasks[at].status = waits(&tasks[at].registration);
        IS(tasks[at].status, PHASE_OK);
        leaves(&tasks[at].registration);
    }
    leaves(&tasks[REGISTERS].registration);
    leaves(&tasks[CLOSES].registration);
    if (last == signals_then)
        leaves(&tasks[LAST].registration);
}

/* ---- Time limits, refusals, and the calls that never wait. */

static void time_limits(void)
{
    struct task tasks[1];
    phase_registration founder = founder_of(tasks, 1, PHASE_SIG);
    uint64_t since = now();
    IS(phase_shared_next_or_closed(&founder, ONE, 1, PHASE_NO_SINGLE, 0, 0, NULL, NULL,
                                   20 * MILLISECOND),
       PHASE_SIGNALLED);
    IS(phase_shared_wait_or_closed(&founder, NULL, NULL, 20 * MILLISECOND), PHASE_E_NOT_YET);
    IS(now() - since >= 40 * MILLISECOND, 1);
    int64_t values[2];
    IS(phase_shared_wait_block_or_closed(&founder, values, 2, NULL, NULL, MILLISECOND),
       PHASE_E_NOT_YET);
    IS(signals_two(&tasks[0].registration), PHASE_OK);
    IS(phase_shared_signal_or_closed(&tasks[0].registration, ONE, 1, PHASE_NO_SINGLE, 0, 0, NULL,
                                     MILLISECOND),
       PHASE_E_AHEAD);
    IS(phase_shared_signal_block_or_closed(&tasks[0].registration, ONE, 2, PHASE_NO_SINGLE, 0, 0,
                                           NULL, MILLISECOND),
       PHASE_E_AHEAD);
    IS(phase_shared_close(&founder), PHASE_OK);
    /* The close stands before a time limit. */
    since = now();
    IS(phase_shared_signal_or_closed(&tasks[0].registration, ONE, 1, PHASE_NO_SINGLE, 0, 0, NULL,
                                     60000 * MILLISECOND),
       PHASE_E_CLOSED);
    IS(now() - since < 30000 * MILLISECOND, 1);
    leaves(&tasks[0].registration);
    leaves(&founder);
}

static void refusals(void)
{
    struct task tasks[2];
    phase_registration none = PHASE_REGISTRATION_INIT;
    phase_registration founder = founder_of(tasks, 1, PHASE_SIG);
    phase_registration *signaller = &tasks[0].registration;
    phase_member_counts counts = {77, 77, 77, 77, 77};
    const int64_t bad = INT64_MIN;
    uint64_t place = 77;
    int64_t values[2];
    IS(phase_shared_missing(&none, &counts, &place, 1), PHASE_E_NO_PHASER);
    IS(phase_shared_try_missing(&none, &counts, &place, 1), PHASE_E_NO_PHASER);
    IS(counts.tasks, 77);
    IS(place, 77);
    IS(phase_shared_close(&none), PHASE_E_NO_PHASER);
    IS(phase_shared_closed(&none), PHASE_E_NO_PHASER);
    IS(signals(&none), PHASE_E_NO_PHASER);
    IS(signals_two(&none), PHASE_E_NO_PHASER);
    IS(goes_next(&none), PHASE_E_NO_PHASER);
    IS(waits(&none), PHASE_E_NO_PHASER);
    IS(waits_for_two(&none), PHASE_E_NO_PHASER);
    /* A refusal that waiting does not change stands before a close. */
    IS(phase_shared_close(&founder), PHASE_OK);
    IS(waits(signaller), PHASE_E_NO_WAIT);
    IS(waits_for_two(signaller), PHASE_E_NO_WAIT);
    IS(waits(&founder), PHASE_E_SIGNAL_FIRST);
    IS(phase_shared_signal_or_closed(&founder, &bad, 1, PHASE_NO_SINGLE, 0, 0, NULL, 0),
       PHASE_E_BAD_VALUE);
    IS(phase_shared_signal_or_closed(signaller, ONE, 1, PHASE_NEG, 0, 0, NULL, 0),
       PHASE_E_NOT_SINGLE);
    IS(signals(&founder), PHASE_OK);
    IS(signals(&founder), PHASE_E_SIGNAL_TWICE);
    IS(phase_shared_wait_block_or_closed(&founder, values, 0, NULL, NULL, PHASE_FOR_EVER),
       PHASE_E_BAD_BLOCK);
    IS(strcmp(phase_shared_status_text(PHASE_E_CLOSED), "the phaser is closed"), 0);
    leaves(signaller);
    leaves(&founder);
}

static void calls_that_never_wait(void)
{
    phase_member none = {NULL, false}, founder = none, other = none;
    phase_member_counts counts = {77, 77, 77, 77, 77};
    uint64_t places[2] = {77, 77}, phase = 77;
    int64_t value = 77;
    IS(phase_member_close(&none), PHASE_E_NO_PHASER);
    IS(phase_member_closed(&none), PHASE_E_NO_PHASER);
    IS(phase_member_missing(&none, &counts, places, 2), PHASE_E_NO_PHASER);
    IS(counts.phase, 77);
    IS(phase_member_new(PHASE_LEAST, 2, 9, &founder), PHASE_OK);
    IS(phase_member_register(&founder, PHASE_SIG_WAIT, &other), PHASE_OK);
    IS(phase_member_closed(&other), PHASE_OK);
    IS(phase_member_ask(&founder, ONE, 1), PHASE_ASKED);
    IS(phase_member_missing(&founder, &counts, places, 2), PHASE_E_BUSY);
    IS(counts.phase, 77);
    IS(places[0], 77);
    IS(phase_member_closed(&founder), PHASE_OK);
    IS(phase_member_close(&founder), PHASE_OK);
    IS(phase_member_closed(&founder), PHASE_E_CLOSED);
    IS(phase_member_closed(&other), PHASE_E_CLOSED);
    IS(phase_member_take_back(&founder, &phase, &value), PHASE_SIGNALLED);
    IS(phase_member_missing(&founder, &counts, places, 2), PHASE_OK);
    IS(counts.tasks, 2);
    IS(counts.signallers, 2);
    IS(counts.waiters, 2);
    IS(counts.phase, 0);
    IS(counts.signalled, 1);
    IS(places[0], 1);
    IS(places[1], 77);
    IS(phase_member_wait(&founder, &phase, &value), PHASE_E_NOT_YET);
    IS(phase_member_leave(&other), PHASE_OK);
    IS(phase_member_leave(&founder), PHASE_OK);
}

int main(void)
{
    one_never_signals();
    places_are_few();
    in_words();
    wakes_all();
    others_go_on();
    complete_phases_are_got();
    next_phases();
    for (int round = 0; round < 100; round++) {
        races(signals_then);
        races(leaves_then);
    }
    time_limits();
    refusals();
    calls_that_never_wait();
    printf("closed: %d as they should be, %d not\n", passed, failed);
    return failed != 0;
}
