/* What the phase_member calls answer of a registration that asks, in each of its states, and what
 * they write; threads whose time limits pass while they ask, and who then wait, or leave, while
 * the others go on; and how many answers others' turns made. */
#define _POSIX_C_SOURCE 200809L
#include "phase_shared.h"
#include <pthread.h>
#include <signal.h>
#include <stdatomic.h>
#include <stdio.h>
#include <stdlib.h>
#include <time.h>
#include <unistd.h>

static _Atomic int passed, failed;

/* Whether a number is the one that is wanted. */
#define IS(found, wanted) is(__LINE__, #found, (int64_t)(found), (int64_t)(wanted))

static void is(int line, const char *name, int64_t found, int64_t wanted)
{
    if (found != wanted)
        printf("asks: line %d: %s is %lld, and not %lld\n", line, name, (long long)found,
               (long long)wanted);
    *(found == wanted ? &passed : &failed) += 1;
}

/* A call that writes a phase and a value, and what it has to answer and to write. */
#define TELLS(call, status, wanted_phase, wanted_value)                                            \
    do {                                                                                           \
        uint64_t phase = 77;                                                                       \
        int64_t value = 77;                                                                        \
        IS(call, status);                                                                          \
        IS(phase, wanted_phase);                                                                   \
        IS(value, wanted_value);                                                                   \
    } while (0)

/* The same of one that writes neither. */
#define WRITES_NONE(call, status) TELLS(call, status, 77, 77)

static int32_t asks(phase_member *member, int64_t value)
{
    return phase_member_ask(member, &value, 1);
}

static int32_t goes_next(phase_member *member, int64_t sent, uint64_t *phase, int64_t *value)
{
    return phase_member_next(member, &sent, 1, PHASE_NO_SINGLE, 0, 0, phase, value);
}

/* ---- No registration, and one at rest. */

static void rests(void)
{
    phase_member none = {NULL, false}, founder = {NULL, false};
    IS(asks(&none, 1), PHASE_E_NO_PHASER);
    WRITES_NONE(phase_member_look(&none, &phase, &value), PHASE_E_NO_PHASER);
    WRITES_NONE(phase_member_serve(&none, 3, &phase, &value), PHASE_E_NO_PHASER);
    WRITES_NONE(phase_member_take_back(&none, &phase, &value), PHASE_E_NO_PHASER);
    IS(phase_member_new(PHASE_SUM, 2, 100, &founder), PHASE_OK);
    WRITES_NONE(phase_member_look(&founder, &phase, &value), PHASE_E_NOT_ASKED);
    WRITES_NONE(phase_member_serve(&founder, 3, &phase, &value), PHASE_E_NOT_ASKED);
    WRITES_NONE(phase_member_take_back(&founder, &phase, &value), PHASE_E_NOT_ASKED);
    /* It is alone. */
    IS(asks(&founder, 1), PHASE_E_CANNOT_ASK);
    IS(phase_member_leave(&founder), PHASE_OK);
}

/* ---- Who cannot ask. */

static void cannot(void)
{
    phase_member founder = {NULL, false}, signals = {NULL, false}, waits = {NULL, false};
    const int64_t two[2] = {1, 2}, bad = INT64_MIN;
    uint64_t phase = 77;
    IS(phase_member_new(PHASE_SUM, 2, 100, &founder), PHASE_OK);
    IS(phase_member_register(&founder, PHASE_SIG, &signals), PHASE_OK);
    IS(phase_member_register(&founder, PHASE_WAIT, &waits), PHASE_OK);
    IS(asks(&signals, 1), PHASE_E_CANNOT_ASK);
    IS(asks(&waits, 1), PHASE_E_CANNOT_ASK);
    IS(phase_member_ask(&founder, two, 2), PHASE_E_CANNOT_ASK);
    IS(phase_member_ask(&founder, &bad, 1), PHASE_E_CANNOT_ASK);
    IS(phase_member_signal(&founder, two, 1, PHASE_NO_SINGLE, 0, 0, &phase), PHASE_OK);
    /* Its wait is still to be made. */
    IS(asks(&founder, 1), PHASE_E_CANNOT_ASK);
    IS(phase_member_leave(&signals), PHASE_OK);
    IS(phase_member_leave(&waits), PHASE_OK);
    IS(phase_member_leave(&founder), PHASE_OK);
}

/* ---- One that asks. */

/* Each other call of one that asks, which stands at this phase. */
static void is_busy(phase_member *member, uint64_t at)
{
    phase_member child = {NULL, false};
    phase_member_standing standing = {0};
    int64_t row[2] = {4, 5};
    size_t count = 77;
    uint64_t done, base;
    IS(asks(member, 1), PHASE_E_BUSY);
    WRITES_NONE(goes_next(member, 1, &phase, &value), PHASE_E_BUSY);
    WRITES_NONE((value = 77, phase_member_signal(member, row, 1, PHASE_NO_SINGLE, 0, 0, &phase)),
                PHASE_E_BUSY);
    WRITES_NONE(
        (value = 77, phase_member_signal_block(member, row, 2, PHASE_NO_SINGLE, 0, 0, &phase)),
        PHASE_E_BUSY);
    WRITES_NONE(phase_member_wait(member, &phase, &value), PHASE_E_BUSY);
    WRITES_NONE((value = 77, phase_member_wait_block(member, row, 2, &phase, &count)),
                PHASE_E_BUSY);
    IS(row[0], 4);
    IS(count, 77);
    IS(phase_member_register(member, PHASE_SIG_WAIT, &child), PHASE_E_BUSY);
    WRITES_NONE((value = 77, phase_member_register_now(member, &child, &phase)), PHASE_E_BUSY);
    IS(child.live, false);
    IS(phase_member_leave(member), PHASE_E_BUSY);
    /* What a signal names is looked at first. */
    WRITES_NONE((value = 77, phase_member_signal(member, row, 1, 9, 0, 0, &phase)),
                PHASE_E_BAD_SINGLE);
    IS(phase_member_view(member, &standing), PHASE_OK);
    IS(standing.signal_phase, at);
    IS(standing.wait_phase, at);
    IS(phase_member_told(member, &done, &base), PHASE_OK);
}

static void states(void)
{
    phase_member one = {NULL, false}, other = {NULL, false};
    IS(phase_member_new(PHASE_SUM, 2, 100, &one), PHASE_OK);
    IS(phase_member_register(&one, PHASE_SIG_WAIT, &other), PHASE_OK);
    /* A post alone, and then a signal that is made. */
    IS(asks(&one, 5), PHASE_ASKED);
    is_busy(&one, 0);
    WRITES_NONE(phase_member_look(&one, &phase, &value), PHASE_ASKED);
    WRITES_NONE(phase_member_serve(&one, 0, &phase, &value), PHASE_ASKED);
    is_busy(&one, 0);
    WRITES_NONE(phase_member_look(&one, &phase, &value), PHASE_ASKED);
    /* The other's turn completes the phase, and makes both waits. */
    IS(asks(&other, 7), PHASE_ASKED);
    TELLS(phase_member_serve(&other, 0, &phase, &value), PHASE_OK, 0, 12);
    WRITES_NONE(phase_member_look(&other, &phase, &value), PHASE_E_NOT_ASKED);
    TELLS(phase_member_look(&one, &phase, &value), PHASE_OK, 0, 12);
    /* One turn makes both signals. */
    IS(asks(&other, 1), PHASE_ASKED);
    IS(asks(&one, 2), PHASE_ASKED);
    TELLS(phase_member_serve(&one, 1, &phase, &value), PHASE_OK, 1, 3);
    TELLS(phase_member_look(&other, &phase, &value), PHASE_OK, 1, 3);
    /* With no send. */
    IS(phase_member_ask(&one, NULL, 0), PHASE_ASKED);
    IS(asks(&other, 4), PHASE_ASKED);
    TELLS(phase_member_serve(&one, 1, &phase, &value), PHASE_OK, 2, 4);
    TELLS(phase_member_serve(&other, 0, &phase, &value), PHASE_OK, 2, 4);
    /* The phase is made complete by who asks nobody: then it is for a turn of its own. */
    IS(asks(&one, 1), PHASE_ASKED);
    WRITES_NONE(phase_member_serve(&one, 0, &phase, &value), PHASE_ASKED);
    TELLS(goes_next(&other, 2, &phase, &value), PHASE_OK, 3, 3);
    WRITES_NONE(phase_member_look(&one, &phase, &value), PHASE_ASKED);
    TELLS(phase_member_serve(&one, 0, &phase, &value), PHASE_OK, 3, 3);
    IS(phase_member_leave(&other), PHASE_OK);
    IS(phase_member_leave(&one), PHASE_OK);
}

/* ---- Taken back. */

static void taken_back(void)
{
    phase_member one = {NULL, false}, other = {NULL, false};
    IS(phase_member_new(PHASE_SUM, 2, 100, &one), PHASE_OK);
    IS(phase_member_register(&one, PHASE_SIG_WAIT, &other), PHASE_OK);
    /* A post alone: its signal is made then. */
    IS(asks(&one, 5), PHASE_ASKED);
    TELLS(phase_member_take_back(&one, &phase, &value), PHASE_SIGNALLED, 0, 77);
    WRITES_NONE(phase_member_take_back(&one, &phase, &value), PHASE_E_NOT_ASKED);
    WRITES_NONE(phase_member_wait(&one, &phase, &value), PHASE_E_NOT_YET);
    TELLS(goes_next(&other, 2, &phase, &value), PHASE_OK, 0, 7);
    TELLS(phase_member_wait(&one, &phase, &value), PHASE_OK, 0, 7);
    /* A signal that was made is not made twice. */
    IS(asks(&one, 5), PHASE_ASKED);
    WRITES_NONE(phase_member_serve(&one, 0, &phase, &value), PHASE_ASKED);
    TELLS(phase_member_take_back(&one, &phase, &value), PHASE_SIGNALLED, 1, 77);
    TELLS(goes_next(&other, 3, &phase, &value), PHASE_OK, 1, 8);
    TELLS(phase_member_wait(&one, &phase, &value), PHASE_OK, 1, 8);
    /* It completes the phase. */
    IS(asks(&other, 3), PHASE_ASKED);
    WRITES_NONE(phase_member_serve(&other, 0, &phase, &value), PHASE_ASKED);
    IS(asks(&one, 5), PHASE_ASKED);
    TELLS(phase_member_take_back(&one, &phase, &value), PHASE_OK, 2, 8);
    TELLS(phase_member_look(&other, &phase, &value), PHASE_OK, 2, 8);
    /* It was answered. */
    IS(asks(&one, 5), PHASE_ASKED);
    WRITES_NONE(phase_member_serve(&one, 0, &phase, &value), PHASE_ASKED);
    IS(asks(&other, 4), PHASE_ASKED);
    TELLS(phase_member_serve(&other, 0, &phase, &value), PHASE_OK, 3, 9);
    TELLS(phase_member_take_back(&one, &phase, &value), PHASE_OK, 3, 9);
    /* What is taken back is asked for no more: the other's turn finds nothing. */
    IS(asks(&one, 5), PHASE_ASKED);
    TELLS(phase_member_take_back(&one, &phase, &value), PHASE_SIGNALLED, 4, 77);
    IS(phase_member_leave(&one), PHASE_OK);
    TELLS(goes_next(&other, 6, &phase, &value), PHASE_OK, 4, 11);
    TELLS(goes_next(&other, 6, &phase, &value), PHASE_OK, 5, 6);
    IS(phase_member_leave(&other), PHASE_OK);
}

/* ---- Refused. */

static void refused(void)
{
    phase_member one = {NULL, false}, other = {NULL, false}, late = {NULL, false};
    IS(phase_member_new(PHASE_SUM, 1, 100, &one), PHASE_OK);
    IS(phase_member_register(&one, PHASE_SIG_WAIT, &other), PHASE_OK);
    IS(phase_member_register(&one, PHASE_WAIT, &late), PHASE_OK);
    IS(asks(&one, 1), PHASE_ASKED);
    IS(asks(&other, 2), PHASE_ASKED);
    TELLS(phase_member_serve(&one, 0, &phase, &value), PHASE_OK, 0, 3);
    TELLS(phase_member_look(&other, &phase, &value), PHASE_OK, 0, 3);
    /* The waiter is a phase behind: a refused signal leaves the registration at rest. */
    IS(asks(&one, 4), PHASE_ASKED);
    WRITES_NONE(phase_member_serve(&one, 0, &phase, &value), PHASE_E_AHEAD);
    WRITES_NONE(phase_member_serve(&one, 0, &phase, &value), PHASE_E_NOT_ASKED);
    IS(asks(&one, 4), PHASE_ASKED);
    WRITES_NONE(phase_member_take_back(&one, &phase, &value), PHASE_E_AHEAD);
    WRITES_NONE(phase_member_look(&one, &phase, &value), PHASE_E_NOT_ASKED);
    TELLS(phase_member_wait(&late, &phase, &value), PHASE_OK, 0, 3);
    IS(asks(&one, 4), PHASE_ASKED);
    TELLS(goes_next(&other, 5, &phase, &value), PHASE_SIGNALLED, 1, 77);
    TELLS(phase_member_serve(&one, 0, &phase, &value), PHASE_OK, 1, 9);
    IS(phase_member_leave(&one), PHASE_OK);
    IS(phase_member_leave(&late), PHASE_OK);
    IS(phase_member_leave(&other), PHASE_OK);
}

/* ---- More than have a lane. */

enum { LANES = 16 };

static void lanes(void)
{
    phase_member all[LANES + 1] = {{NULL, false}}, late = {NULL, false};
    IS(phase_member_new(PHASE_SUM, 2, 100, &all[0]), PHASE_OK);
    for (int at = 1; at <= LANES; at++)
        IS(phase_member_register(&all[0], PHASE_SIG_WAIT, &all[at]), PHASE_OK);
    for (int at = 0; at < LANES; at++)
        IS(asks(&all[at], at), PHASE_ASKED);
    IS(asks(&all[LANES], LANES), PHASE_E_CANNOT_ASK);
    TELLS(goes_next(&all[LANES], LANES, &phase, &value), PHASE_SIGNALLED, 0, 77);
    /* One turn makes the signals of all that ask, and their waits. */
    TELLS(phase_member_serve(&all[3], 0, &phase, &value), PHASE_OK, 0, LANES * (LANES + 1) / 2);
    for (int at = 0; at < LANES; at++)
        if (at != 3)
            TELLS(phase_member_look(&all[at], &phase, &value), PHASE_OK, 0,
                  LANES * (LANES + 1) / 2);
    TELLS(phase_member_wait(&all[LANES], &phase, &value), PHASE_OK, 0, LANES * (LANES + 1) / 2);
    /* Who leaves gives its lane back, and who comes late gets it. */
    IS(phase_member_leave(&all[3]), PHASE_OK);
    IS(phase_member_register(&all[0], PHASE_SIG_WAIT, &late), PHASE_OK);
    IS(asks(&late, 1), PHASE_ASKED);
    TELLS(phase_member_take_back(&late, &phase, &value), PHASE_SIGNALLED, 1, 77);
    IS(phase_member_leave(&late), PHASE_OK);
    for (int at = 0; at <= LANES; at++)
        if (at != 3)
            IS(phase_member_leave(&all[at]), PHASE_OK);
}

/* ---- Calls at random, by one thread. */

enum { TASKS = 6, PHASES = 4000, CALLS = 15000 };

struct one {
    phase_member member;
    uint32_t mode;
    bool asks;
};

/* Of each phase: how many signalled it, and what those that got it were given. */
static int64_t sent[PHASES], got[PHASES];

static uint32_t seed;

static uint32_t below(uint32_t most)
{
    seed = seed * 1664525u + 1013904223u;
    return (seed >> 8) % most;
}

/* Notes what a call answered that signals, or waits, or both. */
static void note(int32_t status, bool signals, bool waits, uint64_t phase, int64_t value)
{
    if (status != PHASE_OK && status != PHASE_SIGNALLED)
        return;
    sent[phase] += signals;
    if (status == PHASE_OK && waits) {
        IS(got[phase] == -1 || got[phase] == value, true);
        got[phase] = value;
    }
}

/* Ends what one asks, or looks whether it has ended. */
static void may_end(struct one *one, uint32_t how)
{
    uint64_t phase = 77;
    int64_t value = 77;
    int32_t status = how == 0   ? phase_member_look(&one->member, &phase, &value)
                     : how == 1 ? phase_member_serve(&one->member, below(3), &phase, &value)
                                : phase_member_take_back(&one->member, &phase, &value);
    IS(status == PHASE_E_NOT_ASKED, !one->asks);
    IS(status == PHASE_E_BUSY, false);
    IS(status == PHASE_ASKED && how == 2, false);
    if (one->asks && status != PHASE_ASKED) {
        one->asks = false;
        note(status, true, true, phase, value);
    }
}

/* A call that one that asks does not make. */
static void calls(struct one *one, struct one *none, uint32_t which)
{
    static const int64_t value = 1;
    uint64_t phase = 77;
    int64_t given = 77;
    int32_t status;
    bool signals = false, waits = true;
    switch (which) {
    case 0:
        status = phase_member_ask(&one->member, &value, 1);
        waits = false;
        break;
    case 1:
        signals = one->mode == PHASE_SIG_WAIT;
        waits = signals;
        status = goes_next(&one->member, value, &phase, &given);
        signals = signals || one->mode == PHASE_SIG;
        break;
    case 2:
        signals = true;
        waits = false;
        status = phase_member_signal(&one->member, &value, 1, PHASE_NO_SINGLE, 0, 0, &phase);
        break;
    case 3: status = phase_member_wait(&one->member, &phase, &given); break;
    case 4:
        none->mode = below(3) == 0 ? one->mode : PHASE_SIG_WAIT;
        waits = false;
        status = phase_member_register(&one->member, none->mode, &none->member);
        break;
    default:
        waits = false;
        status = phase_member_leave(&one->member);
    }
    IS(status == PHASE_E_BUSY, one->asks);
    one->asks = one->asks || status == PHASE_ASKED;
    if (which != 0 && which < 4)
        note(status, signals, waits, phase, given);
}

static void at_random(uint32_t from)
{
    static struct one all[TASKS];
    struct one *none = NULL;
    seed = from;
    for (int at = 0; at < PHASES; at++)
        sent[at] = 0, got[at] = -1;
    all[0].mode = PHASE_SIG_WAIT;
    IS(phase_member_new(PHASE_SUM, 2, PHASES, &all[0].member), PHASE_OK);
    for (int at = 0; at < CALLS; at++) {
        struct one *one = &all[below(TASKS)];
        for (int other = 0; other < TASKS; other++)
            if (!all[other].member.live)
                none = &all[other];
        uint32_t which = below(16);
        if (!one->member.live)
            continue;
        if (which < 6)
            may_end(one, which % 3);
        else if (which < 14)
            calls(one, none, which % 4);
        else if (which == 14 && none != NULL && !none->member.live)
            calls(one, none, 4);
        else if (one != &all[0] && below(4) == 0)
            calls(one, none, 5);
    }
    for (int at = 0; at < TASKS; at++) {
        if (!all[at].member.live)
            continue;
        may_end(&all[at], 2);
        IS(phase_member_leave(&all[at].member), PHASE_OK);
    }
    int64_t most = 0;
    for (int at = 0; at < PHASES; at++) {
        most += got[at] != -1;
        IS(got[at] == -1 || got[at] == sent[at], true);
    }
    /* The phases went on. */
    IS(most > 100, true);
}

/* ---- Threads whose time passes. */

enum { MOST = 20 };

struct task {
    phase_registration registration;
    pthread_t thread;
    int64_t number;
    int64_t threads;
    uint64_t phases;
};

/* Goes to the next phase with little time, and waits for it where its signal alone was made. */
static int32_t hurries(struct task *task, uint64_t nanoseconds, int64_t sent, int64_t *got)
{
    uint64_t phase;
    int32_t status;
    do {
        status = phase_shared_next_for(&task->registration, &sent, 1, PHASE_NO_SINGLE, 0, 0,
                                       &phase, got, nanoseconds);
        while (status == PHASE_SIGNALLED || status == PHASE_ASKED || status == PHASE_E_NOT_YET)
            status = phase_shared_wait_for(&task->registration, &phase, got, nanoseconds);
    } while (status == PHASE_E_AHEAD);
    return status;
}

static void *hurry(void *of)
{
    struct task *task = of;
    uint32_t seed = (uint32_t)task->number * 2654435761u + 1;
    for (uint64_t at = 0; at < task->phases; at++) {
        seed = seed * 1664525u + 1013904223u;
        int64_t got = 77;
        IS(hurries(task, (seed >> 8) % 30000, task->number + (int64_t)at, &got), PHASE_OK);
        IS(got, task->threads * (task->threads - 1) / 2 + task->threads * (int64_t)at);
    }
    IS(phase_shared_leave(&task->registration), PHASE_OK);
    return NULL;
}

static void in_a_hurry(int64_t threads, uint64_t phases)
{
    static struct task tasks[MOST];
    IS(phase_shared_new(PHASE_SUM, 2, phases, &tasks[0].registration), PHASE_OK);
    for (int64_t at = 0; at < threads; at++) {
        if (at > 0)
            IS(phase_shared_register(&tasks[0].registration, PHASE_SIG_WAIT,
                                     &tasks[at].registration),
               PHASE_OK);
        tasks[at].number = at;
        tasks[at].threads = threads;
        tasks[at].phases = phases;
    }
    for (int64_t at = 0; at < threads; at++)
        IS(pthread_create(&tasks[at].thread, NULL, hurry, &tasks[at]), 0);
    for (int64_t at = 0; at < threads; at++)
        IS(pthread_join(tasks[at].thread, NULL), 0);
}

/* One asks until its time passes, and leaves; the other then goes on without it. */
static void leaves_in_time(void)
{
    phase_registration one = PHASE_REGISTRATION_INIT, other = PHASE_REGISTRATION_INIT;
    int64_t sent = 4;
    IS(phase_shared_new(PHASE_SUM, 2, 100, &one), PHASE_OK);
    IS(phase_shared_register(&one, PHASE_SIG_WAIT, &other), PHASE_OK);
    TELLS(phase_shared_next_for(&one, &sent, 1, PHASE_NO_SINGLE, 0, 0, &phase, &value, 1000000),
          PHASE_SIGNALLED, 0, 77);
    IS(phase_shared_leave(&one), PHASE_OK);
    TELLS(phase_shared_next(&other, &sent, 1, PHASE_NO_SINGLE, 0, 0, &phase, &value), PHASE_OK, 0,
          8);
    TELLS(phase_shared_next(&other, &sent, 1, PHASE_NO_SINGLE, 0, 0, &phase, &value), PHASE_OK, 1,
          4);
    IS(phase_shared_leave(&other), PHASE_OK);
}

/* ---- A turn that another has for long. */

#ifndef __SANITIZE_THREAD__

/* A thread that makes calls all the time, and can be stopped in the middle of one. */
struct holder {
    phase_registration registration;
    pthread_t thread;
};

static _Atomic bool is_stopped, goes_on, is_over;

static void nap(void)
{
    nanosleep(&(struct timespec){0, 100000}, NULL);
}

static void stop(int signal)
{
    (void)signal;
    atomic_store(&is_stopped, true);
    while (!atomic_load(&goes_on))
        nap();
    atomic_store(&is_stopped, false);
}

static void *hold(void *of)
{
    struct holder *holder = of;
    while (!atomic_load(&is_over))
        phase_shared_try_missing(&holder->registration, NULL, NULL, 0);
    return NULL;
}

/* Stops the holder where it has the turn, which another registration is told by a try. */
static void stops(struct holder *holder, phase_registration *other)
{
    int32_t status;
    do {
        atomic_store(&goes_on, true);
        while (atomic_load(&is_stopped))
            nap();
        atomic_store(&goes_on, false);
        IS(pthread_kill(holder->thread, SIGUSR1), 0);
        while (!atomic_load(&is_stopped))
            nap();
        status = phase_shared_try_missing(other, NULL, NULL, 0);
    } while (status == PHASE_OK);
    IS(status, PHASE_E_BUSY);
}

/* A phaser of so many phases, and a holder that has its turn. */
static void begins_to_hold(struct holder *holder, phase_registration *own, uint64_t phases)
{
    *own = (phase_registration)PHASE_REGISTRATION_INIT;
    holder->registration = *own;
    atomic_store(&is_over, false);
    IS(phase_shared_new(PHASE_SUM, 2, phases, own), PHASE_OK);
    IS(phase_shared_register(own, PHASE_SIG_WAIT, &holder->registration), PHASE_OK);
    IS(pthread_create(&holder->thread, NULL, hold, holder), 0);
    stops(holder, own);
}

static void holds_no_longer(struct holder *holder)
{
    atomic_store(&is_over, true);
    atomic_store(&goes_on, true);
    IS(pthread_join(holder->thread, NULL), 0);
}

static uint64_t milliseconds(void)
{
    struct timespec time;
    clock_gettime(CLOCK_MONOTONIC, &time);
    return (uint64_t)time.tv_sec * 1000 + (uint64_t)time.tv_nsec / 1000000;
}

/* A next for a millisecond comes back while another has the turn, and its ask stands; with no time
 * it asks for nothing. */
static void comes_back(phase_registration *own, uint64_t at, int32_t wanted, uint64_t nanoseconds)
{
    const int64_t sent = 4;
    uint64_t begun = milliseconds(), phase = 77;
    int64_t value = 77;
    IS(phase_shared_next_for(own, &sent, 1, PHASE_NO_SINGLE, 0, 0, &phase, &value, nanoseconds),
       wanted);
    IS(milliseconds() - begun < 500, true);
    IS(phase, wanted == PHASE_ASKED ? at : 77);
    IS(value, 77);
}

/* What comes of the ask is got by the next wait, or goes with one that leaves. */
static void in_time(void)
{
    phase_registration own, child = PHASE_REGISTRATION_INIT;
    static struct holder holder;
    const int64_t five = 5;
    int64_t row[2] = {77, 77};
    size_t count = 77;
    begins_to_hold(&holder, &own, 3);
    comes_back(&own, 0, PHASE_E_AHEAD, 0);
    comes_back(&own, 0, PHASE_ASKED, 1000000);
    WRITES_NONE((value = 77, phase_shared_signal(&own, &five, 1, PHASE_NO_SINGLE, 0, 0, &phase)),
                PHASE_E_SIGNAL_TWICE);
    WRITES_NONE(phase_shared_try_wait(&own, &phase, &value), PHASE_E_BUSY);
    WRITES_NONE(phase_shared_wait_for(&own, &phase, &value, 1000000), PHASE_E_NOT_YET);
    IS(phase_shared_try_leave(&own), PHASE_E_BUSY);
    holds_no_longer(&holder);
    /* The wait makes its signal; the other completes the phase. */
    WRITES_NONE(phase_shared_wait_for(&own, &phase, &value, 1000000), PHASE_E_NOT_YET);
    TELLS(phase_shared_next(&holder.registration, &five, 1, PHASE_NO_SINGLE, 0, 0, &phase, &value),
          PHASE_OK, 0, 9);
    TELLS(phase_shared_wait(&own, &phase, &value), PHASE_OK, 0, 9);
    /* The other's turn makes both; a child that comes before the wait begins behind that phase. */
    atomic_store(&is_over, false);
    IS(pthread_create(&holder.thread, NULL, hold, &holder), 0);
    stops(&holder, &own);
    comes_back(&own, 1, PHASE_ASKED, 1000000);
    holds_no_longer(&holder);
    TELLS(phase_shared_next(&holder.registration, &five, 1, PHASE_NO_SINGLE, 0, 0, &phase, &value),
          PHASE_OK, 1, 9);
    IS(phase_shared_register(&own, PHASE_SIG_WAIT, &child), PHASE_OK);
    IS(phase_shared_leave(&child), PHASE_OK);
    IS(phase_shared_signal(&own, &five, 1, PHASE_NO_SINGLE, 0, 0, NULL), PHASE_E_SIGNAL_TWICE);
    uint64_t phase = 77;
    IS(phase_shared_wait_block(&own, row, 3, &phase, &count), PHASE_E_BAD_BLOCK);
    IS(phase_shared_wait_block(&own, row, 2, &phase, &count), PHASE_OK);
    IS(phase, 1);
    IS(count, 1);
    IS(row[0], 9);
    IS(row[1], 77);
    /* Who leaves has made its signal. */
    atomic_store(&is_over, false);
    IS(pthread_create(&holder.thread, NULL, hold, &holder), 0);
    stops(&holder, &own);
    comes_back(&own, 2, PHASE_ASKED, 1000000);
    holds_no_longer(&holder);
    IS(phase_shared_leave(&own), PHASE_OK);
    TELLS(phase_shared_next(&holder.registration, &five, 1, PHASE_NO_SINGLE, 0, 0, &phase, &value),
          PHASE_OK, 2, 9);
    IS(phase_shared_leave(&holder.registration), PHASE_OK);
    /* The phaser was made for one phase: the wait is answered what the signal was. */
    begins_to_hold(&holder, &own, 1);
    comes_back(&own, 0, PHASE_ASKED, 1000000);
    holds_no_longer(&holder);
    TELLS(phase_shared_next(&holder.registration, &five, 1, PHASE_NO_SINGLE, 0, 0, &phase, &value),
          PHASE_OK, 0, 9);
    TELLS(phase_shared_wait(&own, &phase, &value), PHASE_OK, 0, 9);
    atomic_store(&is_over, false);
    IS(pthread_create(&holder.thread, NULL, hold, &holder), 0);
    stops(&holder, &own);
    comes_back(&own, 1, PHASE_ASKED, 1000000);
    holds_no_longer(&holder);
    WRITES_NONE(phase_shared_wait(&own, &phase, &value), PHASE_E_SPENT);
    WRITES_NONE(phase_shared_wait(&own, &phase, &value), PHASE_E_SIGNAL_FIRST);
    IS(phase_shared_leave(&own), PHASE_OK);
    IS(phase_shared_leave(&holder.registration), PHASE_OK);
}

#endif

/* ---- Whose turns made the answers. */

static void *go(void *of)
{
    struct task *task = of;
    for (uint64_t at = 0; at < task->phases; at++) {
        int64_t got = 77;
        IS(phase_shared_meet(&task->registration, (int64_t)at, &got), PHASE_OK);
        IS(got, 2 * (int64_t)at);
    }
    return NULL;
}

/* Two threads meet: of most phases one makes the answer, and the other asked for it. */
static void others_answer(uint64_t phases)
{
    static struct task tasks[2];
    uint64_t answers[2] = {77, 77};
    IS(phase_shared_answers(&tasks[0].registration, &answers[0]), PHASE_E_NO_PHASER);
    IS(phase_shared_new(PHASE_SUM, 2, phases, &tasks[0].registration), PHASE_OK);
    IS(phase_shared_register(&tasks[0].registration, PHASE_SIG_WAIT, &tasks[1].registration),
       PHASE_OK);
    for (int at = 0; at < 2; at++) {
        IS(phase_shared_answers(&tasks[at].registration, &answers[at]), PHASE_OK);
        IS(answers[at], 0);
        tasks[at].phases = phases;
        IS(pthread_create(&tasks[at].thread, NULL, go, &tasks[at]), 0);
    }
    for (int at = 0; at < 2; at++) {
        IS(pthread_join(tasks[at].thread, NULL), 0);
        IS(phase_shared_answers(&tasks[at].registration, &answers[at]), PHASE_OK);
        IS(answers[at] <= phases, true);
        IS(phase_shared_leave(&tasks[at].registration), PHASE_OK);
    }
    printf("asks: others' turns made %llu and %llu answers of %llu phases\n",
           (unsigned long long)answers[0], (unsigned long long)answers[1],
           (unsigned long long)phases);
    /* Where there is one processor nobody asks. */
    IS(answers[0] + answers[1] > phases / 2, sysconf(_SC_NPROCESSORS_ONLN) > 1);
}

int main(void)
{
    rests();
    cannot();
    states();
    taken_back();
    refused();
    lanes();
    for (uint32_t from = 1; from <= 6; from++)
        at_random(from);
    leaves_in_time();
    for (int64_t threads = 2; threads <= MOST; threads += 3)
        in_a_hurry(threads, 300);
    others_answer(10000);
#ifndef __SANITIZE_THREAD__
    /* The sanitizer has a signal wait until a call that it sees; and with one processor nobody
     * asks. */
    IS(sigaction(SIGUSR1, &(struct sigaction){.sa_handler = stop}, NULL), 0);
    if (sysconf(_SC_NPROCESSORS_ONLN) > 1)
        in_time();
#endif
    printf("asks: %d of %d\n", passed, passed + failed);
    return failed != 0;
}
