/* What the calls of phase_shared.h answer and write between threads, beside values worked out by
 * hand: barriers, streams and blocks of 2, 4 and 16 threads, time limits, a bound that is kept,
 * those that leave while others wait for them, and each refusal, which leaves all as it was. */
#define _POSIX_C_SOURCE 200809L
#include "phase_shared.h"
#include <pthread.h>
#include <stdatomic.h>
#include <stdio.h>
#include <string.h>
#include <time.h>

static _Atomic int passed, failed;

/* Whether a number is the one that is wanted. */
#define IS(found, wanted) is(__LINE__, #found, (int64_t)(found), (int64_t)(wanted))

static void is(int line, const char *name, int64_t found, int64_t wanted)
{
    if (found != wanted)
        printf("shared: line %d: %s is %lld, and not %lld\n", line, name, (long long)found,
               (long long)wanted);
    *(found == wanted ? &passed : &failed) += 1;
}

static const uint64_t MILLISECOND = 1000000;

static uint64_t now(void)
{
    struct timespec time;
    clock_gettime(CLOCK_MONOTONIC, &time);
    return (uint64_t)time.tv_sec * 1000 * MILLISECOND + (uint64_t)time.tv_nsec;
}

static void linger(uint64_t milliseconds)
{
    struct timespec time = {0, (long)(milliseconds * MILLISECOND)};
    nanosleep(&time, NULL);
}

/* Calls with no single. */
static int32_t signals(phase_registration *it, int64_t value, uint64_t *phase)
{
    return phase_shared_signal(it, &value, 1, PHASE_NO_SINGLE, 0, 0, phase);
}

static int32_t goes_next(phase_registration *it, int64_t value, uint64_t *phase, int64_t *got)
{
    return phase_shared_next(it, &value, 1, PHASE_NO_SINGLE, 0, 0, phase, got);
}

/* A wait that is answered with this phase and this value. */
#define GETS(registration, wanted_phase, wanted)                                                   \
    do {                                                                                           \
        uint64_t phase_ = 77;                                                                      \
        int64_t value_ = 77;                                                                       \
        IS(phase_shared_wait(registration, &phase_, &value_), PHASE_OK);                           \
        IS(phase_, wanted_phase);                                                                  \
        IS(value_, wanted);                                                                        \
    } while (0)

/* A call that writes a phase and a value, is answered so, and writes neither. */
#define WRITES_NONE(status, call)                                                                  \
    do {                                                                                           \
        uint64_t phase = 77;                                                                       \
        int64_t value = 77;                                                                        \
        IS(call, status);                                                                          \
        IS(phase, 77);                                                                             \
        IS(value, 77);                                                                             \
        (void)value;                                                                               \
    } while (0)

/* A thread of a test, with its registration, what it is told and what it counts. */
struct task {
    phase_registration registration;
    pthread_t thread;
    int64_t number;
    uint64_t phases;
    _Atomic uint64_t started;
};

static void starts(struct task *task, void *(*work)(void *))
{
    IS(pthread_create(&task->thread, NULL, work, task), 0);
}

static void ends(struct task *task)
{
    IS(pthread_join(task->thread, NULL), 0);
}

/* ---- Threads that meet: in each phase each sends the phase plus its number. */

enum { MEETING_MAX = 16 };

static int64_t threads;

/* What each wrote before its signal, of the phases with an even number and of the others. */
static int64_t written[2][MEETING_MAX];

/* Whether what all wrote before their signals is there. A race detector does not see the library,
 * by which this is ordered, and so finds fault with it. */
static int sees_all(int64_t phase)
{
#if defined(__SANITIZE_THREAD__)
    return phase >= 0;
#else
    for (int64_t number = 0; number < threads; number++)
        if (written[phase & 1][number] != phase)
            return 0;
    return 1;
#endif
}

static void *meets(void *of)
{
    struct task *task = of;
    int wrong = 0;
    for (int64_t at = 0; at < (int64_t)task->phases; at++) {
        uint64_t phase = 77;
        int64_t value = 77;
        written[at & 1][task->number] = at;
        wrong += goes_next(&task->registration, at + task->number, &phase, &value) != PHASE_OK;
        wrong += phase != (uint64_t)at || !sees_all(at);
        wrong += value != threads * at + threads * (threads - 1) / 2;
    }
    IS(wrong, 0);
    IS(phase_shared_leave(&task->registration), PHASE_OK);
    return NULL;
}

static void barrier(int64_t count, uint64_t bound, uint64_t phases)
{
    struct task tasks[MEETING_MAX];
    memset(tasks, 0, sizeof tasks);
    threads = count;
    IS(phase_shared_new(PHASE_SUM, bound, phases, &tasks[0].registration), PHASE_OK);
    for (int64_t number = 0; number < count; number++) {
        tasks[number].number = number;
        tasks[number].phases = phases;
        if (number > 0)
            IS(phase_shared_register(&tasks[0].registration, PHASE_SIG_WAIT,
                                     &tasks[number].registration),
               PHASE_OK);
    }
    for (int64_t number = 1; number < count; number++)
        starts(&tasks[number], meets);
    meets(&tasks[0]);
    for (int64_t number = 1; number < count; number++)
        ends(&tasks[number]);
}

/* ---- A stream to two consumers, one value or a block at a time. */

enum { BOUND = 8, STREAM = 2000 };

static struct task consumers[2];

static void *consumes(void *of)
{
    struct task *task = of;
    int wrong = 0;
    for (uint64_t at = 0; at < STREAM; at++) {
        uint64_t phase = 77;
        int64_t value = 77;
        atomic_store(&task->started, at + 1);
        wrong += phase_shared_wait(&task->registration, &phase, &value) != PHASE_OK;
        wrong += phase != at || value != (int64_t)(at * at);
        if (at % 500 == 0)
            linger(2);
    }
    IS(wrong, 0);
    WRITES_NONE(PHASE_ENDED, phase_shared_wait(&task->registration, &phase, &value));
    IS(phase_shared_leave(&task->registration), PHASE_OK);
    return NULL;
}

static void *consumes_blocks(void *of)
{
    struct task *task = of;
    int wrong = 0;
    for (uint64_t at = 0; at < STREAM;) {
        uint64_t phase = 77;
        int64_t values[BOUND];
        size_t count = 0;
        int32_t status = phase_shared_wait_block(&task->registration, values,
                                                 task->number ? BOUND : BOUND / 2, &phase, &count);
        wrong += status != PHASE_OK || phase != at || count == 0;
        if (wrong)
            break;
        for (size_t i = 0; i < count; i++)
            wrong += values[i] != (int64_t)((at + i) * (at + i));
        at += count;
    }
    IS(wrong, 0);
    WRITES_NONE(PHASE_ENDED, phase_shared_wait(&task->registration, &phase, &value));
    IS(phase_shared_leave(&task->registration), PHASE_OK);
    return NULL;
}

/* A signaller with two consumers that run. */
static phase_registration producer(uint64_t bound, void *(*work)(void *))
{
    phase_registration founder = PHASE_REGISTRATION_INIT, signaller = PHASE_REGISTRATION_INIT;
    memset(consumers, 0, sizeof consumers);
    IS(phase_shared_new(PHASE_SUM, bound, STREAM, &founder), PHASE_OK);
    IS(phase_shared_register(&founder, PHASE_SIG, &signaller), PHASE_OK);
    for (int number = 0; number < 2; number++) {
        consumers[number].number = number;
        IS(phase_shared_register(&founder, PHASE_WAIT, &consumers[number].registration), PHASE_OK);
        starts(&consumers[number], work);
    }
    IS(phase_shared_leave(&founder), PHASE_OK);
    return signaller;
}

static uint64_t started(int number)
{
    return atomic_load(&consumers[number].started);
}

/* A phase is never the bound ahead of the one that the slowest consumer has begun to wait for. */
static void stream(void)
{
    phase_registration signaller = producer(BOUND, consumes);
    int wrong = 0;
    for (uint64_t at = 0; at < STREAM; at++) {
        uint64_t phase = 77;
        wrong += signals(&signaller, (int64_t)(at * at), &phase) != PHASE_OK || phase != at;
        uint64_t slowest = started(0) < started(1) ? started(0) : started(1);
        wrong += phase >= slowest + BOUND;
    }
    IS(wrong, 0);
    IS(phase_shared_leave(&signaller), PHASE_OK);
    ends(&consumers[0]);
    ends(&consumers[1]);
}

static void blocks(void)
{
    phase_registration signaller = producer(BOUND, consumes_blocks);
    int wrong = 0;
    for (uint64_t at = 0; at < STREAM; at += BOUND / 2) {
        uint64_t phase = 77;
        int64_t values[BOUND / 2];
        for (uint64_t i = 0; i < BOUND / 2; i++)
            values[i] = (int64_t)((at + i) * (at + i));
        wrong += phase_shared_signal_block(&signaller, values, BOUND / 2, PHASE_NO_SINGLE, 0, 0,
                                           &phase) != PHASE_OK;
        wrong += phase != at;
    }
    IS(wrong, 0);
    IS(phase_shared_leave(&signaller), PHASE_OK);
    ends(&consumers[0]);
    ends(&consumers[1]);
}

/* ---- Time limits. */

/* Whether it is so many milliseconds since then, and not half a minute more. */
static int took(uint64_t since, uint64_t milliseconds)
{
    uint64_t time = now() - since;
    return time >= milliseconds * MILLISECOND && time < (milliseconds + 30000) * MILLISECOND;
}

static void *signals_late(void *of)
{
    struct task *task = of;
    uint64_t phase = 77;
    linger(30);
    IS(signals(&task->registration, 5, &phase), PHASE_OK);
    IS(phase, 0);
    return NULL;
}

static void *tries_late(void *of)
{
    struct task *task = of;
    const int64_t five = 5;
    uint64_t phase = 77;
    int32_t status;
    linger(30);
    do
        status = phase_shared_try_signal(&task->registration, &five, 1, PHASE_NO_SINGLE, 0, 0,
                                         &phase);
    while (status == PHASE_E_BUSY);
    IS(status, PHASE_OK);
    return NULL;
}

/* Limits that run out, and one that does not, since the other thread signals. */
static void time_limits(void *(*late)(void *))
{
    phase_registration founder = PHASE_REGISTRATION_INIT;
    struct task other = {.number = 1};
    const int64_t four = 4;
    uint64_t phase = 77, since = now();
    int64_t value = 77;
    IS(phase_shared_new(PHASE_SUM, 1, 10, &founder), PHASE_OK);
    IS(phase_shared_register(&founder, PHASE_SIG, &other.registration), PHASE_OK);
    IS(phase_shared_next_for(&founder, &four, 1, PHASE_NO_SINGLE, 0, 0, &phase, &value,
                             20 * MILLISECOND),
       PHASE_SIGNALLED);
    IS(phase, 0);
    IS(value, 77);
    IS(took(since, 20), 1);
    since = now();
    WRITES_NONE(PHASE_E_NOT_YET,
                phase_shared_wait_for(&founder, &phase, &value, 20 * MILLISECOND));
    IS(took(since, 20), 1);
    WRITES_NONE(PHASE_E_NOT_YET, phase_shared_wait_for(&founder, &phase, &value, 0));
    WRITES_NONE(PHASE_E_NOT_YET, phase_shared_try_wait(&founder, &phase, &value));
    starts(&other, late);
    since = now();
    IS(phase_shared_wait_for(&founder, &phase, &value, 60000 * MILLISECOND), PHASE_OK);
    IS(now() - since < 30000 * MILLISECOND, 1);
    IS(value, 9);
    ends(&other);
    IS(phase_shared_leave(&other.registration), PHASE_OK);
    IS(phase_shared_leave(&founder), PHASE_OK);
}

/* A signal that is ahead of a waiter, by one phase and by a block. */
static void time_limits_of_signals(void)
{
    phase_registration founder = PHASE_REGISTRATION_INIT, waiter = PHASE_REGISTRATION_INIT;
    phase_registration signaller = PHASE_REGISTRATION_INIT;
    const int64_t four[2] = {4, 4};
    int64_t values[2] = {77, 77};
    uint64_t since;
    size_t count = 77;
    IS(phase_shared_new(PHASE_GREATEST, 2, 10, &founder), PHASE_OK);
    IS(phase_shared_register(&founder, PHASE_WAIT, &waiter), PHASE_OK);
    IS(phase_shared_register(&founder, PHASE_SIG, &signaller), PHASE_OK);
    IS(phase_shared_leave(&founder), PHASE_OK);
    uint64_t phase = 77;
    IS(phase_shared_signal_for(&signaller, four, 1, PHASE_NO_SINGLE, 0, 0, &phase, 0), PHASE_OK);
    since = now();
    WRITES_NONE(PHASE_E_AHEAD, phase_shared_signal_block_for(&signaller, four, 2, PHASE_NO_SINGLE,
                                                             0, 0, &phase, 20 * MILLISECOND));
    IS(took(since, 20), 1);
    IS(signals(&signaller, 4, &phase), PHASE_OK);
    IS(phase, 1);
    WRITES_NONE(PHASE_E_AHEAD, phase_shared_signal_for(&signaller, four, 1, PHASE_NO_SINGLE, 0, 0,
                                                       &phase, 5 * MILLISECOND));
    WRITES_NONE(PHASE_E_AHEAD, phase_shared_try_signal(&signaller, four, 1, PHASE_NO_SINGLE, 0, 0,
                                                       &phase));
    IS(phase_shared_wait_block_for(&waiter, values, 2, &phase, &count, 60000 * MILLISECOND),
       PHASE_OK);
    IS(phase, 0);
    IS(count, 2);
    IS(values[0] == 4 && values[1] == 4, 1);
    since = now();
    IS(phase_shared_wait_block_for(&waiter, values, 2, &phase, &count, 5 * MILLISECOND),
       PHASE_E_NOT_YET);
    IS(took(since, 5), 1);
    IS(phase_shared_leave(&signaller), PHASE_OK);
    IS(phase_shared_wait_block(&waiter, values, 2, &phase, &count), PHASE_ENDED);
    IS(phase_shared_leave(&waiter), PHASE_OK);
}

/* ---- Those that leave while others wait. */

static void *waits_for_end(void *of)
{
    struct task *task = of;
    GETS(&task->registration, 0, 3);
    WRITES_NONE(PHASE_ENDED, phase_shared_wait(&task->registration, &phase, &value));
    IS(phase_shared_leave(&task->registration), PHASE_OK);
    return NULL;
}

/* The last signaller leaves, and a waiter is told that no more will come. */
static void last_signaller_leaves(void)
{
    phase_registration founder = PHASE_REGISTRATION_INIT;
    struct task waiter = {.number = 1};
    uint64_t phase = 77;
    IS(phase_shared_new(PHASE_SUM, 2, 10, &founder), PHASE_OK);
    IS(phase_shared_register(&founder, PHASE_WAIT, &waiter.registration), PHASE_OK);
    starts(&waiter, waits_for_end);
    linger(20);
    IS(signals(&founder, 3, &phase), PHASE_OK);
    linger(20);
    IS(phase_shared_leave(&founder), PHASE_OK);
    ends(&waiter);
}

static void *waits_for_leave(void *of)
{
    struct task *task = of;
    uint64_t phase = 77;
    int64_t value = 77;
    IS(goes_next(&task->registration, 3, &phase, &value), PHASE_OK);
    IS(value, 3);
    IS(signals(&task->registration, 4, &phase), PHASE_OK);
    IS(phase, 1);
    GETS(&task->registration, 1, 4);
    return NULL;
}

/* One that has not signalled leaves, so that the phase is complete without it. */
static void slow_signaller_leaves(void)
{
    phase_registration founder = PHASE_REGISTRATION_INIT;
    struct task other = {.number = 1};
    IS(phase_shared_new(PHASE_SUM, 2, 10, &founder), PHASE_OK);
    IS(phase_shared_register(&founder, PHASE_SIG_WAIT, &other.registration), PHASE_OK);
    starts(&other, waits_for_leave);
    linger(20);
    IS(phase_shared_leave(&founder), PHASE_OK);
    ends(&other);
    IS(phase_shared_leave(&other.registration), PHASE_OK);
}

static void *signals_ten(void *of)
{
    struct task *task = of;
    for (uint64_t at = 0; at < 10; at++) {
        uint64_t phase = 77;
        IS(signals(&task->registration, 1, &phase), PHASE_OK);
        IS(phase, at);
    }
    return NULL;
}

/* A waiter that others are ahead of leaves, so that nobody holds them back. */
static void slow_waiter_leaves(void)
{
    phase_registration founder = PHASE_REGISTRATION_INIT, waiter = PHASE_REGISTRATION_INIT;
    struct task signaller = {.number = 1};
    IS(phase_shared_new(PHASE_SUM, 2, 10, &founder), PHASE_OK);
    IS(phase_shared_register(&founder, PHASE_WAIT, &waiter), PHASE_OK);
    IS(phase_shared_register(&founder, PHASE_SIG, &signaller.registration), PHASE_OK);
    IS(phase_shared_leave(&founder), PHASE_OK);
    starts(&signaller, signals_ten);
    linger(20);
    GETS(&waiter, 0, 1);
    linger(20);
    IS(phase_shared_leave(&waiter), PHASE_OK);
    ends(&signaller);
    WRITES_NONE(PHASE_E_SPENT, signals(&signaller.registration, 1, &phase));
    IS(phase_shared_leave(&signaller.registration), PHASE_OK);
}

/* ---- Refusals. */

static int32_t tries_next(phase_registration *it, uint32_t single, uint64_t *phase, int64_t *value)
{
    const int64_t one = 1;
    return phase_shared_next(it, &one, 1, single, 2, 1, phase, value);
}

/* Each call on a place with no registration. */
static void no_registration(phase_registration *none)
{
    phase_registration child = PHASE_REGISTRATION_INIT;
    phase_member_standing standing;
    uint64_t done = 77, base = 77;
    size_t count = 77;
    IS(phase_shared_register(none, PHASE_SIG, &child), PHASE_E_NO_PHASER);
    IS(child.member.live, false);
    WRITES_NONE(PHASE_E_NO_PHASER, phase_shared_register_now(none, &child, &phase));
    WRITES_NONE(PHASE_E_NO_PHASER, signals(none, 1, &phase));
    WRITES_NONE(PHASE_E_NO_PHASER, goes_next(none, 1, &phase, &value));
    WRITES_NONE(PHASE_E_NO_PHASER, phase_shared_wait(none, &phase, &value));
    WRITES_NONE(PHASE_E_NO_PHASER, phase_shared_wait_for(none, &phase, &value, 1));
    WRITES_NONE(PHASE_E_NO_PHASER, phase_shared_wait_block(none, &value, 1, &phase, &count));
    WRITES_NONE(PHASE_E_NO_PHASER,
                phase_shared_signal_block(none, &value, 1, PHASE_NO_SINGLE, 0, 0, &phase));
    IS(phase_shared_view(none, &standing), PHASE_E_NO_PHASER);
    IS(phase_shared_told(none, &done, &base), PHASE_E_NO_PHASER);
    IS(done == 77 && base == 77 && count == 77, 1);
    IS(phase_shared_leave(none), PHASE_E_NO_PHASER);
}

static void refused_makings(void)
{
    phase_registration founder = PHASE_REGISTRATION_INIT, child = PHASE_REGISTRATION_INIT;
    no_registration(&founder);
    IS(phase_shared_new(0, 2, 5, &founder), PHASE_E_BAD_OPERATION);
    IS(phase_shared_new(PHASE_ANY + 1, 2, 5, &founder), PHASE_E_BAD_OPERATION);
    IS(phase_shared_new(PHASE_SUM, 0, 5, &founder), PHASE_E_BAD_BOUND);
    IS(phase_shared_new(PHASE_SUM, PHASE_BOUND_MAX + 1, 5, &founder), PHASE_E_BAD_BOUND);
    IS(phase_shared_new(PHASE_SUM, 2, 0, &founder), PHASE_E_BAD_PHASES);
    IS(phase_shared_new(PHASE_SUM, 2, PHASE_PHASES_MAX + UINT64_C(1), &founder),
       PHASE_E_BAD_PHASES);
    IS(founder.member.live, false);
    IS(phase_shared_new(PHASE_SUM, 2, 5, &founder), PHASE_OK);
    IS(phase_shared_new(PHASE_SUM, 2, 5, &founder), PHASE_E_HAS_PHASER);
    IS(phase_shared_register(&founder, 0, &child), PHASE_E_BAD_MODE);
    IS(phase_shared_register(&founder, PHASE_SINGLE + 1, &child), PHASE_E_BAD_MODE);
    IS(child.member.live, false);
    IS(phase_shared_register(&founder, PHASE_SIG, &child), PHASE_OK);
    IS(phase_shared_register(&founder, PHASE_SIG, &child), PHASE_E_HAS_PHASER);
    IS(phase_shared_leave(&child), PHASE_OK);
    IS(phase_shared_leave(&founder), PHASE_OK);
    no_registration(&founder);
}

/* What each mode may not do, and what is sent wrongly. */
static void refused_calls(void)
{
    phase_registration founder = PHASE_REGISTRATION_INIT, signaller = PHASE_REGISTRATION_INIT;
    phase_registration waiter = PHASE_REGISTRATION_INIT, child = PHASE_REGISTRATION_INIT;
    const int64_t least = INT64_MIN, few[2] = {1, 2};
    uint64_t done = 77, base = 77;
    IS(phase_shared_new(PHASE_SUM, 2, 5, &founder), PHASE_OK);
    IS(phase_shared_register(&founder, PHASE_SIG, &signaller), PHASE_OK);
    IS(phase_shared_register(&founder, PHASE_WAIT, &waiter), PHASE_OK);
    IS(phase_shared_register(&signaller, PHASE_WAIT, &child), PHASE_E_NOT_ALLOWED);
    IS(phase_shared_register(&waiter, PHASE_SIG, &child), PHASE_E_NOT_ALLOWED);
    WRITES_NONE(PHASE_E_NOT_ALLOWED, phase_shared_register_now(&signaller, &child, &phase));
    IS(child.member.live, false);
    WRITES_NONE(PHASE_E_NO_WAIT, phase_shared_wait(&signaller, &phase, &value));
    WRITES_NONE(PHASE_E_NO_SIGNAL, signals(&waiter, 1, &phase));
    WRITES_NONE(PHASE_E_NO_SIGNAL, goes_next(&waiter, 1, &phase, &value));
    WRITES_NONE(PHASE_E_SIGNAL_FIRST, phase_shared_wait(&founder, &phase, &value));
    WRITES_NONE(PHASE_E_NOT_SINGLE, tries_next(&signaller, PHASE_NEG, &phase, &value));
    WRITES_NONE(PHASE_E_BAD_SINGLE, tries_next(&founder, PHASE_CLAMP, &phase, &value));
    WRITES_NONE(PHASE_E_BAD_SINGLE, tries_next(&founder, PHASE_CLAMP + 1, &phase, &value));
    WRITES_NONE(PHASE_E_BAD_VALUE, signals(&signaller, least, &phase));
    WRITES_NONE(PHASE_E_BAD_BLOCK, phase_shared_signal_block(&signaller, few, 0, PHASE_NO_SINGLE,
                                                             0, 0, &phase));
    WRITES_NONE(PHASE_E_BAD_BLOCK, phase_shared_wait_block(&waiter, &value, 0, &phase,
                                                           &(size_t){77}));
    uint64_t phase = 77;
    IS(phase_shared_signal(&founder, few, 2, PHASE_HALVE, 0, 0, &phase), PHASE_OK);
    WRITES_NONE(PHASE_E_SIGNAL_TWICE, signals(&founder, 1, &phase));
    WRITES_NONE(PHASE_E_SINGLE_DIFFERS, signals(&signaller, 1, &phase));
    IS(phase_shared_told(&founder, &done, &base), PHASE_OK);
    IS(done == 0 && base == 0, 1);
    IS(phase_shared_leave(&signaller), PHASE_OK);
    GETS(&founder, 0, 1);
    GETS(&waiter, 0, 1);
    IS(phase_shared_leave(&waiter), PHASE_OK);
    IS(phase_shared_leave(&founder), PHASE_OK);
}

/* Which refusal comes where several would be right: the first of those that the header lists. */
static void refusals_in_order(void)
{
    static int64_t many[PHASE_SENDS_MAX + 2] = {INT64_MIN};
    const size_t too_many = PHASE_SENDS_MAX + 1;
    phase_registration none = PHASE_REGISTRATION_INIT, founder = PHASE_REGISTRATION_INIT;
    phase_registration signaller = PHASE_REGISTRATION_INIT, waiter = PHASE_REGISTRATION_INIT;
    phase_registration child = PHASE_REGISTRATION_INIT;
    uint64_t phase = 77;
    size_t count = 77;
    IS(phase_shared_new(PHASE_SUM, 2, 3, &founder), PHASE_OK);
    IS(phase_shared_new(9, 0, 0, &founder), PHASE_E_HAS_PHASER);
    IS(phase_shared_new(9, 0, 0, &child), PHASE_E_BAD_OPERATION);
    IS(phase_shared_new(PHASE_SUM, 0, 0, &child), PHASE_E_BAD_BOUND);
    IS(phase_shared_register(&founder, PHASE_WAIT, &waiter), PHASE_OK);
    IS(phase_shared_register(&founder, PHASE_SIG, &signaller), PHASE_OK);
    IS(phase_shared_register(&none, 9, &waiter), PHASE_E_NO_PHASER);
    IS(phase_shared_register(&waiter, 9, &founder), PHASE_E_HAS_PHASER);
    IS(phase_shared_register(&waiter, 9, &child), PHASE_E_BAD_MODE);
    IS(phase_shared_register_now(&signaller, &waiter, &phase), PHASE_E_HAS_PHASER);
    IS(phase_shared_signal(&none, many, 1, 9, 0, 0, &phase), PHASE_E_NO_PHASER);
    IS(phase_shared_signal(&waiter, many, too_many, 9, 0, 0, &phase), PHASE_E_BAD_SINGLE);
    IS(phase_shared_signal(&waiter, many, too_many, PHASE_NEG, 0, 0, &phase),
       PHASE_E_TOO_MANY_SENDS);
    IS(phase_shared_signal(&waiter, many, 2, PHASE_NEG, 0, 0, &phase), PHASE_E_BAD_VALUE);
    IS(phase_shared_signal(&waiter, many + 1, 1, PHASE_NEG, 0, 0, &phase), PHASE_E_NO_SIGNAL);
    IS(phase_shared_signal_block(&waiter, many, 0, 9, 0, 0, &phase), PHASE_E_BAD_SINGLE);
    IS(phase_shared_signal_block(&waiter, many, 3, 0, 0, 0, &phase), PHASE_E_BAD_VALUE);
    IS(phase_shared_signal_block(&waiter, many, 0, PHASE_NEG, 0, 0, &phase), PHASE_E_NO_SIGNAL);
    IS(phase_shared_signal_block(&signaller, many, 0, PHASE_NEG, 0, 0, &phase),
       PHASE_E_NOT_SINGLE);
    IS(phase_shared_signal(&founder, NULL, 0, 0, 0, 0, &phase), PHASE_OK);
    IS(phase_shared_signal_block(&founder, many + 1, 3, 0, 0, 0, &phase), PHASE_E_BAD_BLOCK);
    IS(phase_shared_signal_block(&founder, many + 1, 2, 0, 0, 0, &phase), PHASE_E_SIGNAL_TWICE);
    IS(phase_shared_wait_block(&signaller, many, 0, &phase, &count), PHASE_E_NO_WAIT);
    IS(phase_shared_leave(&signaller), PHASE_OK);
    IS(phase_shared_wait(&founder, &phase, NULL), PHASE_OK);
    IS(phase_shared_wait_block(&founder, many, 0, &phase, &count), PHASE_E_BAD_BLOCK);
    IS(phase_shared_leave(&waiter), PHASE_OK);
    IS(phase_shared_leave(&founder), PHASE_OK);
}

/* What is not wanted is not written, and the short call of a barrier. */
static void unread(void)
{
    phase_registration founder = PHASE_REGISTRATION_INIT, signaller = PHASE_REGISTRATION_INIT;
    phase_registration waiter = PHASE_REGISTRATION_INIT, late = PHASE_REGISTRATION_INIT;
    const int64_t few[2] = {5, 6};
    int64_t sum = 77, values[2] = {77, 77};
    IS(phase_shared_new(PHASE_SUM, 4, 10, &founder), PHASE_OK);
    IS(phase_shared_meet(&founder, 3, &sum), PHASE_OK);
    IS(sum, 3);
    IS(phase_shared_meet(&founder, 4, NULL), PHASE_OK);
    IS(phase_shared_meet(&founder, INT64_MIN, &sum), PHASE_E_BAD_VALUE);
    IS(sum, 3);
    IS(phase_shared_register(&founder, PHASE_SIG, &signaller), PHASE_OK);
    IS(phase_shared_register(&founder, PHASE_WAIT, &waiter), PHASE_OK);
    IS(phase_shared_register_now(&founder, &late, NULL), PHASE_OK);
    IS(phase_shared_leave(&founder), PHASE_OK);
    IS(signals(&signaller, 1, NULL), PHASE_OK);
    IS(phase_shared_signal_block(&signaller, few, 2, PHASE_NO_SINGLE, 0, 0, NULL), PHASE_OK);
    IS(phase_shared_wait(&waiter, NULL, NULL), PHASE_OK);
    IS(phase_shared_wait_block(&waiter, values, 2, NULL, NULL), PHASE_OK);
    IS(values[0] == 5 && values[1] == 6, 1);
    IS(phase_shared_told(&waiter, NULL, NULL), PHASE_OK);
    GETS(&late, 2, 1);
    IS(phase_shared_leave(&signaller), PHASE_OK);
    IS(phase_shared_leave(&waiter), PHASE_OK);
    IS(phase_shared_leave(&late), PHASE_OK);
    for (int32_t status = -50; status < 10; status++)
        IS(strcmp(phase_shared_status_text(status), phase_status_text(status)), 0);
}

/* One that joins late, and what each stands at. */
static void joins_late(void)
{
    phase_registration founder = PHASE_REGISTRATION_INIT, late = PHASE_REGISTRATION_INIT;
    phase_member_standing standing;
    uint64_t phase = 77;
    int64_t value = 77;
    IS(phase_shared_new(PHASE_PRODUCT, 4, 10, &founder), PHASE_OK);
    for (int64_t at = 0; at < 3; at++)
        IS(goes_next(&founder, at + 2, &phase, &value), PHASE_OK);
    IS(value, 4);
    IS(signals(&founder, 5, &phase), PHASE_OK);
    IS(phase_shared_register_now(&founder, &late, &phase), PHASE_OK);
    IS(phase, 4);
    memset(&standing, 0x55, sizeof standing);
    IS(phase_shared_view(&late, &standing), PHASE_OK);
    IS(standing.number, 1);
    IS(standing.wait_phase, 4);
    IS(standing.mode, PHASE_WAIT);
    IS(standing.operation, PHASE_PRODUCT);
    GETS(&founder, 3, 5);
    IS(phase_shared_view(&founder, &standing), PHASE_OK);
    IS(standing.number, 0);
    IS(standing.signal_phase == 4 && standing.wait_phase == 4, 1);
    IS(standing.mode, PHASE_SINGLE);
    IS(goes_next(&founder, 6, &phase, &value), PHASE_OK);
    GETS(&late, 4, 6);
    IS(phase_shared_leave(&founder), PHASE_OK);
    WRITES_NONE(PHASE_ENDED, phase_shared_wait(&late, &phase, &value));
    IS(phase_shared_leave(&late), PHASE_OK);
}

/* What one that only signals is answered by next, and the tries of all calls. */
static void tries(void)
{
    phase_registration founder = PHASE_REGISTRATION_INIT, signaller = PHASE_REGISTRATION_INIT;
    phase_registration late = PHASE_REGISTRATION_INIT;
    const int64_t sends[2] = {4, 9};
    uint64_t phase = 77;
    int64_t value = 77, values[2] = {77, 77};
    size_t count = 77;
    IS(phase_shared_new(PHASE_LEAST, 2, 10, &founder), PHASE_OK);
    IS(phase_shared_try_register(&founder, PHASE_SIG, &signaller), PHASE_OK);
    IS(phase_shared_next(&signaller, sends, 2, PHASE_NO_SINGLE, 0, 0, &phase, &value),
       PHASE_SIGNALLED);
    IS(value, 77);
    IS(phase_shared_try_next(&founder, sends, 2, PHASE_NO_SINGLE, 0, 0, &phase, &value), PHASE_OK);
    IS(phase == 0 && value == 4, 1);
    IS(phase_shared_try_next(&founder, sends, 2, PHASE_NO_SINGLE, 0, 0, &phase, &value),
       PHASE_SIGNALLED);
    IS(phase_shared_try_signal_block(&signaller, sends, 2, PHASE_NO_SINGLE, 0, 0, &phase),
       PHASE_OK);
    IS(phase, 1);
    IS(phase_shared_try_wait_block(&founder, values, 2, &phase, &count), PHASE_OK);
    IS(phase == 1 && count == 1 && values[0] == 4 && values[1] == 77, 1);
    IS(phase_shared_try_register_now(&founder, &late, &phase), PHASE_OK);
    IS(phase, 2);
    IS(phase_shared_try_leave(&founder), PHASE_OK);
    IS(phase_shared_try_leave(&signaller), PHASE_OK);
    GETS(&late, 2, 9);
    IS(phase_shared_try_leave(&late), PHASE_OK);
    IS(phase_shared_try_leave(&late), PHASE_E_NO_PHASER);
}

int main(void)
{
    refused_makings();
    refused_calls();
    refusals_in_order();
    unread();
    joins_late();
    tries();
    for (uint64_t bound = 1; bound <= 2; bound++) {
        barrier(2, bound, 1000);
        barrier(4, bound, 500);
        barrier(16, bound, 100);
    }
    stream();
    blocks();
    time_limits(signals_late);
    time_limits(tries_late);
    time_limits_of_signals();
    last_signaller_leaves();
    slow_signaller_leaves();
    slow_waiter_leaves();
    printf("shared: %d passed, %d failed\n", passed, failed);
    return failed != 0 || passed == 0;
}
