/* phase_wait.c: how the calls of phase_shared.h wait.
 *
 * Nothing here is proved, and no answer rests on it: a call that was tried too early is answered
 * so by the library, and tried again. A fault here costs time alone. Also how an older processor is
 * told, before the first call.
 *
 * A pause looks at how far the phaser is, then yields, then sleeps for at most SLEEP nanoseconds at
 * a gate, which the registrations of a phaser share. Whoever finds sleepers there after a call of
 * its own wakes them, if the phaser went on. Sleeping is by futex, or, without Linux or with
 * PHASE_PORTABLE, by a mutex and a condition variable. */
#define _GNU_SOURCE
#define PHASE_WAIT_ITSELF
#include "phase_shared.h"
#include <sched.h>
#include <stdatomic.h>
#include <stdlib.h>
#include <time.h>
#include <unistd.h>
#if !defined(__linux__) && !defined(PHASE_PORTABLE)
#define PHASE_PORTABLE
#endif
#ifdef PHASE_PORTABLE
#include <pthread.h>
#else
#include <linux/futex.h>
#include <sys/syscall.h>
#endif

/* ---- The processor. */

#ifdef __x86_64__
/* On an older processor than the library is made for a call would end by a signal: so it is told
 * before there is one, and the process ends with status 1. */
__attribute__((constructor)) static void look_at_processor(void)
{
    static const char told[] =
        "phase: this processor is older than x86-64-v2, for which libphase is made\n";
    __builtin_cpu_init();
    if (__builtin_cpu_supports("sse4.2") && __builtin_cpu_supports("popcnt"))
        return;
    ssize_t written = write(STDERR_FILENO, told, sizeof told - 1);
    _exit(written < 0 ? 2 : 1);
}
#endif

/* How often a pause looks while it spins, and how often it then yields. */
enum { LOOKS = 15, YIELDS = 60 };

/* A yield of more than so many nanoseconds went to others that want the processor. The next so many
 * pauses look more often in place of yields, since a thread that slept gets it back sooner. */
enum { YIELD_MAX = 200000, CROWDED_PAUSES = 200, CROWDED_LOOKS = 100 };

/* How often a registration that asks looks for its answer, at most, before it takes the turn. One
 * that hardly looks, since answers did not come so soon, looks more again from one phase in so many
 * on; and behind its turn it looks so often. */
enum { SOON = 40, SELDOM = 8, PROBE = 128, FEW = 4 };

/* After a try whose turn was another's: how often a pause spins, each time twice as long, before it
 * yields, and how many nanoseconds it then sleeps. */
enum { SPINS = 6, SNOOZE = 50000 };

/* How long a pause sleeps at most, in nanoseconds: what a wake that is lost costs. */
#ifndef PHASE_SLEEP
#define PHASE_SLEEP 10000000
#endif

static const uint64_t SECOND = 1000000000;

/* The nanoseconds of a call that tries until it is done. */
static const uint64_t FOR_EVER = PHASE_FOR_EVER;

/* Where threads sleep until a number of the phaser is higher. */
struct bell {
    _Atomic uint64_t reached; /* the number, as far as somebody woke for it */
    _Atomic uint32_t rings;
    _Atomic uint32_t sleepers;
#ifdef PHASE_PORTABLE
    pthread_mutex_t lock;
    pthread_cond_t rung;
#endif
};

/* What the registrations of a phaser share: how many they are, whether one of them closed it, and
 * the bells of its two numbers. The bells, at which every call looks, stand apart from what is
 * often written. */
struct phase_gate {
    _Atomic uint64_t owners;
    _Atomic uint64_t closed; /* whether the phaser was closed */
    char apart[112];
    struct bell done;
    struct bell base;
    char behind[128];
};

/* ---- Sleeping and waking. */

#ifdef PHASE_PORTABLE

static bool bell_init(struct bell *bell)
{
    pthread_condattr_t attributes;
    if (pthread_mutex_init(&bell->lock, NULL) != 0)
        return false;
    bool is_made = pthread_condattr_init(&attributes) == 0;
    if (is_made) {
        is_made = pthread_condattr_setclock(&attributes, CLOCK_MONOTONIC) == 0
                  && pthread_cond_init(&bell->rung, &attributes) == 0;
        pthread_condattr_destroy(&attributes);
    }
    if (!is_made)
        pthread_mutex_destroy(&bell->lock);
    return is_made;
}

static void bell_free(struct bell *bell)
{
    pthread_cond_destroy(&bell->rung);
    pthread_mutex_destroy(&bell->lock);
}

static void wake_all(struct bell *bell)
{
    pthread_mutex_lock(&bell->lock);
    pthread_cond_broadcast(&bell->rung);
    pthread_mutex_unlock(&bell->lock);
}

/* Sleeps for at most so long, unless the bell has rung since. */
static void sleep_at(struct bell *bell, uint32_t rings, uint64_t nanoseconds)
{
    struct timespec until;
    clock_gettime(CLOCK_MONOTONIC, &until);
    nanoseconds += (uint64_t)until.tv_nsec;
    until.tv_sec += (time_t)(nanoseconds / SECOND);
    until.tv_nsec = (long)(nanoseconds % SECOND);
    pthread_mutex_lock(&bell->lock);
    if (atomic_load(&bell->rings) == rings)
        pthread_cond_timedwait(&bell->rung, &bell->lock, &until);
    pthread_mutex_unlock(&bell->lock);
}

#else

static bool bell_init(struct bell *bell)
{
    (void)bell;
    return true;
}

static void bell_free(struct bell *bell)
{
    (void)bell;
}

static void wake_all(struct bell *bell)
{
    syscall(SYS_futex, &bell->rings, FUTEX_WAKE_PRIVATE, INT32_MAX, NULL, NULL, 0);
}

/* Sleeps for at most so long, unless the bell has rung since. */
static void sleep_at(struct bell *bell, uint32_t rings, uint64_t nanoseconds)
{
    struct timespec most = {(time_t)(nanoseconds / SECOND), (long)(nanoseconds % SECOND)};
    syscall(SYS_futex, &bell->rings, FUTEX_WAIT_PRIVATE, rings, &most, NULL, 0);
}

#endif

static void ring(struct bell *bell)
{
    atomic_fetch_add(&bell->rings, 1);
    if (atomic_load(&bell->sleepers) != 0)
        wake_all(bell);
}

/* Rings where the number is higher than anybody has rung for. */
static void ring_at(struct bell *bell, uint64_t number)
{
    uint64_t reached = atomic_load(&bell->reached);
    while (reached < number)
        if (atomic_compare_exchange_weak(&bell->reached, &reached, number)) {
            ring(bell);
            return;
        }
}

/* ---- The gate of a phaser. */

static struct phase_gate *gate_new(void)
{
    struct phase_gate *gate = malloc(sizeof *gate);
    if (gate == NULL)
        return NULL;
    *gate = (struct phase_gate){.owners = 1};
    if (!bell_init(&gate->done)) {
        free(gate);
        return NULL;
    }
    if (!bell_init(&gate->base)) {
        bell_free(&gate->done);
        free(gate);
        return NULL;
    }
    return gate;
}

/* Gives back what an owner has of a gate. */
static void gate_leave(struct phase_gate *gate)
{
    if (atomic_fetch_sub(&gate->owners, 1) != 1)
        return;
    bell_free(&gate->done);
    bell_free(&gate->base);
    free(gate);
}

/* Wakes those that sleep for what the phaser has reached. A sleeper tells of itself before it looks
 * a last time, so it is seen here, or sees what was reached. */
static void tell(phase_registration *registration)
{
    struct phase_gate *gate = registration->gate;
    if (atomic_load(&gate->done.sleepers) == 0 && atomic_load(&gate->base.sleepers) == 0)
        return;
    uint64_t done = 0, base = 0;
    phase_member_told(&registration->member, &done, &base);
    ring_at(&gate->done, done);
    ring_at(&gate->base, base);
}

/* ---- How long a call goes on. */

/* What is left of a call's time. The clock is first read when the call has to yield. */
struct patience {
    uint64_t nanoseconds;
    uint64_t deadline; /* on the clock, once it was read */
    bool is_timed;     /* whether it was */
    bool is_last;      /* whether it tries a last time, since the phaser is closed */
    uint32_t turns;    /* how often the turn was another's */
    const struct phase_gate *heeds; /* that of a phaser at whose close the time is over, or none */
};

/* The time of a call, and of one that ends where the phaser is closed. */
static struct patience within(uint64_t nanoseconds)
{
    return (struct patience){.nanoseconds = nanoseconds};
}

static struct patience heeding(const phase_registration *registration, uint64_t nanoseconds)
{
    return (struct patience){.nanoseconds = nanoseconds, .heeds = registration->gate};
}

static uint64_t now(void)
{
    struct timespec time;
    clock_gettime(CLOCK_MONOTONIC, &time);
    return (uint64_t)time.tv_sec * SECOND + (uint64_t)time.tv_nsec;
}

/* Whether the time is over since the phaser is closed. */
static bool is_closed(const struct patience *patience)
{
    return patience->heeds != NULL && atomic_load(&patience->heeds->closed) != 0;
}

/* How many nanoseconds are left. A last try has the time to get its turn. */
static uint64_t left(struct patience *patience)
{
    if (is_closed(patience))
        return patience->is_last ? FOR_EVER : 0;
    if (patience->nanoseconds == FOR_EVER || patience->nanoseconds == 0)
        return patience->nanoseconds;
    uint64_t time = now();
    if (!patience->is_timed) {
        patience->is_timed = true;
        patience->deadline = time + patience->nanoseconds;
        if (patience->deadline < time)
            patience->deadline = UINT64_MAX;
    }
    return patience->deadline > time ? patience->deadline - time : 0;
}

static void relax(void)
{
#if defined(__x86_64__) || defined(__i386__)
    __builtin_ia32_pause();
#endif
}

/* Yields, and notes whether others want the processor. */
static void yield(phase_registration *registration)
{
    uint64_t before = now();
    sched_yield();
    if (now() - before > YIELD_MAX)
        registration->crowded = CROWDED_PAUSES;
}

/* Pauses after a try whose turn was another's, longer each time, and answers whether time is left.
 * It sleeps in the end, so that one that has the turn goes on where it gets no processor beside
 * those that yield. The clock is read when it no longer spins. */
static bool snooze(phase_registration *registration, struct patience *patience)
{
    const struct timespec time = {0, SNOOZE};
    if (patience->turns <= SPINS) {
        for (uint32_t spins = 1u << patience->turns; spins > 0; spins--)
            relax();
        patience->turns++;
        return true;
    }
    if (left(patience) == 0)
        return false;
    if (patience->turns <= SPINS + YIELDS && registration->crowded == 0) {
        yield(registration);
        patience->turns++;
    } else {
        nanosleep(&time, NULL);
    }
    return true;
}

/* ---- Pauses. */

/* What a registration pauses for: a bell, and the least number that it wants there. */
struct aim {
    phase_registration *registration;
    struct bell *bell;
    uint64_t least;
};

static bool is_reached(const struct aim *aim)
{
    uint64_t done = 0, base = 0;
    phase_member_told(&aim->registration->member, &done, &base);
    return (aim->bell == &aim->registration->gate->done ? done : base) >= aim->least;
}

/* Whether the number is reached, or no time is left, after some looks and then some yields. */
static bool is_over_soon(const struct aim *aim, struct patience *patience)
{
    uint64_t *crowded = &aim->registration->crowded;
    for (int looks = *crowded > 0 ? CROWDED_LOOKS : LOOKS; looks > 0; looks--) {
        if (is_reached(aim))
            return true;
        relax();
    }
    *crowded -= *crowded > 0;
    for (int looks = YIELDS; looks > 0 && *crowded == 0; looks--) {
        if (is_reached(aim) || left(patience) == 0)
            return true;
        yield(aim->registration);
    }
    return false;
}

/* Sleeps until the number is reached, or no time is left, or for some time. */
static void sleep_for(const struct aim *aim, struct patience *patience)
{
    atomic_fetch_add(&aim->bell->sleepers, 1);
    uint32_t rings = atomic_load(&aim->bell->rings);
    uint64_t most = left(patience);
    if (most > 0 && !is_reached(aim))
        sleep_at(aim->bell, rings, most < PHASE_SLEEP ? most : PHASE_SLEEP);
    atomic_fetch_sub(&aim->bell->sleepers, 1);
}

/* Returns when the number is reached, or no time is left, or some time later. */
static void pause_for(const struct aim *aim, struct patience *patience)
{
    if (!is_over_soon(aim, patience))
        sleep_for(aim, patience);
}

/* Whether a call that came too early, and has no time left, is tried a last time, which is so where
 * the phaser is closed: it gets what was there before. The answer of that try is that the phaser is
 * closed. */
static bool tries_last(int32_t *status, struct patience *patience)
{
    if (!is_closed(patience))
        return false;
    if (patience->is_last) {
        *status = PHASE_E_CLOSED;
        return false;
    }
    patience->is_last = true;
    return true;
}

/* Whether a signal of so many phases that came too early is tried again; it pauses first. Where the
 * turn was another's until no time was left, the answer is that it is ahead. */
static bool pauses_for_room(phase_registration *registration, uint64_t count, int32_t *status,
                            struct patience *patience)
{
    if (*status == PHASE_E_BUSY) {
        if (snooze(registration, patience))
            return true;
        *status = PHASE_E_AHEAD;
        return tries_last(status, patience);
    }
    if (patience->is_last || left(patience) == 0)
        return tries_last(status, patience);
    uint64_t next = registration->signal_phase + count, bound = registration->bound;
    struct aim room = {registration, &registration->gate->base, next > bound ? next - bound : 0};
    pause_for(&room, patience);
    return true;
}

/* Whether a signal that was answered so is tried again. */
static inline bool signals_again(phase_registration *registration, uint64_t count,
                                 int32_t *status, struct patience *patience)
{
    return (*status == PHASE_E_BUSY || *status == PHASE_E_AHEAD)
           && pauses_for_room(registration, count, status, patience);
}

/* Pauses before a wait for so many phases that would be too early. One that would be refused for
 * another reason does not pause, nor does a last try. */
static void pause_for_phase(phase_registration *registration, uint64_t count,
                            struct patience *patience)
{
    bool waits = registration->mode == PHASE_WAIT
                 || (registration->mode != PHASE_SIG
                     && registration->signal_phase > registration->wait_phase);
    if (registration->gate == NULL || !waits || count == 0 || count > registration->bound
        || patience->is_last)
        return;
    struct aim phase = {registration, &registration->gate->done, registration->wait_phase + 1};
    pause_for(&phase, patience);
}

/* Whether a wait that came too early is tried again. Where the turn was another's until no time was
 * left, the answer is that the phase is not complete yet. */
static bool has_time_to_wait(phase_registration *registration, int32_t *status,
                             struct patience *patience)
{
    if (*status == PHASE_E_BUSY) {
        if (snooze(registration, patience))
            return true;
        *status = PHASE_E_NOT_YET;
        return tries_last(status, patience);
    }
    return (!patience->is_last && left(patience) != 0) || tries_last(status, patience);
}

/* Whether a wait that was answered so is tried again. */
static inline bool waits_again(phase_registration *registration, int32_t *status,
                               struct patience *patience)
{
    return (*status == PHASE_E_BUSY || *status == PHASE_E_NOT_YET)
           && has_time_to_wait(registration, status, patience);
}

/* ---- An ask that stands. */

/* Whether a registration rests, asks behind a call whose time was over, or has asked, and a wait
 * has still to get what came of it. */
enum { RESTS, ASKS, HAS_ANSWER };

/* Notes what came of a next phase, and wakes who sleeps for it. */
static void go_on(phase_registration *registration, int32_t status, uint64_t phase)
{
    if (status < 0)
        return;
    registration->signal_phase = phase + 1;
    if (status == PHASE_OK)
        registration->wait_phase = phase + 1;
    tell(registration);
}

/* Ends the ask of a registration, where one stands, and keeps what came of it for a wait. The
 * answer is PHASE_E_BUSY where the turn was another's: then it stands. */
static int32_t end_ask(phase_registration *registration)
{
    uint64_t phase = 0;
    if (registration->asks != ASKS)
        return PHASE_OK;
    int32_t status = phase_member_take_back(&registration->member, &phase, &registration->kept);
    if (status == PHASE_E_BUSY)
        return status;
    registration->asks = status == PHASE_SIGNALLED ? RESTS : HAS_ANSWER;
    registration->outcome = status;
    go_on(registration, status, phase);
    return PHASE_OK;
}

/* Gets what came of it. */
static int32_t get_answer(phase_registration *registration, uint64_t *phase, int64_t *value)
{
    registration->asks = RESTS;
    if (registration->outcome == PHASE_OK) {
        *phase = registration->wait_phase - 1;
        *value = registration->kept;
    }
    return registration->outcome;
}

/* ---- Registering and leaving. */

int32_t phase_shared_new(uint32_t operation, uint64_t bound, uint64_t phases,
                         phase_registration *founder)
{
    struct phase_gate *gate = gate_new();
    int32_t status = phase_member_new(operation, bound, phases, &founder->member);
    if (status == PHASE_OK && gate == NULL) {
        /* It is the only one, so that nobody is in the middle of a call. */
        phase_member_leave(&founder->member);
        status = PHASE_E_MEMORY;
    }
    if (status != PHASE_OK) {
        if (gate != NULL)
            gate_leave(gate);
        return status;
    }
    founder->gate = gate;
    founder->bound = bound;
    founder->signal_phase = 0;
    founder->wait_phase = 0;
    founder->mode = PHASE_SINGLE;
    founder->soon = SOON;
    founder->crowded = 0;
    founder->answers = 0;
    founder->asks = RESTS;
    return PHASE_OK;
}

/* Fills a child that the library has registered. */
static void fill(phase_registration *parent, uint32_t mode, phase_registration *child)
{
    atomic_fetch_add(&parent->gate->owners, 1);
    child->gate = parent->gate;
    child->bound = parent->bound;
    child->signal_phase = parent->signal_phase;
    child->wait_phase = parent->wait_phase;
    child->mode = mode;
    child->soon = SOON;
    child->crowded = 0;
    child->answers = 0;
    child->asks = RESTS;
}

int32_t phase_shared_try_register(phase_registration *parent, uint32_t mode,
                                  phase_registration *child)
{
    int32_t status = end_ask(parent);
    if (status == PHASE_OK)
        status = phase_member_register(&parent->member, mode, &child->member);
    if (status == PHASE_OK)
        fill(parent, mode, child);
    return status;
}

int32_t phase_shared_register(phase_registration *parent, uint32_t mode,
                              phase_registration *child)
{
    struct patience patience = within(FOR_EVER);
    int32_t status;
    while ((status = phase_shared_try_register(parent, mode, child)) == PHASE_E_BUSY)
        snooze(parent, &patience);
    return status;
}

int32_t phase_shared_try_register_now(phase_registration *parent, phase_registration *child,
                                      uint64_t *phase)
{
    uint64_t unread;
    if (phase == NULL)
        phase = &unread;
    int32_t status = end_ask(parent);
    if (status == PHASE_OK)
        status = phase_member_register_now(&parent->member, &child->member, phase);
    if (status == PHASE_OK) {
        fill(parent, PHASE_WAIT, child);
        child->signal_phase = *phase;
        child->wait_phase = *phase;
    }
    return status;
}

int32_t phase_shared_register_now(phase_registration *parent, phase_registration *child,
                                  uint64_t *phase)
{
    struct patience patience = within(FOR_EVER);
    int32_t status;
    while ((status = phase_shared_try_register_now(parent, child, phase)) == PHASE_E_BUSY)
        snooze(parent, &patience);
    return status;
}

int32_t phase_shared_try_leave(phase_registration *registration)
{
    int32_t status = end_ask(registration);
    if (status == PHASE_OK)
        status = phase_member_leave(&registration->member);
    if (status != PHASE_OK)
        return status;
    struct phase_gate *gate = registration->gate;
    registration->gate = NULL;
    registration->asks = RESTS;
    ring(&gate->done);
    ring(&gate->base);
    gate_leave(gate);
    return PHASE_OK;
}

int32_t phase_shared_leave(phase_registration *registration)
{
    struct patience patience = within(FOR_EVER);
    int32_t status;
    while ((status = phase_shared_try_leave(registration)) == PHASE_E_BUSY)
        snooze(registration, &patience);
    return status;
}

/* ---- Signals. */

int32_t phase_shared_try_signal(phase_registration *registration,
                                const int64_t *values, size_t values_len,
                                uint32_t single, int64_t low, int64_t high, uint64_t *phase)
{
    uint64_t unread;
    if (phase == NULL)
        phase = &unread;
    if (registration->asks != RESTS)
        return PHASE_E_SIGNAL_TWICE;
    int32_t status = phase_member_signal(&registration->member, values, values_len, single, low,
                                         high, phase);
    if (status == PHASE_OK) {
        registration->signal_phase = *phase + 1;
        tell(registration);
    }
    return status;
}

static int32_t signal_with(phase_registration *registration, const int64_t *values,
                           size_t values_len, uint32_t single, int64_t low, int64_t high,
                           uint64_t *phase, struct patience patience)
{
    int32_t status;
    do
        status = phase_shared_try_signal(registration, values, values_len, single, low, high,
                                         phase);
    while (signals_again(registration, 1, &status, &patience));
    return status;
}

int32_t phase_shared_signal_for(phase_registration *registration,
                                const int64_t *values, size_t values_len,
                                uint32_t single, int64_t low, int64_t high, uint64_t *phase,
                                uint64_t nanoseconds)
{
    return signal_with(registration, values, values_len, single, low, high, phase,
                       within(nanoseconds));
}

int32_t phase_shared_signal(phase_registration *registration,
                            const int64_t *values, size_t values_len,
                            uint32_t single, int64_t low, int64_t high, uint64_t *phase)
{
    return phase_shared_signal_for(registration, values, values_len, single, low, high, phase,
                                   FOR_EVER);
}

int32_t phase_shared_try_signal_block(phase_registration *registration,
                                      const int64_t *values, size_t values_len,
                                      uint32_t single, int64_t low, int64_t high,
                                      uint64_t *phase)
{
    uint64_t unread;
    if (phase == NULL)
        phase = &unread;
    if (registration->asks != RESTS)
        return PHASE_E_SIGNAL_TWICE;
    int32_t status = phase_member_signal_block(&registration->member, values, values_len, single,
                                               low, high, phase);
    if (status == PHASE_OK) {
        registration->signal_phase = *phase + values_len;
        tell(registration);
    }
    return status;
}

static int32_t signal_block_with(phase_registration *registration, const int64_t *values,
                                 size_t values_len, uint32_t single, int64_t low, int64_t high,
                                 uint64_t *phase, struct patience patience)
{
    int32_t status;
    do
        status = phase_shared_try_signal_block(registration, values, values_len, single, low,
                                               high, phase);
    while (signals_again(registration, values_len, &status, &patience));
    return status;
}

int32_t phase_shared_signal_block_for(phase_registration *registration,
                                      const int64_t *values, size_t values_len,
                                      uint32_t single, int64_t low, int64_t high,
                                      uint64_t *phase, uint64_t nanoseconds)
{
    return signal_block_with(registration, values, values_len, single, low, high, phase,
                             within(nanoseconds));
}

int32_t phase_shared_signal_block(phase_registration *registration,
                                  const int64_t *values, size_t values_len,
                                  uint32_t single, int64_t low, int64_t high, uint64_t *phase)
{
    return phase_shared_signal_block_for(registration, values, values_len, single, low, high,
                                         phase, FOR_EVER);
}

/* ---- Waits. */

int32_t phase_shared_try_wait(phase_registration *registration, uint64_t *phase, int64_t *value)
{
    uint64_t unread;
    int64_t unused;
    if (phase == NULL)
        phase = &unread;
    if (value == NULL)
        value = &unused;
    int32_t status = end_ask(registration);
    if (status != PHASE_OK)
        return status;
    if (registration->asks == HAS_ANSWER)
        return get_answer(registration, phase, value);
    status = phase_member_wait(&registration->member, phase, value);
    if (status == PHASE_OK) {
        registration->wait_phase = *phase + 1;
        tell(registration);
    }
    return status;
}

static int32_t wait_with(phase_registration *registration, uint64_t *phase, int64_t *value,
                         struct patience patience)
{
    int32_t status;
    do {
        pause_for_phase(registration, 1, &patience);
        status = phase_shared_try_wait(registration, phase, value);
    } while (waits_again(registration, &status, &patience));
    return status;
}

int32_t phase_shared_wait_for(phase_registration *registration, uint64_t *phase, int64_t *value,
                              uint64_t nanoseconds)
{
    return wait_with(registration, phase, value, within(nanoseconds));
}

int32_t phase_shared_wait(phase_registration *registration, uint64_t *phase, int64_t *value)
{
    return phase_shared_wait_for(registration, phase, value, FOR_EVER);
}

int32_t phase_shared_try_wait_block(phase_registration *registration, int64_t *values,
                                    size_t values_len, uint64_t *phase, size_t *count)
{
    uint64_t unread;
    size_t uncounted;
    if (phase == NULL)
        phase = &unread;
    if (count == NULL)
        count = &uncounted;
    int32_t status = end_ask(registration);
    if (status != PHASE_OK)
        return status;
    if (registration->asks == HAS_ANSWER && values_len > 0 && values_len <= registration->bound) {
        status = get_answer(registration, phase, values);
        if (status == PHASE_OK)
            *count = 1;
        return status;
    }
    status = phase_member_wait_block(&registration->member, values, values_len, phase, count);
    if (status == PHASE_OK) {
        registration->wait_phase = *phase + *count;
        tell(registration);
    }
    return status;
}

static int32_t wait_block_with(phase_registration *registration, int64_t *values,
                               size_t values_len, uint64_t *phase, size_t *count,
                               struct patience patience)
{
    int32_t status;
    do {
        pause_for_phase(registration, values_len, &patience);
        status = phase_shared_try_wait_block(registration, values, values_len, phase, count);
    } while (waits_again(registration, &status, &patience));
    return status;
}

int32_t phase_shared_wait_block_for(phase_registration *registration, int64_t *values,
                                    size_t values_len, uint64_t *phase, size_t *count,
                                    uint64_t nanoseconds)
{
    return wait_block_with(registration, values, values_len, phase, count, within(nanoseconds));
}

int32_t phase_shared_wait_block(phase_registration *registration, int64_t *values,
                                size_t values_len, uint64_t *phase, size_t *count)
{
    return phase_shared_wait_block_for(registration, values, values_len, phase, count, FOR_EVER);
}

/* ---- Asking. */

/* A registration that asks for its next phase, and where its answer goes. */
struct asker {
    phase_registration *registration;
    uint64_t *phase;
    int64_t *value;
    bool is_made; /* whether its signal is known to be made */
};

/* Looks for the answer, and counts it: where it is there another's turn has made it. */
static int32_t look(struct asker *asker)
{
    int32_t status = phase_member_look(&asker->registration->member, asker->phase, asker->value);
    asker->registration->answers += status == PHASE_OK;
    return status;
}

/* Looks for it once, and so often more. */
static int32_t look_for(struct asker *asker, uint32_t times)
{
    int32_t status;
    while ((status = look(asker)) == PHASE_ASKED && times-- > 0)
        relax();
    return status;
}

/* Takes the turn, where it is free, and serves others for so many looks. */
static int32_t serve(struct asker *asker, uint32_t looks)
{
    int32_t status = phase_member_serve(&asker->registration->member, looks, asker->phase,
                                        asker->value);
    if (status == PHASE_ASKED)
        asker->is_made = true;
    return status == PHASE_E_BUSY ? PHASE_ASKED : status;
}

/* What it asks for, for those that sleep. */
static struct aim aim_of(const struct asker *asker)
{
    phase_registration *registration = asker->registration;
    return (struct aim){registration, &registration->gate->done, registration->signal_phase + 1};
}

/* Whether it is time to take the turn: its phase is complete, or its signal may be a post alone. */
static bool is_time(const struct asker *asker, int round)
{
    struct aim aim = aim_of(asker);
    return (!asker->is_made && round % 4 == 0) || is_reached(&aim);
}

/* Looks for the answer, and takes the turn where it is time, while it yields. */
static int32_t yield_for(struct asker *asker, struct patience *patience)
{
    int rounds = asker->registration->crowded > 0 ? 1 : YIELDS;
    int32_t status = look(asker);
    for (int round = 0; round < rounds && status == PHASE_ASKED; round++) {
        if (is_time(asker, round))
            status = serve(asker, 0);
        if (status != PHASE_ASKED || left(patience) == 0)
            return status;
        yield(asker->registration);
        status = look(asker);
    }
    return status;
}

/* Waits for the answer until no time is left. It sleeps only where its signal is made: as a post
 * alone it may be left to nobody. */
static int32_t wait_longer(struct asker *asker, struct patience *patience)
{
    uint64_t *crowded = &asker->registration->crowded;
    int32_t status;
    while ((status = yield_for(asker, patience)) == PHASE_ASKED && left(patience) != 0) {
        struct aim aim = aim_of(asker);
        *crowded -= *crowded > 0;
        if (asker->is_made && !is_reached(&aim))
            sleep_for(&aim, patience);
    }
    return status;
}

/* Waits for the answer: takes the turn, where it is free, looks, and then yields and sleeps. It
 * learns how soon answers come. */
static int32_t wait_for_answer(struct asker *asker, struct patience *patience)
{
    uint32_t *soon = &asker->registration->soon;
    if (*soon < SELDOM && asker->registration->signal_phase % PROBE == 0)
        *soon = SOON;
    uint32_t looks = *soon + *soon / 2;
    int32_t status = serve(asker, looks);
    if (status == PHASE_ASKED)
        status = look_for(asker, looks + (*soon < SELDOM ? FEW : LOOKS));
    if (status == PHASE_ASKED) {
        *soon = 0;
        return wait_longer(asker, patience);
    }
    *soon = *soon < SOON / 2 ? *soon * 2 + 2 : SOON;
    return status;
}

/* Takes back what was asked for, where the turn can be had in time, also where the phaser is
 * closed. Else the ask stands. */
static int32_t take_back(struct asker *asker, const struct patience *patience)
{
    phase_registration *registration = asker->registration;
    struct patience rest = {.nanoseconds = patience->nanoseconds, .deadline = patience->deadline,
                            .is_timed = patience->is_timed};
    int32_t status;
    while ((status = phase_member_take_back(&registration->member, asker->phase, asker->value))
           == PHASE_E_BUSY)
        if (!snooze(registration, &rest)) {
            registration->asks = ASKS;
            *asker->phase = registration->signal_phase;
            return asker->is_made ? PHASE_SIGNALLED : PHASE_ASKED;
        }
    go_on(registration, status, *asker->phase);
    return status;
}

/* How many processors there are. */
static uint64_t processors(void)
{
    static _Atomic long known;
    long many = atomic_load_explicit(&known, memory_order_relaxed);
    if (many == 0) {
        many = sysconf(_SC_NPROCESSORS_ONLN);
        many = many < 1 ? 1 : many;
        atomic_store_explicit(&known, many, memory_order_relaxed);
    }
    return (uint64_t)many;
}

/* Whether to ask: where others are there, and no more than can run at once. Else the tries are
 * quicker. */
static inline bool has_whom_to_ask(const phase_registration *registration)
{
    uint64_t owners = registration->gate == NULL ? 1 : atomic_load(&registration->gate->owners);
    return owners != 1 && owners <= processors();
}

/* Whether a next goes by an ask: one that waits, and sends one value or none, with no single. */
static inline bool is_to_ask(const phase_registration *registration, size_t values_len,
                             uint32_t single, const struct patience *patience)
{
    return single == PHASE_NO_SINGLE && values_len <= 1 && patience->nanoseconds != 0
           && !patience->is_last && has_whom_to_ask(registration);
}

/* Goes to the next phase by an ask, where the registration can ask. Where no time is left, it asks
 * no more, or else the ask stands. */
static int32_t next_by_ask(phase_registration *registration, const int64_t *values,
                           size_t values_len, uint64_t *phase, int64_t *value,
                           struct patience *patience)
{
    int32_t status = phase_member_ask(&registration->member, values, values_len);
    if (status != PHASE_ASKED)
        return status;
    struct asker asker = {registration, phase, value, false};
    status = wait_for_answer(&asker, patience);
    if (status == PHASE_ASKED)
        return take_back(&asker, patience);
    go_on(registration, status, *phase);
    return status;
}

/* Signals, and then waits, as long as there is time. */
static int32_t next_with(phase_registration *registration, const int64_t *values,
                         size_t values_len, uint32_t single, int64_t low, int64_t high,
                         uint64_t *phase, int64_t *value, struct patience patience)
{
    uint64_t unread;
    int64_t unused;
    if (phase == NULL)
        phase = &unread;
    if (value == NULL)
        value = &unused;
    if (registration->asks != RESTS)
        return PHASE_E_SIGNAL_TWICE;
    int32_t status;
    do {
        status = PHASE_E_CANNOT_ASK;
        if (is_to_ask(registration, values_len, single, &patience))
            status = next_by_ask(registration, values, values_len, phase, value, &patience);
        if (status == PHASE_E_CANNOT_ASK)
            status = phase_shared_try_next(registration, values, values_len, single, low, high,
                                           phase, value);
    } while (signals_again(registration, 1, &status, &patience));
    if (status != PHASE_SIGNALLED || registration->mode == PHASE_SIG)
        return status;
    int32_t waited = wait_with(registration, phase, value, patience);
    return waited == PHASE_OK ? PHASE_OK : PHASE_SIGNALLED;
}

/* ---- Signal and wait. */

int32_t phase_shared_try_next(phase_registration *registration,
                              const int64_t *values, size_t values_len,
                              uint32_t single, int64_t low, int64_t high,
                              uint64_t *phase, int64_t *value)
{
    uint64_t unread;
    int64_t unused;
    if (phase == NULL)
        phase = &unread;
    if (value == NULL)
        value = &unused;
    if (registration->asks != RESTS)
        return PHASE_E_SIGNAL_TWICE;
    int32_t status = phase_member_next(&registration->member, values, values_len, single, low,
                                       high, phase, value);
    go_on(registration, status, *phase);
    return status;
}

int32_t phase_shared_next_for(phase_registration *registration,
                              const int64_t *values, size_t values_len,
                              uint32_t single, int64_t low, int64_t high,
                              uint64_t *phase, int64_t *value, uint64_t nanoseconds)
{
    return next_with(registration, values, values_len, single, low, high, phase, value,
                     within(nanoseconds));
}

int32_t phase_shared_next(phase_registration *registration,
                          const int64_t *values, size_t values_len,
                          uint32_t single, int64_t low, int64_t high,
                          uint64_t *phase, int64_t *value)
{
    return phase_shared_next_for(registration, values, values_len, single, low, high, phase, value,
                                 FOR_EVER);
}

int32_t phase_shared_meet(phase_registration *registration, int64_t value, int64_t *result)
{
    return phase_shared_next(registration, &value, 1, PHASE_NO_SINGLE, 0, 0, NULL, result);
}

/* ---- An end for all. */

int32_t phase_shared_close(const phase_registration *registration)
{
    struct phase_gate *gate = registration->gate;
    if (gate == NULL)
        return PHASE_E_NO_PHASER;
    atomic_store(&gate->closed, 1);
    ring(&gate->done);
    ring(&gate->base);
    return PHASE_OK;
}

int32_t phase_shared_closed(const phase_registration *registration)
{
    if (registration->gate == NULL)
        return PHASE_E_NO_PHASER;
    return atomic_load(&registration->gate->closed) != 0 ? PHASE_E_CLOSED : PHASE_OK;
}

int32_t phase_shared_signal_or_closed(phase_registration *registration,
                                      const int64_t *values, size_t values_len,
                                      uint32_t single, int64_t low, int64_t high,
                                      uint64_t *phase, uint64_t nanoseconds)
{
    return signal_with(registration, values, values_len, single, low, high, phase,
                       heeding(registration, nanoseconds));
}

int32_t phase_shared_signal_block_or_closed(phase_registration *registration,
                                            const int64_t *values, size_t values_len,
                                            uint32_t single, int64_t low, int64_t high,
                                            uint64_t *phase, uint64_t nanoseconds)
{
    return signal_block_with(registration, values, values_len, single, low, high, phase,
                             heeding(registration, nanoseconds));
}

int32_t phase_shared_next_or_closed(phase_registration *registration,
                                    const int64_t *values, size_t values_len,
                                    uint32_t single, int64_t low, int64_t high,
                                    uint64_t *phase, int64_t *value, uint64_t nanoseconds)
{
    return next_with(registration, values, values_len, single, low, high, phase, value,
                     heeding(registration, nanoseconds));
}

int32_t phase_shared_wait_or_closed(phase_registration *registration, uint64_t *phase,
                                    int64_t *value, uint64_t nanoseconds)
{
    return wait_with(registration, phase, value, heeding(registration, nanoseconds));
}

int32_t phase_shared_wait_block_or_closed(phase_registration *registration, int64_t *values,
                                          size_t values_len, uint64_t *phase, size_t *count,
                                          uint64_t nanoseconds)
{
    return wait_block_with(registration, values, values_len, phase, count,
                           heeding(registration, nanoseconds));
}

/* ---- Who is missing. */

int32_t phase_shared_try_missing(phase_registration *registration, phase_member_counts *counts,
                                 uint64_t *places, size_t places_len)
{
    phase_member_counts unread;
    if (counts == NULL)
        counts = &unread;
    int32_t status = end_ask(registration);
    if (status == PHASE_OK)
        status = phase_member_missing(&registration->member, counts, places, places_len);
    return status;
}

int32_t phase_shared_missing(phase_registration *registration, phase_member_counts *counts,
                             uint64_t *places, size_t places_len)
{
    struct patience patience = within(FOR_EVER);
    int32_t status;
    while ((status = phase_shared_try_missing(registration, counts, places, places_len))
           == PHASE_E_BUSY)
        snooze(registration, &patience);
    return status;
}

/* A text that is written, and how much room is left, beside the zero at its end. */
struct text {
    char *at;
    size_t room;
};

static void put(struct text *text, const char *words)
{
    for (; *words != 0 && text->room > 0; words++, text->room--)
        *text->at++ = *words;
}

static void put_number(struct text *text, uint64_t number)
{
    char digits[21];
    int at = 20;
    digits[at] = 0;
    do
        digits[--at] = (char)('0' + number % 10);
    while ((number /= 10) != 0);
    put(text, &digits[at]);
}

/* How many of those that are missing a text names, and how long it waits for its turn at most, in
 * nanoseconds: those that are told of one close at once ask at once. */
enum { NAMED = 16, WORDS = 1000000 };

static void put_missing(struct text *text, const phase_member_counts *counts,
                        const uint64_t *numbers)
{
    uint64_t missing = counts->signallers - counts->signalled;
    put(text, "phase ");
    put_number(text, counts->phase);
    put(text, " lacks the signal of ");
    for (uint64_t at = 0; at < missing && at < NAMED; at++) {
        put(text, at == 0 ? "" : ", ");
        put_number(text, numbers[at]);
    }
    if (missing > NAMED) {
        put(text, " and ");
        put_number(text, missing - NAMED);
        put(text, " more");
    }
}

int32_t phase_shared_lacks(phase_registration *registration, char *text, size_t text_len)
{
    struct text written = {text, text_len - (text_len > 0)};
    struct patience patience = within(WORDS);
    phase_member_counts counts;
    uint64_t numbers[NAMED];
    int32_t status;
    do
        status = phase_shared_try_missing(registration, &counts, numbers, NAMED);
    while (status == PHASE_E_BUSY && snooze(registration, &patience));
    if (status == PHASE_OK && counts.signallers > counts.signalled)
        put_missing(&written, &counts, numbers);
    if (text_len > 0)
        *written.at = 0;
    return status;
}

/* ---- What a registration stands at. */

int32_t phase_shared_view(phase_registration *registration, phase_member_standing *standing)
{
    return phase_member_view(&registration->member, standing);
}

int32_t phase_shared_told(phase_registration *registration, uint64_t *done, uint64_t *base)
{
    uint64_t unread[2];
    if (done == NULL)
        done = &unread[0];
    if (base == NULL)
        base = &unread[1];
    return phase_member_told(&registration->member, done, base);
}

int32_t phase_shared_answers(const phase_registration *registration, uint64_t *answers)
{
    if (registration->gate == NULL)
        return PHASE_E_NO_PHASER;
    if (answers != NULL)
        *answers = registration->answers;
    return PHASE_OK;
}

/* ---- Words. */

const char *phase_shared_status_text(int32_t status)
{
    return phase_status_text(status);
}
