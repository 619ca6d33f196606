/* Calls of phase_shared.h at random, by threads that come and go on one phaser, beside a judge of
 * legal histories, which goes by what docs/DEFINITIONS.md says and by nothing of the library. Each
 * member notes when each of its calls began and ended, and what it sent and got. In the end:
 * - its phases came each once and in order, from those at which it was registered;
 * - the value of a phase is that of all that was sent in it;
 * - whoever got a phase had it when each signaller had signalled it, or left, or later; and whoever
 *   signalled one was less than the bound ahead of each waiter;
 * - who was told that no more will come was told so when each signaller was leaving;
 * - a try that came too early was made before somebody's call that it lacked had ended.
 * As many ask as there are lanes, since it says that there are as many processors as members.
 * usage: mixes KIND SEED, where mixed has every mode and call, and lanes who signal and wait */
#define _POSIX_C_SOURCE 200809L
#include "phase_shared.h"
#include <pthread.h>
#include <sched.h>
#include <stdatomic.h>
#include <stdio.h>
#include <stdlib.h>
#include <string.h>
#include <time.h>
#include <unistd.h>

enum { MEMBERS = 41, PHASES = 2000, EARLY = 1 << 16 };

/* What one member did in a phase: when its call began and ended, and what it sent or got. */
struct deed {
    uint64_t begun; /* 0: it did not */
    uint64_t ended;
    int64_t value; /* INT64_MIN: none */
};

struct member {
    phase_registration registration;
    pthread_t thread;
    uint32_t mode;
    uint64_t seed;
    uint64_t steps;
    uint64_t first_signal, first_wait; /* where it was registered */
    uint64_t next_signal, next_wait;   /* the phases that its next calls are about */
    struct deed left;
    struct deed told_end; /* its value is the phase that it waited for */
    struct deed signals[PHASES + 1], waits[PHASES + 1];
};

/* A try that came too early. */
struct early {
    uint64_t phase;
    uint64_t begun;
    bool waits;
};

static struct member members[MEMBERS];
static struct early early[EARLY];
static _Atomic int made, alive, earlies, faults;

/* What is tried: how many members there are at a time, the bound, and the operation. */
static int alive_most;
static uint64_t bound;
static uint32_t operation;
static bool is_mixed;

/* As many processors as there are members, so that each of them asks. */
long __real_sysconf(int name);
long __wrap_sysconf(int name);
long __wrap_sysconf(int name)
{
    return name == _SC_NPROCESSORS_ONLN ? MEMBERS : __real_sysconf(name);
}

static void fault(const char *what, uint64_t number, uint64_t phase)
{
    if (atomic_fetch_add(&faults, 1) < 10)
        printf("mixes: member %llu, phase %llu: %s\n", (unsigned long long)number,
               (unsigned long long)phase, what);
}

static uint64_t now(void)
{
    struct timespec time;
    clock_gettime(CLOCK_MONOTONIC, &time);
    return (uint64_t)time.tv_sec * 1000000000 + (uint64_t)time.tv_nsec;
}

static uint64_t below(struct member *member, uint64_t most)
{
    member->seed = member->seed * 6364136223846793005u + 1442695040888963407u;
    return (member->seed >> 33) % most;
}

static uint64_t number_of(const struct member *member)
{
    return (uint64_t)(member - members);
}

/* ---- Values. */

/* The value of two lists of sends, one behind the other. */
static int64_t joined(int64_t one, int64_t other)
{
    if (operation == PHASE_SUM)
        return one + other;
    return one > other ? one : other;
}

static int64_t of_none(void)
{
    return operation == PHASE_SUM ? 0 : INT64_MIN;
}

/* Up to so many sends at random; and their value. */
static size_t sends_of(struct member *member, int64_t *row, size_t most, int64_t *value)
{
    size_t count = below(member, most + 1);
    *value = of_none();
    for (size_t at = 0; at < count; at++) {
        row[at] = (int64_t)below(member, 100) - 50;
        *value = joined(*value, row[at]);
    }
    return count;
}

/* ---- Notes. */

static void note(struct member *member, struct deed *deeds, uint64_t *next, uint64_t phase,
                 uint64_t begun, int64_t value)
{
    if (phase != *next || phase >= PHASES || deeds[phase].begun != 0) {
        fault("a phase is not the next one", number_of(member), phase);
        return;
    }
    deeds[phase] = (struct deed){begun, now(), value};
    *next = phase + 1;
}

static void note_signal(struct member *member, uint64_t phase, uint64_t begun, int64_t value)
{
    note(member, member->signals, &member->next_signal, phase, begun, value);
}

static void note_wait(struct member *member, uint64_t phase, uint64_t begun, int64_t value)
{
    note(member, member->waits, &member->next_wait, phase, begun, value);
}

static void note_end(struct member *member, uint64_t begun)
{
    member->told_end = (struct deed){begun, now(), (int64_t)member->next_wait};
}

static void note_early(uint64_t phase, uint64_t begun, bool waits)
{
    int at = atomic_fetch_add(&earlies, 1);
    if (at < EARLY)
        early[at] = (struct early){phase, begun, waits};
}

/* ---- Calls, each of which answers whether the member goes on. */

/* Whether a call that was answered so is made again, where it may be. It yields before. */
static bool again(bool may_be, int32_t status)
{
    if (!may_be
        || (status != PHASE_E_AHEAD && status != PHASE_E_NOT_YET && status != PHASE_E_BUSY))
        return false;
    sched_yield();
    return true;
}

static bool goes_on(struct member *member, int32_t status)
{
    if (status < 0 && status != PHASE_E_SPENT)
        fault(phase_status_text(status), number_of(member), member->next_signal);
    return status == PHASE_OK;
}

/* A time limit, and no time at all among them. */
static uint64_t limit(struct member *member)
{
    return below(member, 3) * below(member, 30000);
}

static bool signals(struct member *member)
{
    int64_t row[3], value;
    uint64_t phase = 0, begun;
    size_t count = sends_of(member, row, 3, &value);
    phase_registration *it = &member->registration;
    int32_t status;
    uint64_t way = below(member, 3);
    do {
        begun = now();
        status = way == 0   ? phase_shared_signal(it, row, count, 0, 0, 0, &phase)
                 : way == 1 ? phase_shared_signal_for(it, row, count, 0, 0, 0, &phase,
                                                      limit(member))
                            : phase_shared_try_signal(it, row, count, 0, 0, 0, &phase);
        if (way == 2 && status == PHASE_E_AHEAD)
            note_early(member->next_signal, begun, false);
    } while (again(way != 0, status));
    if (status == PHASE_OK)
        note_signal(member, phase, begun, value);
    return goes_on(member, status);
}

static bool signals_block(struct member *member)
{
    int64_t row[8];
    uint64_t phase = 0, begun = now(), count = 1 + below(member, bound);
    for (uint64_t at = 0; at < count; at++)
        row[at] = (int64_t)below(member, 100) - 50;
    int32_t status = phase_shared_signal_block(&member->registration, row, count, 0, 0, 0, &phase);
    for (uint64_t at = 0; status == PHASE_OK && at < count; at++)
        note_signal(member, phase + at, begun, row[at]);
    return goes_on(member, status);
}

static bool waits(struct member *member)
{
    uint64_t phase = 0, begun;
    int64_t value = 0;
    phase_registration *it = &member->registration;
    int32_t status;
    uint64_t way = below(member, 3);
    do {
        begun = now();
        status = way == 0   ? phase_shared_wait(it, &phase, &value)
                 : way == 1 ? phase_shared_wait_for(it, &phase, &value, limit(member))
                            : phase_shared_try_wait(it, &phase, &value);
        if (way == 2 && status == PHASE_E_NOT_YET)
            note_early(member->next_wait, begun, true);
    } while (again(way != 0, status));
    if (status == PHASE_OK)
        note_wait(member, phase, begun, value);
    if (status == PHASE_ENDED)
        note_end(member, begun);
    return goes_on(member, status);
}

static bool waits_for_block(struct member *member)
{
    int64_t row[8];
    size_t count = 0;
    uint64_t phase = 0, begun = now();
    int32_t status = phase_shared_wait_block(&member->registration, row, 1 + below(member, bound),
                                             &phase, &count);
    for (size_t at = 0; status == PHASE_OK && at < count; at++)
        note_wait(member, phase + at, begun, row[at]);
    if (status == PHASE_ENDED)
        note_end(member, begun);
    return goes_on(member, status);
}

/* The wait behind a next that had asked, and whose signal nobody may have made yet. Where that is
 * refused as ahead, nothing was sent. */
static bool gets_answer(struct member *member, uint64_t begun, int64_t sent)
{
    uint64_t phase = 0;
    int64_t value = 0;
    int32_t status = phase_shared_wait(&member->registration, &phase, &value);
    if (status == PHASE_OK) {
        note_signal(member, phase, begun, sent);
        note_wait(member, phase, begun, value);
    }
    return status == PHASE_E_AHEAD || goes_on(member, status);
}

/* A signal and a wait by one call, which asks where it has one send or none; and the rest of it
 * where its time was over. */
static bool nexts(struct member *member)
{
    int64_t row[2], value, got = 0;
    uint64_t phase = 0, begun, way = below(member, 16);
    size_t count = sends_of(member, row, 1 + (below(member, 8) == 0), &value);
    phase_registration *it = &member->registration;
    int32_t status;
    do {
        begun = now();
        status = way == 0   ? phase_shared_try_next(it, row, count, 0, 0, 0, &phase, &got)
                 : way == 1 ? phase_shared_next_for(it, row, count, 0, 0, 0, &phase, &got,
                                                    limit(member))
                            : phase_shared_next(it, row, count, 0, 0, 0, &phase, &got);
    } while (again(way < 2, status));
    if (status == PHASE_OK || status == PHASE_SIGNALLED)
        note_signal(member, phase, begun, value);
    if (status == PHASE_SIGNALLED)
        return waits(member);
    if (status == PHASE_ASKED)
        return gets_answer(member, begun, value);
    if (status == PHASE_OK)
        note_wait(member, phase, begun, got);
    return goes_on(member, status);
}

/* One step of a member, in one of the ways that its mode has. */
static bool steps(struct member *member)
{
    uint64_t way = below(member, 12);
    if (member->mode == PHASE_SIG)
        return way == 0 ? signals_block(member) : signals(member);
    if (member->mode == PHASE_WAIT)
        return way == 0 ? waits_for_block(member) : waits(member);
    if (is_mixed && way == 0)
        return signals(member) && waits(member);
    return nexts(member);
}

/* ---- Members. */

static void *lives(void *of);

/* Notes where a member begins, and gives it a thread. */
static void begins(struct member *member, const struct member *parent, uint32_t mode,
                   uint64_t now_phase, uint64_t steps)
{
    bool is_now = now_phase != UINT64_MAX;
    member->mode = mode;
    member->seed = parent->seed ^ (number_of(member) * 2654435761u);
    member->steps = steps;
    member->first_signal = is_now ? now_phase : parent->next_signal;
    member->first_wait = is_now ? now_phase : parent->next_wait;
    member->next_signal = member->first_signal;
    member->next_wait = member->first_wait;
    atomic_fetch_add(&alive, 1);
    if (pthread_create(&member->thread, NULL, lives, member) != 0)
        abort();
}

/* Registers a child, where there is a place for it. */
static void has_child(struct member *parent)
{
    static const uint32_t modes[] = {PHASE_SIG, PHASE_WAIT, PHASE_SIG_WAIT, PHASE_SIG_WAIT};
    int at = atomic_load(&made);
    if (atomic_load(&alive) >= alive_most || at >= MEMBERS
        || !atomic_compare_exchange_strong(&made, &at, at + 1))
        return;
    struct member *child = &members[at];
    uint32_t mode = PHASE_SIG_WAIT;
    if (parent->mode < PHASE_SIG_WAIT)
        mode = parent->mode;
    else if (is_mixed)
        mode = modes[below(parent, 4)];
    uint64_t phase = UINT64_MAX;
    int32_t status;
    if (mode == PHASE_WAIT && below(parent, 2) == 0)
        status = phase_shared_register_now(&parent->registration, &child->registration, &phase);
    else
        status = phase_shared_register(&parent->registration, mode, &child->registration);
    if (status != PHASE_OK)
        fault("it has no child", number_of(parent), parent->next_signal);
    begins(child, parent, mode, phase, 1 + below(parent, 400));
}

static void *lives(void *of)
{
    struct member *member = of;
    for (uint64_t at = 0; at < member->steps; at++) {
        if (!steps(member))
            break;
        /* Children come soon until as many are there as may be, or where few are left. */
        bool is_soon = atomic_load(&made) < alive_most || atomic_load(&alive) < 3;
        if (below(member, is_soon ? 4 : 300) == 0)
            has_child(member);
    }
    uint64_t begun = now();
    if (phase_shared_leave(&member->registration) != PHASE_OK)
        fault("it does not leave", number_of(member), member->next_signal);
    member->left = (struct deed){begun, now(), 0};
    atomic_fetch_sub(&alive, 1);
    return NULL;
}

/* ---- The judge. */

static bool signals_phase(const struct member *it, uint64_t phase)
{
    return it->mode != PHASE_WAIT && it->first_signal <= phase;
}

static bool waits_for(const struct member *it, uint64_t phase)
{
    return it->mode != PHASE_SIG && it->first_wait <= phase;
}

/* What a member did about a phase, or else that it left. */
static const struct deed *done_or_left(const struct member *it, const struct deed *deeds,
                                       uint64_t phase)
{
    return deeds[phase].begun != 0 ? &deeds[phase] : &it->left;
}

/* The value of a phase, by what all sent. */
static int64_t value_of(int count, uint64_t phase)
{
    int64_t value = of_none();
    for (int at = 0; at < count; at++)
        if (members[at].signals[phase].begun != 0)
            value = joined(value, members[at].signals[phase].value);
    return value;
}

/* Whoever got a phase had its value, and each signaller had begun to signal it, or to leave. */
static void judge_wait(int count, uint64_t number, uint64_t phase, const struct deed *got)
{
    if (got->value != value_of(count, phase))
        fault("a value is not that of what was sent", number, phase);
    for (int at = 0; at < count; at++)
        if (signals_phase(&members[at], phase)
            && done_or_left(&members[at], members[at].signals, phase)->begun > got->ended)
            fault("a phase was got that was not complete", number, phase);
}

/* Whoever signalled a phase was less than the bound ahead of each waiter. */
static void judge_signal(int count, uint64_t number, uint64_t phase, const struct deed *signal)
{
    for (int at = 0; at < count && phase >= bound; at++)
        if (waits_for(&members[at], phase - bound)
            && done_or_left(&members[at], members[at].waits, phase - bound)->begun > signal->ended)
            fault("a signal was ahead", number, phase);
}

/* Whoever was told that no more will come was told so as each signaller was leaving, and none had
 * signalled that phase. */
static void judge_end(int count, uint64_t number, const struct deed *told)
{
    uint64_t phase = (uint64_t)told->value;
    for (int at = 0; at < count && told->begun != 0; at++) {
        const struct member *it = &members[at];
        if (it->mode != PHASE_WAIT
            && (it->left.begun > told->ended || it->signals[phase].begun != 0))
            fault("an end was told too early", number, phase);
    }
}

/* A try that came too early lacked a call that had not ended when it began. */
static void judge_early(int count, const struct early *it)
{
    if (!it->waits && it->phase < bound) {
        fault("the first phases are not ahead", 0, it->phase);
        return;
    }
    for (int at = 0; at < count; at++) {
        const struct member *other = &members[at];
        const struct deed *lacked = NULL;
        if (it->waits && signals_phase(other, it->phase))
            lacked = done_or_left(other, other->signals, it->phase);
        if (!it->waits && waits_for(other, it->phase - bound))
            lacked = done_or_left(other, other->waits, it->phase - bound);
        if (lacked != NULL && lacked->ended >= it->begun)
            return;
    }
    fault(it->waits ? "a phase was not complete, and lacked nobody"
                    : "a phase was ahead of nobody",
          0, it->phase);
}

static void judge(int count)
{
    for (int at = 0; at < count; at++) {
        const struct member *it = &members[at];
        for (uint64_t phase = 0; phase < PHASES; phase++) {
            if (it->waits[phase].begun != 0)
                judge_wait(count, (uint64_t)at, phase, &it->waits[phase]);
            if (it->signals[phase].begun != 0)
                judge_signal(count, (uint64_t)at, phase, &it->signals[phase]);
        }
        judge_end(count, (uint64_t)at, &it->told_end);
    }
    for (int at = 0; at < earlies && at < EARLY; at++)
        judge_early(count, &early[at]);
}

int main(int count, char **words)
{
    if (count != 3)
        return 2;
    struct member *first = &members[0];
    is_mixed = strcmp(words[1], "mixed") == 0;
    first->seed = strtoull(words[2], NULL, 10) * 7919;
    alive_most = is_mixed ? 2 + (int)below(first, 4) : 20;
    bound = is_mixed ? 1 + below(first, 4) : 2;
    operation = below(first, 2) == 0 ? PHASE_SUM : PHASE_GREATEST;
    if (phase_shared_new(operation, bound, PHASES, &first->registration) != PHASE_OK)
        return 2;
    atomic_store(&made, 1);
    struct member root = {.seed = first->seed};
    begins(first, &root, PHASE_SINGLE, UINT64_MAX, UINT64_MAX);
    int joined_up = 0;
    while (joined_up < atomic_load(&made))
        pthread_join(members[joined_up++].thread, NULL);
    judge(joined_up);
    uint64_t phases = 0;
    for (uint64_t phase = 0; phase < PHASES; phase++)
        phases += first->waits[phase].begun != 0;
    printf("mixes: %s, %d members, at most %d at a time, bound %d, %llu phases, %d early, "
           "%d faults\n",
           words[1], joined_up, alive_most, (int)bound, (unsigned long long)phases, earlies,
           faults);
    return faults != 0 || phases != PHASES || (!is_mixed && joined_up != MEMBERS);
}
