/* What the calls of phase_shared.h answer while the turn stays another's: those with a time limit
 * come back at the limit, and the plain ones go on until the turn is theirs; and that who asks
 * sleeps only where its signal is made. In place of the library stand calls that answer
 * PHASE_E_BUSY as often as they are told to. */
#define _POSIX_C_SOURCE 200809L
#include "phase_shared.h"
#include <stdio.h>
#include <time.h>
#include <unistd.h>

static int passed, failed;

/* Whether a number is the one that is wanted. */
#define IS(found, wanted) is(__LINE__, #found, (int64_t)(found), (int64_t)(wanted))

static void is(int line, const char *name, int64_t found, int64_t wanted)
{
    if (found != wanted)
        printf("busy: line %d: %s is %lld, and not %lld\n", line, name, (long long)found,
               (long long)wanted);
    *(found == wanted ? &passed : &failed) += 1;
}

/* ---- The calls in place of the library's. */

/* How often signals and waits are still answered as busy, and calls that take an ask back; and
 * what that is answered then. */
static uint64_t signals_busy, waits_busy, ends_busy;
static int32_t outcome = PHASE_SIGNALLED;

/* Whether the registration can ask, whether it does, whether the signal that it asks for is made,
 * and whether that completes the phase; how many signals were asked for, and how often the last
 * one's answer was looked for since its turn was tried. One that looks a thousand times and tries
 * no turn waits for ever: then the ask is answered, and hangs. */
static bool can_ask, asks, is_signalled, completes = true, hangs;
static uint64_t asked, looks_since;

static int32_t answered(uint64_t *busy, int32_t status)
{
    if (*busy == 0)
        return status;
    *busy -= 1;
    return PHASE_E_BUSY;
}

int32_t phase_member_new(uint32_t operation, uint64_t bound, uint64_t phases,
                         phase_member *founder)
{
    (void)operation, (void)bound, (void)phases;
    founder->live = true;
    return PHASE_OK;
}

int32_t phase_member_register(phase_member *parent, uint32_t mode, phase_member *child)
{
    (void)parent, (void)mode;
    child->live = true;
    return PHASE_OK;
}

int32_t phase_member_register_now(phase_member *parent, phase_member *child, uint64_t *phase)
{
    *phase = 0;
    return phase_member_register(parent, PHASE_WAIT, child);
}

int32_t phase_member_signal(phase_member *member, const int64_t *values, size_t values_len,
                            uint32_t single, int64_t low, int64_t high, uint64_t *phase)
{
    (void)member, (void)values, (void)values_len, (void)single, (void)low, (void)high;
    *phase = 0;
    return answered(&signals_busy, PHASE_OK);
}

int32_t phase_member_next(phase_member *member, const int64_t *values, size_t values_len,
                          uint32_t single, int64_t low, int64_t high,
                          uint64_t *phase, int64_t *value)
{
    (void)value;
    int32_t status = phase_member_signal(member, values, values_len, single, low, high, phase);
    return status == PHASE_OK ? PHASE_SIGNALLED : status;
}

int32_t phase_member_ask(phase_member *member, const int64_t *values, size_t values_len)
{
    (void)member, (void)values, (void)values_len;
    if (!can_ask)
        return PHASE_E_CANNOT_ASK;
    asks = true, is_signalled = false;
    asked++, looks_since = 0;
    return PHASE_ASKED;
}

int32_t phase_member_look(phase_member *member, uint64_t *phase, int64_t *value)
{
    (void)member;
    if (!asks)
        return PHASE_E_NOT_ASKED;
    hangs = hangs || (!is_signalled && ++looks_since > 1000);
    if (!(is_signalled && completes) && !hangs)
        return PHASE_ASKED;
    asks = false;
    *phase = 0, *value = 9;
    return PHASE_OK;
}

int32_t phase_member_serve(phase_member *member, uint32_t looks, uint64_t *phase, int64_t *value)
{
    (void)member, (void)looks, (void)phase, (void)value;
    if (!asks)
        return PHASE_E_NOT_ASKED;
    looks_since = 0;
    if (answered(&signals_busy, PHASE_OK) == PHASE_E_BUSY)
        return PHASE_E_BUSY;
    is_signalled = true;
    return PHASE_ASKED;
}

int32_t phase_member_take_back(phase_member *member, uint64_t *phase, int64_t *value)
{
    (void)member;
    if (!asks)
        return PHASE_E_NOT_ASKED;
    if (answered(&ends_busy, PHASE_OK) == PHASE_E_BUSY)
        return PHASE_E_BUSY;
    asks = false;
    if (outcome >= 0)
        *phase = 0;
    if (outcome == PHASE_OK)
        *value = 8;
    return outcome;
}

int32_t phase_member_signal_block(phase_member *member, const int64_t *values, size_t values_len,
                                  uint32_t single, int64_t low, int64_t high, uint64_t *phase)
{
    return phase_member_signal(member, values, values_len, single, low, high, phase);
}

int32_t phase_member_wait(phase_member *member, uint64_t *phase, int64_t *value)
{
    (void)member;
    *phase = 0, *value = 9;
    return answered(&waits_busy, PHASE_OK);
}

int32_t phase_member_wait_block(phase_member *member, int64_t *values, size_t values_len,
                                uint64_t *phase, size_t *count)
{
    (void)values_len;
    *count = 1;
    return phase_member_wait(member, phase, values);
}

int32_t phase_member_missing(phase_member *member, phase_member_counts *counts, uint64_t *places,
                             size_t places_len)
{
    (void)member, (void)places, (void)places_len;
    *counts = (phase_member_counts){1, 1, 1, 7, 0};
    return answered(&waits_busy, PHASE_OK);
}

int32_t phase_member_leave(phase_member *member)
{
    member->live = false;
    return PHASE_OK;
}

int32_t phase_member_view(phase_member *member, phase_member_standing *standing)
{
    (void)member, (void)standing;
    return PHASE_OK;
}

int32_t phase_member_told(phase_member *member, uint64_t *done, uint64_t *base)
{
    (void)member;
    *done = asks ? 0 : UINT64_MAX, *base = UINT64_MAX;
    return PHASE_OK;
}

/* ---- The tries. */

static const uint64_t MILLISECOND = 1000000;

static uint64_t now(void)
{
    struct timespec time;
    clock_gettime(CLOCK_MONOTONIC, &time);
    return (uint64_t)time.tv_sec * 1000 * MILLISECOND + (uint64_t)time.tv_nsec;
}

/* A call with a limit of two milliseconds is answered so behind them, and within a second. */
#define ENDS(call, wanted)                                                                         \
    do {                                                                                           \
        signals_busy = signals, waits_busy = waits;                                                \
        uint64_t begun = now();                                                                    \
        IS(call, wanted);                                                                          \
        uint64_t took = now() - begun;                                                             \
        IS(took >= limit && took < 1000 * MILLISECOND, true);                                      \
    } while (0)

/* What a registration is answered whose ask stands, since it has no turn: here for ever. */
static void stands(phase_registration *it)
{
    phase_registration child = PHASE_REGISTRATION_INIT;
    const uint32_t none = PHASE_NO_SINGLE;
    const int64_t value = 5;
    phase_member_counts counts;
    uint64_t phase = 77;
    int64_t got = 77;
    size_t count = 77;
    IS(phase_shared_signal(it, &value, 1, none, 0, 0, &phase), PHASE_E_SIGNAL_TWICE);
    IS(phase_shared_signal_block(it, &value, 1, none, 0, 0, &phase), PHASE_E_SIGNAL_TWICE);
    IS(phase_shared_next(it, &value, 1, none, 0, 0, &phase, &got), PHASE_E_SIGNAL_TWICE);
    IS(phase_shared_try_next(it, &value, 1, none, 0, 0, &phase, &got), PHASE_E_SIGNAL_TWICE);
    IS(phase_shared_try_wait(it, &phase, &got), PHASE_E_BUSY);
    IS(phase_shared_wait_for(it, &phase, &got, MILLISECOND), PHASE_E_NOT_YET);
    IS(phase_shared_try_wait_block(it, &got, 1, &phase, &count), PHASE_E_BUSY);
    IS(phase_shared_try_missing(it, &counts, NULL, 0), PHASE_E_BUSY);
    IS(phase_shared_try_register(it, PHASE_SIG, &child), PHASE_E_BUSY);
    IS(phase_shared_try_register_now(it, &child, &phase), PHASE_E_BUSY);
    IS(phase_shared_try_leave(it), PHASE_E_BUSY);
    IS(phase, 77);
    IS(got, 77);
    IS(count, 77);
    IS(child.member.live, false);
}

/* A next for two milliseconds whose ask cannot be taken back, by a registration with another, whose
 * last signal was that of phase 0. */
static void asks_in_vain(phase_registration *it, int32_t wanted)
{
    const uint64_t limit = 2 * MILLISECOND, waits = 0, signals = signals_busy;
    const int64_t value = 5;
    uint64_t phase = 77;
    int64_t got = 77;
    ends_busy = UINT64_MAX;
    ENDS(phase_shared_next_for(it, &value, 1, PHASE_NO_SINGLE, 0, 0, &phase, &got, limit), wanted);
    IS(phase, 1);
    IS(got, 77);
}

/* The ask of one whose time is over, and what comes of it. */
static void takes_no_longer(phase_registration *it)
{
    phase_registration other = PHASE_REGISTRATION_INIT, child = PHASE_REGISTRATION_INIT;
    const uint64_t for_ever = UINT64_MAX, before = asked;
    const uint32_t none = PHASE_NO_SINGLE;
    const int64_t value = 5;
    uint64_t phase = 77;
    int64_t got[2] = {77, 77};
    size_t count = 77;
    IS(phase_shared_register(it, PHASE_SIG_WAIT, &other), PHASE_OK);
    can_ask = true;
    /* With no time it asks for nothing. */
    signals_busy = for_ever;
    IS(phase_shared_next_for(it, &value, 1, none, 0, 0, &phase, got, 0), PHASE_E_AHEAD);
    IS(asked, before);
    /* Nobody had a turn: then its signal is made, and the phase is waited for. */
    asks_in_vain(it, PHASE_ASKED);
    stands(it);
    ends_busy = 3, signals_busy = 0, outcome = PHASE_SIGNALLED;
    IS(phase_shared_wait(it, &phase, got), PHASE_OK);
    IS(got[0], 9);
    /* The phase is complete. What came of it is kept for a wait, whatever was called before. */
    signals_busy = for_ever;
    asks_in_vain(it, PHASE_ASKED);
    ends_busy = 300, signals_busy = 0, outcome = PHASE_OK;
    IS(phase_shared_register(it, PHASE_SIG, &child), PHASE_OK);
    IS(ends_busy, 0);
    IS(phase_shared_signal(it, &value, 1, none, 0, 0, &phase), PHASE_E_SIGNAL_TWICE);
    IS(phase_shared_wait_block(it, got, 2, &phase, &count), PHASE_OK);
    IS(phase, 0);
    IS(got[0], 8);
    IS(got[1], 77);
    IS(count, 1);
    IS(phase_shared_signal(it, &value, 1, none, 0, 0, &phase), PHASE_OK);
    /* Its signal is refused. */
    signals_busy = for_ever;
    asks_in_vain(it, PHASE_ASKED);
    ends_busy = 0, signals_busy = 0, outcome = PHASE_E_SPENT;
    IS(phase_shared_wait(it, &phase, got), PHASE_E_SPENT);
    IS(phase_shared_signal(it, &value, 1, none, 0, 0, &phase), PHASE_OK);
    /* Its signal was made in time, and the turn is another's from then on. */
    completes = false;
    asks_in_vain(it, PHASE_SIGNALLED);
    stands(it);
    ends_busy = 0, outcome = PHASE_OK, completes = true;
    IS(phase_shared_wait_for(it, &phase, got, MILLISECOND), PHASE_OK);
    IS(got[0], 8);
    /* Who leaves ends it first, and who comes then asks for nothing. */
    signals_busy = for_ever;
    asks_in_vain(&other, PHASE_ASKED);
    ends_busy = 300, signals_busy = 0;
    IS(phase_shared_leave(&other), PHASE_OK);
    IS(ends_busy, 0);
    IS(asks, false);
    IS(phase_shared_leave(&child), PHASE_OK);
    can_ask = false;
}

int main(void)
{
    const uint64_t limit = 2 * MILLISECOND, for_ever = UINT64_MAX;
    const uint32_t none = PHASE_NO_SINGLE;
    phase_registration it = PHASE_REGISTRATION_INIT;
    uint64_t phase, signals = for_ever, waits = for_ever;
    int64_t value = 5, got = 0;
    size_t count;
    IS(phase_shared_new(PHASE_SUM, 2, 100, &it), PHASE_OK);
    ENDS(phase_shared_signal_for(&it, &value, 1, none, 0, 0, &phase, limit), PHASE_E_AHEAD);
    ENDS(phase_shared_signal_block_for(&it, &value, 1, none, 0, 0, &phase, limit), PHASE_E_AHEAD);
    ENDS(phase_shared_wait_for(&it, &phase, &got, limit), PHASE_E_NOT_YET);
    ENDS(phase_shared_wait_block_for(&it, &got, 1, &phase, &count, limit), PHASE_E_NOT_YET);
    ENDS(phase_shared_next_for(&it, &value, 1, none, 0, 0, &phase, &got, limit), PHASE_E_AHEAD);
    signals = 3;
    ENDS(phase_shared_next_for(&it, &value, 1, none, 0, 0, &phase, &got, limit), PHASE_SIGNALLED);
    /* So are those that heed a close, as long as there is none. */
    signals = for_ever;
    ENDS(phase_shared_signal_or_closed(&it, &value, 1, none, 0, 0, &phase, limit), PHASE_E_AHEAD);
    ENDS(phase_shared_wait_or_closed(&it, &phase, &got, limit), PHASE_E_NOT_YET);
    /* No time at all is a few tries. */
    signals_busy = waits_busy = for_ever;
    IS(phase_shared_wait_for(&it, &phase, &got, 0), PHASE_E_NOT_YET);
    IS(phase_shared_signal_for(&it, &value, 1, none, 0, 0, &phase, 0), PHASE_E_AHEAD);
    /* Without a limit a call goes on. */
    signals_busy = waits_busy = 300;
    IS(phase_shared_next(&it, &value, 1, none, 0, 0, &phase, &got), PHASE_OK);
    IS(got, 9);
    IS(signals_busy + waits_busy, 0);
    /* Who asks and has had no turn tries to get one, and does not sleep. */
    phase_registration other = PHASE_REGISTRATION_INIT;
    IS(phase_shared_register(&it, PHASE_SIG_WAIT, &other), PHASE_OK);
    can_ask = true;
    signals_busy = 200;
    got = 0;
    IS(phase_shared_next(&it, &value, 1, none, 0, 0, &phase, &got), PHASE_OK);
    IS(hangs, false);
    IS(got, 9);
    IS(signals_busy, 0);
    IS(asked, sysconf(_SC_NPROCESSORS_ONLN) > 1);
    can_ask = false;
    IS(phase_shared_leave(&other), PHASE_OK);
    /* What comes next hangs where that was not so. */
    if (failed == 0 && sysconf(_SC_NPROCESSORS_ONLN) > 1)
        takes_no_longer(&it);
    /* Where the phaser is closed a call goes on until it has had its turn. */
    IS(phase_shared_close(&it), PHASE_OK);
    signals_busy = waits_busy = 300;
    got = 0;
    IS(phase_shared_next_or_closed(&it, &value, 1, none, 0, 0, &phase, &got, limit), PHASE_OK);
    IS(got, 9);
    IS(signals_busy + waits_busy, 0);
    /* Who asks how the phaser stands, too. */
    phase_member_counts counts;
    waits_busy = 300;
    IS(phase_shared_try_missing(&it, &counts, NULL, 0), PHASE_E_BUSY);
    IS(phase_shared_missing(&it, &counts, NULL, 0), PHASE_OK);
    IS(counts.phase, 7);
    IS(waits_busy, 0);
    IS(phase_shared_leave(&it), PHASE_OK);
    printf("busy: %d passed, %d failed\n", passed, failed);
    return failed != 0;
}
