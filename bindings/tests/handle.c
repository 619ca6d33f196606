/* What the calls of a phaser answer and write, beside values worked out by hand and the replies
 * that examples/replay keeps of the scripts members, late, singles and ending; each refusal, which
 * leaves all as it was; and a phaser that goes from thread to thread. */
#include "phase.h"
#include <pthread.h>
#include <sched.h>
#include <stdio.h>
#include <stdlib.h>
#include <string.h>

static int passed, failed;

/* Whether a number is the one that is wanted. */
#define IS(found, wanted) is(__LINE__, #found, (int64_t)(found), (int64_t)(wanted))

static void is(int line, const char *name, int64_t found, int64_t wanted)
{
    if (found != wanted)
        printf("handle: line %d: %s is %lld, and not %lld\n", line, name, (long long)found,
               (long long)wanted);
    *(found == wanted ? &passed : &failed) += 1;
}

/* A signal with no single. */
static int32_t signals(phase_phaser *phaser, uint64_t task, const int64_t *values, size_t count,
                       uint64_t *phase)
{
    return phase_phaser_signal(phaser, task, values, count, PHASE_NO_SINGLE, 0, 0, phase);
}

/* A wait that is answered with this phase and this value. */
#define GETS(phaser, task, wanted_phase, wanted)                                                   \
    do {                                                                                           \
        uint64_t phase_ = 77;                                                                      \
        int64_t value_ = 77;                                                                       \
        IS(phase_phaser_wait(phaser, task, &phase_, &value_), PHASE_OK);                           \
        IS(phase_, wanted_phase);                                                                  \
        IS(value_, wanted);                                                                        \
    } while (0)

/* A wait that is answered so, and writes nothing. */
#define GETS_NONE(phaser, task, status)                                                            \
    do {                                                                                           \
        uint64_t phase_ = 77;                                                                      \
        int64_t value_ = 77;                                                                       \
        IS(phase_phaser_wait(phaser, task, &phase_, &value_), status);                             \
        IS(phase_, 77);                                                                            \
        IS(value_, 77);                                                                            \
    } while (0)

/* What 4, 9, -3 come to, what no send comes to, and what the greatest value twice. */
static void operations(void)
{
    const int64_t sends[3] = {4, 9, -3}, most[2] = {INT64_MAX, INT64_MAX};
    const int64_t of_sends[] = {0, 10, -108, -3, 9, 4};
    const int64_t of_none[] = {0, 0, 1, INT64_MIN, INT64_MIN, INT64_MIN};
    const int64_t of_most[] = {0, INT64_MIN, INT64_MIN, INT64_MAX, INT64_MAX, INT64_MAX};
    for (uint32_t operation = PHASE_SUM; operation <= PHASE_ANY; operation++) {
        phase_phaser phaser = {0};
        uint64_t phase = 77;
        IS(phase_phaser_new(operation, 2, 100, &phaser), PHASE_OK);
        IS(phaser.live, true);
        IS(signals(&phaser, 0, sends, 3, &phase), PHASE_OK);
        IS(phase, 0);
        GETS(&phaser, 0, 0, of_sends[operation]);
        IS(signals(&phaser, 0, NULL, 0, &phase), PHASE_OK);
        IS(phase, 1);
        GETS(&phaser, 0, 1, of_none[operation]);
        IS(signals(&phaser, 0, most, 2, &phase), PHASE_OK);
        GETS(&phaser, 0, 2, of_most[operation]);
        phase_phaser_free(&phaser);
        IS(phaser.live, false);
        phase_phaser_free(&phaser);
        GETS_NONE(&phaser, 0, PHASE_E_NO_PHASER);
    }
}

/* The script members, and where its tasks stand at the end. */
static void members(void)
{
    phase_phaser phaser = {0};
    phase_standing standing;
    uint64_t phase = 77, task = 77;
    const int64_t five = 5, six = 6;
    IS(phase_phaser_new(PHASE_SUM, 2, 100, &phaser), PHASE_OK);
    IS(phase_phaser_register(&phaser, 0, PHASE_SIG, &task), PHASE_OK);
    IS(task, 1);
    IS(phase_phaser_register(&phaser, 0, PHASE_WAIT, &task), PHASE_OK);
    IS(phase_phaser_register(&phaser, 0, PHASE_WAIT, &task), PHASE_OK);
    IS(task, 3);
    IS(phase_phaser_drop(&phaser, 0), PHASE_OK);
    IS(signals(&phaser, 1, NULL, 0, &phase), PHASE_OK);
    IS(phase, 0);
    IS(signals(&phaser, 1, NULL, 0, &phase), PHASE_OK);
    IS(phase, 1);
    IS(phase_phaser_register(&phaser, 1, PHASE_SIG, &task), PHASE_OK);
    IS(task, 4);
    GETS(&phaser, 2, 0, 0);
    GETS(&phaser, 2, 1, 0);
    GETS_NONE(&phaser, 2, PHASE_E_NOT_YET);
    IS(signals(&phaser, 1, NULL, 0, &phase), PHASE_E_AHEAD);
    IS(phase, 1);
    GETS(&phaser, 3, 0, 0);
    IS(signals(&phaser, 1, &five, 1, &phase), PHASE_OK);
    IS(phase, 2);
    GETS_NONE(&phaser, 2, PHASE_E_NOT_YET);
    IS(signals(&phaser, 4, &six, 1, &phase), PHASE_OK);
    IS(phase, 2);
    GETS(&phaser, 2, 2, 11);
    GETS(&phaser, 3, 1, 0);
    GETS(&phaser, 3, 2, 11);
    memset(&standing, 0x55, sizeof standing);
    IS(phase_phaser_view(&phaser, 3, &standing), PHASE_OK);
    IS(standing.mode, PHASE_WAIT);
    IS(standing.wait_phase, 3);
    IS(standing.signal_phase, 0);
    IS(phase_phaser_view(&phaser, 1, &standing), PHASE_OK);
    IS(standing.mode, PHASE_SIG);
    IS(standing.signal_phase, 3);
    IS(standing.wait_phase, 0);
    standing.mode = 77;
    IS(phase_phaser_view(&phaser, 0, &standing), PHASE_E_NO_TASK);
    IS(standing.mode, 77);
    phase_phaser_free(&phaser);
}

/* The script late; its last line names a number of its own, which no call of C does. */
static void late(void)
{
    phase_phaser phaser = {0};
    uint64_t phase = 77, task = 77;
    const int64_t ten = 10, twenty = 20;
    IS(phase_phaser_new(PHASE_SUM, 4, 100, &phaser), PHASE_OK);
    IS(phase_phaser_register(&phaser, 0, PHASE_SIG, &task), PHASE_OK);
    IS(phase_phaser_register(&phaser, 0, PHASE_WAIT, &task), PHASE_OK);
    IS(phase_phaser_drop(&phaser, 0), PHASE_OK);
    IS(signals(&phaser, 1, &ten, 1, &phase), PHASE_OK);
    IS(signals(&phaser, 1, &twenty, 1, &phase), PHASE_OK);
    IS(phase_phaser_register_now(&phaser, 2, &task, &phase), PHASE_OK);
    IS(task, 3);
    IS(phase, 2);
    GETS_NONE(&phaser, 3, PHASE_E_NOT_YET);
    IS(signals(&phaser, 1, NULL, 0, &phase), PHASE_OK);
    IS(phase, 2);
    GETS(&phaser, 3, 2, 0);
    GETS(&phaser, 2, 0, 10);
    IS(phase_phaser_register_now(&phaser, 1, &task, &phase), PHASE_E_NOT_ALLOWED);
    IS(phase_phaser_register_now(&phaser, 9, &task, &phase), PHASE_E_NO_TASK);
    IS(task, 3);
    IS(phase, 2);
    phase_phaser_free(&phaser);
}

/* The script singles; then each other single on 5 or -5, and the end of the stream. */
static void singles(void)
{
    phase_phaser phaser = {0};
    uint64_t phase = 77, task = 77;
    const int64_t five = 5, less = -5;
    IS(phase_phaser_new(PHASE_SUM, 2, 100, &phaser), PHASE_OK);
    IS(phase_phaser_register(&phaser, 0, PHASE_WAIT, &task), PHASE_OK);
    IS(phase_phaser_register(&phaser, 0, PHASE_SIG_WAIT, &task), PHASE_OK);
    IS(phase_phaser_signal(&phaser, 0, &five, 1, PHASE_HALVE, 0, 0, &phase), PHASE_OK);
    IS(phase, 0);
    IS(signals(&phaser, 2, NULL, 0, &phase), PHASE_E_SINGLE_DIFFERS);
    IS(phase_phaser_signal(&phaser, 2, NULL, 0, PHASE_HALVE, 0, 0, &phase), PHASE_E_NOT_SINGLE);
    IS(phase_phaser_drop(&phaser, 2), PHASE_OK);
    GETS(&phaser, 0, 0, 2);
    GETS(&phaser, 1, 0, 2);
    IS(phase_phaser_signal(&phaser, 0, &five, 1, PHASE_CLAMP, -3, 3, &phase), PHASE_OK);
    IS(phase, 1);
    GETS(&phaser, 0, 1, 3);
    IS(phase_phaser_signal(&phaser, 0, &five, 1, PHASE_NEG, 1, 0, &phase), PHASE_OK);
    GETS(&phaser, 0, 2, -5);
    GETS(&phaser, 1, 1, 3);
    GETS(&phaser, 1, 2, -5);
    IS(phase_phaser_signal(&phaser, 0, &less, 1, PHASE_ABS, 0, 0, &phase), PHASE_OK);
    GETS(&phaser, 0, 3, 5);
    IS(phase_phaser_signal(&phaser, 0, &less, 1, PHASE_HALVE, 0, 0, &phase), PHASE_OK);
    GETS(&phaser, 0, 4, -3);
    IS(phase_phaser_drop(&phaser, 0), PHASE_OK);
    GETS(&phaser, 1, 3, 5);
    GETS(&phaser, 1, 4, -3);
    GETS_NONE(&phaser, 1, PHASE_ENDED);
    GETS_NONE(&phaser, 1, PHASE_ENDED);
    phase_phaser_free(&phaser);
}

/* The script ending: a signaller that leaves completes what it has not signalled. */
static void ending(void)
{
    phase_phaser phaser = {0};
    uint64_t phase = 77, task = 77;
    const int64_t sends[4] = {1, 10, 20, 30};
    IS(phase_phaser_new(PHASE_SUM, 4, 100, &phaser), PHASE_OK);
    IS(phase_phaser_register(&phaser, 0, PHASE_SIG, &task), PHASE_OK);
    IS(phase_phaser_register(&phaser, 0, PHASE_SIG, &task), PHASE_OK);
    IS(phase_phaser_register(&phaser, 0, PHASE_WAIT, &task), PHASE_OK);
    IS(phase_phaser_drop(&phaser, 0), PHASE_OK);
    IS(signals(&phaser, 1, &sends[0], 1, &phase), PHASE_OK);
    for (uint64_t at = 0; at < 3; at++) {
        IS(signals(&phaser, 2, &sends[1 + at], 1, &phase), PHASE_OK);
        IS(phase, at);
    }
    IS(phase_phaser_drop(&phaser, 2), PHASE_OK);
    GETS(&phaser, 3, 0, 11);
    GETS_NONE(&phaser, 3, PHASE_E_NOT_YET);
    IS(phase_phaser_drop(&phaser, 1), PHASE_OK);
    GETS(&phaser, 3, 1, 20);
    GETS(&phaser, 3, 2, 30);
    GETS_NONE(&phaser, 3, PHASE_ENDED);
    phase_phaser_free(&phaser);
}

/* Every call of a struct of zeros, and good and bad numbers for a phaser. */
static void made(void)
{
    phase_phaser phaser = {0};
    phase_standing standing = {1, 2, 3};
    uint64_t phase = 7, task = 8;
    const int64_t one = 1;
    IS(signals(&phaser, 0, &one, 1, &phase), PHASE_E_NO_PHASER);
    GETS_NONE(&phaser, 0, PHASE_E_NO_PHASER);
    IS(phase_phaser_register(&phaser, 0, PHASE_SIG, &task), PHASE_E_NO_PHASER);
    IS(phase_phaser_register_now(&phaser, 0, &task, &phase), PHASE_E_NO_PHASER);
    IS(phase_phaser_drop(&phaser, 0), PHASE_E_NO_PHASER);
    IS(phase_phaser_view(&phaser, 0, &standing), PHASE_E_NO_PHASER);
    phase_phaser_free(&phaser);
    IS(phase, 7);
    IS(task, 8);
    IS(standing.signal_phase, 1);
    IS(standing.wait_phase, 2);
    IS(standing.mode, 3);
    IS(phase_phaser_new(0, 2, 100, &phaser), PHASE_E_BAD_OPERATION);
    IS(phase_phaser_new(PHASE_ANY + 1, 0, 0, &phaser), PHASE_E_BAD_OPERATION);
    IS(phase_phaser_new(PHASE_SUM, 0, 0, &phaser), PHASE_E_BAD_BOUND);
    IS(phase_phaser_new(PHASE_SUM, PHASE_BOUND_MAX + 1, 100, &phaser), PHASE_E_BAD_BOUND);
    IS(phase_phaser_new(PHASE_SUM, 2, 0, &phaser), PHASE_E_BAD_PHASES);
    IS(phase_phaser_new(PHASE_SUM, 2, PHASE_PHASES_MAX + UINT64_C(1), &phaser), PHASE_E_BAD_PHASES);
    IS(phaser.live, false);
    IS(phase_phaser_new(PHASE_SUM, PHASE_BOUND_MAX, PHASE_PHASES_MAX, &phaser), PHASE_OK);
    const void *at = phaser.at;
    IS(phase_phaser_new(PHASE_SUM, 2, 100, &phaser), PHASE_E_HAS_PHASER);
    IS(phaser.at == at && phaser.live, true);
    phase_phaser_free(&phaser);
}

/* Each refusal of a signal, a wait and a registration, and the last phase. */
static void refused(void)
{
    static const int64_t zeros[PHASE_SENDS_MAX + 1];
    phase_phaser phaser = {0};
    uint64_t phase = 7, task = 8;
    const int64_t low = INT64_MIN, one = 1;
    IS(phase_phaser_new(PHASE_SUM, 2, 3, &phaser), PHASE_OK);
    IS(phase_phaser_register(&phaser, 0, 0, &task), PHASE_E_BAD_MODE);
    IS(phase_phaser_register(&phaser, 0, PHASE_SINGLE + 1, &task), PHASE_E_BAD_MODE);
    IS(phase_phaser_register(&phaser, 1, PHASE_SIG, &task), PHASE_E_NO_TASK);
    IS(signals(&phaser, 0, &low, 1, &phase), PHASE_E_BAD_VALUE);
    IS(signals(&phaser, 0, zeros, PHASE_SENDS_MAX + 1, &phase), PHASE_E_TOO_MANY_SENDS);
    IS(phase_phaser_signal(&phaser, 0, &one, 1, PHASE_CLAMP + 1, 0, 0, &phase), PHASE_E_BAD_SINGLE);
    IS(phase_phaser_signal(&phaser, 0, &one, 1, PHASE_CLAMP, 1, 0, &phase), PHASE_E_BAD_SINGLE);
    IS(phase_phaser_signal(&phaser, 0, &one, 1, PHASE_CLAMP, INT64_MIN, 0, &phase),
       PHASE_E_BAD_SINGLE);
    IS(signals(&phaser, 5, &one, 1, &phase), PHASE_E_NO_TASK);
    IS(phase_phaser_drop(&phaser, UINT64_MAX), PHASE_E_NO_TASK);
    GETS_NONE(&phaser, 0, PHASE_E_SIGNAL_FIRST);
    GETS_NONE(&phaser, 5, PHASE_E_NO_TASK);
    IS(phase, 7);
    IS(task, 8);
    IS(phase_phaser_register(&phaser, 0, PHASE_SIG, &task), PHASE_OK);
    IS(phase_phaser_register(&phaser, 0, PHASE_WAIT, &task), PHASE_OK);
    IS(signals(&phaser, 0, zeros, PHASE_SENDS_MAX, &phase), PHASE_OK);
    IS(signals(&phaser, 0, NULL, 0, &phase), PHASE_E_SIGNAL_TWICE);
    IS(signals(&phaser, 1, &one, 1, &phase), PHASE_E_PHASE_FULL);
    IS(signals(&phaser, 2, NULL, 0, &phase), PHASE_E_NO_SIGNAL);
    GETS_NONE(&phaser, 1, PHASE_E_NO_WAIT);
    IS(phase_phaser_drop(&phaser, 1), PHASE_OK);
    IS(phase_phaser_drop(&phaser, 2), PHASE_OK);
    for (uint64_t at = 0; at < 2; at++) {
        GETS(&phaser, 0, at, 0);
        IS(signals(&phaser, 0, NULL, 0, &phase), PHASE_OK);
    }
    GETS(&phaser, 0, 2, 0);
    IS(signals(&phaser, 0, NULL, 0, &phase), PHASE_E_SPENT);
    IS(phase, 2);
    /* The founder and 1,023 others, of the numbers from 3 on. */
    for (uint64_t more = 3; more < PHASE_MEMBERS_MAX + 2; more++) {
        IS(phase_phaser_register(&phaser, 0, PHASE_SIG_WAIT, &task), PHASE_OK);
        IS(task, more);
    }
    IS(phase_phaser_register(&phaser, 0, PHASE_SIG_WAIT, &task), PHASE_E_TOO_MANY_TASKS);
    IS(phase_phaser_register(&phaser, 3, PHASE_SINGLE, &task), PHASE_E_NOT_ALLOWED);
    IS(task, PHASE_MEMBERS_MAX + 1);
    IS(phase_phaser_drop(&phaser, 3), PHASE_OK);
    IS(phase_phaser_register(&phaser, 0, PHASE_SIG_WAIT, &task), PHASE_OK);
    IS(task, PHASE_MEMBERS_MAX + 2);
    phase_phaser_free(&phaser);
}

/* A signal of a block with no single. */
static int32_t signals_block(phase_phaser *phaser, uint64_t task, const int64_t *values,
                             size_t count, uint64_t *phase)
{
    return phase_phaser_signal_block(phaser, task, values, count, PHASE_NO_SINGLE, 0, 0, phase);
}

/* A wait for at most `places` phases that is answered with the first and with these values, and
 * leaves what stands behind them. */
static void gets_block(int line, phase_phaser *phaser, uint64_t task, size_t places, uint64_t first,
                       size_t wanted, const int64_t *values)
{
    int64_t got[8] = {77, 77, 77, 77, 77, 77, 77, 77};
    uint64_t phase = 77;
    size_t count = 77;
    is(line, "the status of a block",
       phase_phaser_wait_block(phaser, task, got, places, &phase, &count), PHASE_OK);
    is(line, "the first phase", (int64_t)phase, (int64_t)first);
    is(line, "the number of phases", (int64_t)count, (int64_t)wanted);
    for (size_t at = 0; at < 8; at++)
        is(line, "a value of the block", got[at], at < wanted ? values[at] : 77);
}

/* A wait for at most `places` phases that is answered so, and writes nothing. */
static void gets_no_block(int line, phase_phaser *phaser, uint64_t task, size_t places,
                          int32_t status)
{
    int64_t got[8] = {77, 77, 77, 77, 77, 77, 77, 77};
    uint64_t phase = 77;
    size_t count = 77;
    is(line, "the status of no block",
       phase_phaser_wait_block(phaser, task, got, places, &phase, &count), status);
    is(line, "the phase of no block", (int64_t)phase, 77);
    is(line, "the number of no block", (int64_t)count, 77);
    for (size_t at = 0; at < 8; at++)
        is(line, "a place of no block", got[at], 77);
}

/* Blocks under bound 4: the waiter at phase 2 lets phases up to 5 be signalled, and gets them in
 * order. */
static void blocks(void)
{
    phase_phaser phaser = {0};
    phase_standing standing;
    uint64_t phase = 77, task = 77;
    const int64_t first[3] = {10, 20, 30}, more[4] = {40, 50, 60, 70}, behind[4] = {30, 40, 50, 60};
    IS(phase_phaser_new(PHASE_SUM, 4, 100, &phaser), PHASE_OK);
    IS(phase_phaser_register(&phaser, 0, PHASE_SIG, &task), PHASE_OK);
    IS(phase_phaser_register(&phaser, 0, PHASE_WAIT, &task), PHASE_OK);
    IS(phase_phaser_drop(&phaser, 0), PHASE_OK);
    gets_no_block(__LINE__, &phaser, 2, 4, PHASE_E_NOT_YET);
    IS(signals_block(&phaser, 1, first, 3, &phase), PHASE_OK);
    IS(phase, 0);
    gets_no_block(__LINE__, &phaser, 2, 0, PHASE_E_BAD_BLOCK);
    gets_no_block(__LINE__, &phaser, 2, 5, PHASE_E_BAD_BLOCK);
    gets_block(__LINE__, &phaser, 2, 2, 0, 2, first);
    /* The last of these would be phase 6. */
    IS(signals_block(&phaser, 1, more, 4, &phase), PHASE_E_AHEAD);
    IS(phase, 0);
    IS(phase_phaser_view(&phaser, 1, &standing), PHASE_OK);
    IS(standing.signal_phase, 3);
    IS(signals_block(&phaser, 1, more, 3, &phase), PHASE_OK);
    IS(phase, 3);
    IS(signals_block(&phaser, 1, more, 1, &phase), PHASE_E_AHEAD);
    IS(phase, 3);
    gets_block(__LINE__, &phaser, 2, 4, 2, 4, behind);
    gets_no_block(__LINE__, &phaser, 2, 4, PHASE_E_NOT_YET);
    IS(signals_block(&phaser, 1, first, 1, &phase), PHASE_OK);
    IS(phase, 6);
    IS(phase_phaser_drop(&phaser, 1), PHASE_OK);
    gets_block(__LINE__, &phaser, 2, 4, 6, 1, first);
    gets_no_block(__LINE__, &phaser, 2, 4, PHASE_ENDED);
    gets_no_block(__LINE__, &phaser, 2, 5, PHASE_E_BAD_BLOCK);
    phase_phaser_free(&phaser);
}

/* Two tasks whose blocks meet, phases with no value, and a single. */
static void blocks_that_meet(void)
{
    phase_phaser phaser = {0};
    uint64_t phase = 77, task = 77;
    const int64_t most[2] = {INT64_MAX, 1}, other[2] = {1, 2}, sums[2] = {INT64_MIN, 3};
    const int64_t five = 5, half = 2, none = INT64_MIN;
    IS(phase_phaser_new(PHASE_SUM, 2, 100, &phaser), PHASE_OK);
    IS(phase_phaser_register(&phaser, 0, PHASE_SIG, &task), PHASE_OK);
    IS(phase_phaser_register(&phaser, 0, PHASE_SIG, &task), PHASE_OK);
    IS(phase_phaser_register(&phaser, 0, PHASE_WAIT, &task), PHASE_OK);
    IS(phase_phaser_drop(&phaser, 0), PHASE_OK);
    IS(signals_block(&phaser, 1, most, 2, &phase), PHASE_OK);
    IS(phase, 0);
    gets_no_block(__LINE__, &phaser, 3, 2, PHASE_E_NOT_YET);
    IS(signals_block(&phaser, 2, other, 2, &phase), PHASE_OK);
    IS(phase, 0);
    gets_block(__LINE__, &phaser, 3, 2, 0, 2, sums);
    phase_phaser_free(&phaser);
    IS(phase_phaser_new(PHASE_LEAST, 2, 100, &phaser), PHASE_OK);
    IS(signals(&phaser, 0, NULL, 0, &phase), PHASE_OK);
    gets_block(__LINE__, &phaser, 0, 2, 0, 1, &none);
    IS(phase_phaser_signal_block(&phaser, 0, &five, 1, PHASE_HALVE, 0, 0, &phase), PHASE_OK);
    IS(phase, 1);
    gets_block(__LINE__, &phaser, 0, 1, 1, 1, &half);
    IS(phase_phaser_signal_block(&phaser, 0, &five, 1, PHASE_CLAMP, -2, 2, &phase), PHASE_OK);
    gets_block(__LINE__, &phaser, 0, 2, 2, 1, &half);
    phase_phaser_free(&phaser);
}

/* Each refusal of a block, of which the last row that it meets tells. */
static void refused_blocks(void)
{
    static int64_t zeros[PHASE_BOUND_MAX + 1];
    phase_phaser phaser = {0};
    uint64_t phase = 7, task = 8;
    size_t count = 9;
    const int64_t values[3] = {1, 2, INT64_MIN};
    IS(signals_block(&phaser, 0, values, 2, &phase), PHASE_E_NO_PHASER);
    gets_no_block(__LINE__, &phaser, 0, 2, PHASE_E_NO_PHASER);
    IS(phase_phaser_new(PHASE_SUM, 2, 3, &phaser), PHASE_OK);
    IS(phase_phaser_signal_block(&phaser, 0, values, 3, PHASE_CLAMP + 1, 0, 0, &phase),
       PHASE_E_BAD_SINGLE);
    IS(phase_phaser_signal_block(&phaser, 0, values, 1, PHASE_CLAMP, 1, 0, &phase),
       PHASE_E_BAD_SINGLE);
    IS(signals_block(&phaser, 9, values, 3, &phase), PHASE_E_BAD_VALUE);
    IS(signals_block(&phaser, 9, values, 2, &phase), PHASE_E_NO_TASK);
    IS(signals_block(&phaser, 0, NULL, 0, &phase), PHASE_E_BAD_BLOCK);
    IS(signals_block(&phaser, 0, zeros, 3, &phase), PHASE_E_BAD_BLOCK);
    IS(signals_block(&phaser, 0, zeros, PHASE_BOUND_MAX + 1, &phase), PHASE_E_BAD_BLOCK);
    /* The founder waits too, so that it signals one phase at a time. */
    IS(signals_block(&phaser, 0, values, 2, &phase), PHASE_E_SIGNAL_TWICE);
    gets_no_block(__LINE__, &phaser, 0, 1, PHASE_E_SIGNAL_FIRST);
    gets_no_block(__LINE__, &phaser, 9, 1, PHASE_E_NO_TASK);
    IS(phase_phaser_wait_block(&phaser, 0, zeros, PHASE_BOUND_MAX + 1, &phase, &count),
       PHASE_E_BAD_BLOCK);
    IS(phase_phaser_register(&phaser, 0, PHASE_SIG, &task), PHASE_OK);
    IS(phase_phaser_register(&phaser, 0, PHASE_WAIT, &task), PHASE_OK);
    IS(phase_phaser_signal_block(&phaser, 1, values, 1, PHASE_NEG, 0, 0, &phase),
       PHASE_E_NOT_SINGLE);
    IS(signals_block(&phaser, 2, values, 1, &phase), PHASE_E_NO_SIGNAL);
    gets_no_block(__LINE__, &phaser, 1, 1, PHASE_E_NO_WAIT);
    IS(phase_phaser_signal_block(&phaser, 0, values, 1, PHASE_NEG, 0, 0, &phase), PHASE_OK);
    IS(phase, 0);
    IS(signals_block(&phaser, 1, values, 2, &phase), PHASE_E_SINGLE_DIFFERS);
    IS(phase, 0);
    IS(phase_phaser_drop(&phaser, 2), PHASE_OK);
    IS(phase_phaser_drop(&phaser, 0), PHASE_OK);
    IS(signals_block(&phaser, 1, values, 2, &phase), PHASE_OK);
    IS(phase, 0);
    /* The phaser was made for three phases. */
    IS(signals_block(&phaser, 1, values, 2, &phase), PHASE_E_SPENT);
    IS(signals_block(&phaser, 1, values, 1, &phase), PHASE_OK);
    IS(phase, 2);
    IS(task, 2);
    IS(count, 9);
    phase_phaser_free(&phaser);
}

/* What a thread of its own makes of a phaser: the first makes it and signals, the second gets the
 * phase, registers a waiter and signals again, the third gets that phase by the waiter and frees
 * the phaser. */
static void *makes(void *phaser)
{
    const int64_t values[2] = {4, 5};
    uint64_t phase = 77;
    IS(phase_phaser_new(PHASE_SUM, 1000, 100, phaser), PHASE_OK);
    IS(signals(phaser, 0, values, 2, &phase), PHASE_OK);
    IS(phase, 0);
    return NULL;
}

static void *uses(void *phaser)
{
    const int64_t values[2] = {6, -1};
    uint64_t phase = 77, task = 77;
    IS(phase_phaser_register(phaser, 0, PHASE_WAIT, &task), PHASE_OK);
    IS(task, 1);
    GETS(phaser, 0, 0, 9);
    IS(signals(phaser, 0, values, 2, &phase), PHASE_OK);
    IS(phase, 1);
    return NULL;
}

static void *frees(void *phaser)
{
    GETS(phaser, 1, 0, 9);
    GETS(phaser, 1, 1, 5);
    GETS_NONE(phaser, 1, PHASE_E_NOT_YET);
    phase_phaser_free(phaser);
    IS(((phase_phaser *)phaser)->live, false);
    return NULL;
}

/* Each thread ends before the next begins, so that the calls come one at a time. */
static void three_threads(void)
{
    void *(*const threads[3])(void *) = {makes, uses, frees};
    phase_phaser phaser = {0};
    for (int i = 0; i < 3; i++) {
        pthread_t thread;
        int begun = pthread_create(&thread, NULL, threads[i], &phaser);
        IS(begun || pthread_join(thread, NULL), 0);
    }
}

/* Two threads that take turns on one phaser by a lock: each signals, and gets the sum of one send
 * of either. */
static struct turns {
    phase_phaser phaser;
    pthread_mutex_t lock;
    bool stopped;
    int right[2];
} turns = {.lock = PTHREAD_MUTEX_INITIALIZER};

#define TURNS 2000

/* A signal, or a wait, behind the call before it; PHASE_ENDED where the other thread stopped. */
static int32_t in_turn(bool waits, uint64_t task, uint64_t *phase, int64_t *value)
{
    pthread_mutex_lock(&turns.lock);
    int32_t status = turns.stopped ? PHASE_ENDED
                     : waits       ? phase_phaser_wait(&turns.phaser, task, phase, value)
                                   : signals(&turns.phaser, task, value, 1, phase);
    pthread_mutex_unlock(&turns.lock);
    return status;
}

static void *takes_turns(void *right)
{
    uint64_t task = (uint64_t)((int *)right - turns.right), phase = 77;
    bool is_right = true;
    for (uint64_t at = 0; at < TURNS && is_right; at++) {
        int64_t value = (int64_t)task + 1;
        is_right = in_turn(false, task, &phase, &value) == PHASE_OK && phase == at;
        int32_t status = PHASE_E_NOT_YET;
        while (is_right && (status = in_turn(true, task, &phase, &value)) == PHASE_E_NOT_YET)
            sched_yield();
        is_right = is_right && status == PHASE_OK && phase == at && value == 3;
        *(int *)right += is_right;
    }
    pthread_mutex_lock(&turns.lock);
    turns.stopped = turns.stopped || !is_right;
    pthread_mutex_unlock(&turns.lock);
    return NULL;
}

static void two_threads_in_turn(void)
{
    pthread_t threads[2];
    uint64_t task = 77;
    IS(phase_phaser_new(PHASE_SUM, 2, TURNS, &turns.phaser), PHASE_OK);
    IS(phase_phaser_register(&turns.phaser, 0, PHASE_SIG_WAIT, &task), PHASE_OK);
    IS(task, 1);
    for (int i = 0; i < 2; i++)
        if (pthread_create(threads + i, NULL, takes_turns, turns.right + i))
            exit(1);
    for (int i = 0; i < 2; i++)
        pthread_join(threads[i], NULL);
    IS(turns.right[0], TURNS);
    IS(turns.right[1], TURNS);
    phase_phaser_free(&turns.phaser);
}

int main(void)
{
    operations();
    members();
    late();
    singles();
    ending();
    made();
    refused();
    blocks();
    blocks_that_meet();
    refused_blocks();
    three_threads();
    two_threads_in_turn();
    printf("handle: %d passed, %d failed\n", passed, failed);
    return failed != 0 || passed == 0;
}
