/* Each request for memory of a phaser between threads refused in turn: the answer is
 * PHASE_E_MEMORY with all as it was, and what was refused is done when it is asked for again;
 * signals and waits ask for none; and a hundred thousand phasers, and as many children, give all
 * back. Linked with --wrap of malloc, realloc and free. */
#include "phase_shared.h"
#include <stdio.h>
#include <string.h>

void *__real_malloc(size_t);
void *__real_realloc(void *, size_t);
void __real_free(void *);

/* How many requests are still granted, or -1 where all are; how many blocks are held; how many
 * requests came. */
static long granted = -1, held, asked;

static int is_refused(void)
{
    asked++;
    return granted >= 0 && granted-- == 0;
}

void *__wrap_malloc(size_t size)
{
    void *block = is_refused() ? NULL : __real_malloc(size);
    held += block != NULL;
    return block;
}

void *__wrap_realloc(void *block, size_t size)
{
    void *grown = is_refused() ? NULL : __real_realloc(block, size);
    held += !block && grown;
    return grown;
}

void __wrap_free(void *block)
{
    held -= block != NULL;
    __real_free(block);
}

enum { CHILDREN = 40, PHASERS = 100000 };

static const int64_t one = 1;

/* How often a call was told of want of memory, and how many faults there were. */
static long told, faults;

static void has(int is_so, const char *what)
{
    if (!is_so)
        printf("shared_memory: not so: %s\n", what);
    faults += !is_so;
}

/* Registers child number `at`, and again where it was refused for want of memory. */
static int32_t registers(phase_registration *founder, phase_registration *child, int at)
{
    uint64_t phase = 77;
    for (;;) {
        int32_t status = at % 4 == 3 ? phase_shared_register_now(founder, child, &phase)
                                     : phase_shared_register(founder, PHASE_SIG_WAIT, child);
        if (status != PHASE_E_MEMORY)
            return status;
        told++;
        has(!child->member.live && child->gate == NULL && phase == 77, "a refused child is none");
    }
}

/* Ten phases of all, in which nobody asks for memory. */
static void meet(phase_registration *founder, phase_registration *children)
{
    long asked_so_far = asked;
    uint64_t phase = 77;
    int64_t value = 77;
    const int64_t wanted = 1 + CHILDREN / 4 * 3;
    for (uint64_t at = 0; at < 10; at++) {
        for (int child = 0; child < CHILDREN; child++)
            if (child % 4 != 3)
                has(phase_shared_signal(&children[child], &one, 1, PHASE_NO_SINGLE, 0, 0, &phase)
                        == PHASE_OK,
                    "a signal");
        has(phase_shared_next(founder, &one, 1, PHASE_NO_SINGLE, 0, 0, &phase, &value) == PHASE_OK
                && phase == at && value == wanted,
            "next");
        for (int child = 0; child < CHILDREN; child++)
            has(phase_shared_wait(&children[child], &phase, &value) == PHASE_OK && phase == at
                    && value == wanted,
                "a wait");
    }
    has(asked == asked_so_far, "signals and waits take no memory");
}

/* A phaser of 41, with this request refused: whether there was no such request. */
static int members(long request)
{
    phase_registration founder = PHASE_REGISTRATION_INIT, children[CHILDREN];
    memset(children, 0, sizeof children);
    granted = request;
    int32_t status = phase_shared_new(PHASE_SUM, 4, 100, &founder);
    if (status == PHASE_E_MEMORY) {
        told++;
        has(!founder.member.live && founder.gate == NULL && held == 0, "a refused founder is none");
        status = phase_shared_new(PHASE_SUM, 4, 100, &founder);
    }
    has(status == PHASE_OK, "new");
    for (int at = 0; at < CHILDREN; at++)
        has(registers(&founder, &children[at], at) == PHASE_OK, "register");
    int is_done = granted >= 0;
    granted = -1;
    meet(&founder, children);
    for (int at = 0; at < CHILDREN; at++)
        has(phase_shared_leave(&children[at]) == PHASE_OK, "leave");
    has(phase_shared_leave(&founder) == PHASE_OK, "leave");
    return is_done;
}

/* The same of a block of three phases that is signalled and got. */
static int blocks(long request)
{
    phase_registration founder = PHASE_REGISTRATION_INIT, signaller = PHASE_REGISTRATION_INIT;
    const int64_t values[3] = {4, 5, 6};
    int64_t got[4] = {77, 77, 77, 77};
    uint64_t phase = 77;
    size_t count = 77;
    has(phase_shared_new(PHASE_SUM, 4, 100, &founder) == PHASE_OK, "new");
    has(phase_shared_register(&founder, PHASE_SIG, &signaller) == PHASE_OK, "register");
    phase_registration waiter = PHASE_REGISTRATION_INIT;
    has(phase_shared_register(&founder, PHASE_WAIT, &waiter) == PHASE_OK, "register");
    has(phase_shared_leave(&founder) == PHASE_OK, "leave");
    granted = request;
    int32_t status;
    while ((status = phase_shared_signal_block(&signaller, values, 3, PHASE_NO_SINGLE, 0, 0,
                                               &phase)) == PHASE_E_MEMORY) {
        told++;
        has(phase == 77, "a refused block is not signalled");
    }
    has(status == PHASE_OK && phase == 0, "a block of signals");
    while ((status = phase_shared_wait_block(&waiter, got, 4, &phase, &count)) == PHASE_E_MEMORY) {
        told++;
        has(count == 77 && got[0] == 77, "a refused block is not got");
    }
    has(status == PHASE_OK && phase == 0 && count == 3 && got[3] == 77
            && !memcmp(got, values, sizeof values),
        "a block of waits");
    int is_done = granted >= 0;
    granted = -1;
    has(phase_shared_leave(&signaller) == PHASE_OK, "leave");
    has(phase_shared_leave(&waiter) == PHASE_OK, "leave");
    return is_done;
}

static long all_refused(int (*call)(long))
{
    int is_done = 0;
    long request = 0;
    while (!is_done) {
        held = 0;
        is_done = call(request++);
        has(held == 0, "all memory is given back");
    }
    return request - 1;
}

static void many_phasers(void)
{
    held = 0;
    for (int at = 0; at < PHASERS; at++) {
        phase_registration founder = PHASE_REGISTRATION_INIT, child = PHASE_REGISTRATION_INIT;
        uint64_t phase = 77;
        int64_t value = 77;
        has(phase_shared_new(PHASE_SUM, 2, 10, &founder) == PHASE_OK
                && phase_shared_register(&founder, PHASE_SIG, &child) == PHASE_OK
                && phase_shared_leave(&child) == PHASE_OK
                && phase_shared_next(&founder, &one, 1, PHASE_NO_SINGLE, 0, 0, &phase, &value)
                       == PHASE_OK
                && value == 1 && phase_shared_leave(&founder) == PHASE_OK,
            "one of many phasers");
    }
    has(held == 0, "many phasers give all memory back");
}

int main(void)
{
    long requests = all_refused(members) + all_refused(blocks);
    many_phasers();
    printf("shared_memory: %ld requests, each refused in turn: %ld told, %ld faults; %d phasers\n",
           requests, told, faults, PHASERS);
    return faults != 0 || told == 0;
}
