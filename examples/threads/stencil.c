/* Four threads have eight cells of a bar each, which is hot at its left end. In each step a thread
 * tells its neighbours, and them alone, how hot the cells at its ends are: a number of 1/1048576. */
#include "phase_shared.h"
#include <pthread.h>
#include <stdio.h>

enum { PARTS = 4, CELLS = 8, STEPS = 400, SCALE = 1048576 };

/* A thread's way to another: the one signals, and the other waits. */
struct way {
    phase_registration sends, gets;
};

struct part {
    struct way *to_left, *from_left, *to_right, *from_right;
    pthread_t thread;
    double cells[CELLS];
};

static int opens(struct way *way)
{
    phase_registration founder = PHASE_REGISTRATION_INIT;
    int is_good = phase_shared_new(PHASE_SUM, 2, STEPS, &founder) == PHASE_OK
                  && phase_shared_register(&founder, PHASE_SIG, &way->sends) == PHASE_OK
                  && phase_shared_register(&founder, PHASE_WAIT, &way->gets) == PHASE_OK;
    phase_shared_leave(&founder);
    return is_good;
}

static void tell(struct way *way, double heat)
{
    const int64_t told = (int64_t)(heat * SCALE);
    if (way != NULL)
        phase_shared_signal(&way->sends, &told, 1, PHASE_NO_SINGLE, 0, 0, NULL);
}

static double get(struct way *way, double at_end)
{
    int64_t told = 0;
    if (way == NULL || phase_shared_wait(&way->gets, NULL, &told) != PHASE_OK)
        return at_end;
    return (double)told / SCALE;
}

static void *cools(void *of)
{
    struct part *part = of;
    double row[CELLS + 2];
    for (int step = 0; step < STEPS; step++) {
        tell(part->to_left, part->cells[0]);
        tell(part->to_right, part->cells[CELLS - 1]);
        row[0] = get(part->from_left, 100);
        row[CELLS + 1] = get(part->from_right, 0);
        for (int at = 0; at < CELLS; at++)
            row[at + 1] = part->cells[at];
        for (int at = 0; at < CELLS; at++)
            part->cells[at] = (row[at] + 2 * row[at + 1] + row[at + 2]) / 4;
    }
    if (part->to_left != NULL)
        phase_shared_leave(&part->to_left->sends);
    if (part->from_left != NULL)
        phase_shared_leave(&part->from_left->gets);
    if (part->to_right != NULL)
        phase_shared_leave(&part->to_right->sends);
    if (part->from_right != NULL)
        phase_shared_leave(&part->from_right->gets);
    return NULL;
}

int main(void)
{
    /* Between a part and the next one, a way to the right and one to the left. */
    static struct way rights[PARTS - 1], lefts[PARTS - 1];
    static struct part parts[PARTS];
    for (int at = 0; at < PARTS - 1; at++) {
        if (!opens(&rights[at]) || !opens(&lefts[at]))
            return 1;
        parts[at].to_right = &rights[at];
        parts[at].from_right = &lefts[at];
        parts[at + 1].to_left = &lefts[at];
        parts[at + 1].from_left = &rights[at];
    }
    for (int at = 0; at < PARTS; at++)
        if (pthread_create(&parts[at].thread, NULL, cools, &parts[at]) != 0)
            return 1;
    for (int at = 0; at < PARTS; at++) {
        double sum = 0;
        pthread_join(parts[at].thread, NULL);
        for (int cell = 0; cell < CELLS; cell++)
            sum += parts[at].cells[cell];
        printf(at < PARTS - 1 ? "%.3f " : "%.3f\n", sum / CELLS);
    }
    return 0;
}
