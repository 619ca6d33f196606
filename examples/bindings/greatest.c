/* A phaser for one thread: two tasks signal a phase, and its value is the greatest send. */
#include "phase.h"
#include <stdio.h>

int main(void)
{
    const int64_t sends[] = {4, -3, 9};
    int64_t value;
    uint64_t other, phase;
    phase_phaser phaser = {0};
    int32_t status = phase_phaser_new(PHASE_GREATEST, 2, 100, &phaser);
    if (status == PHASE_OK)
        status = phase_phaser_register(&phaser, 0, PHASE_SIG, &other);
    if (status == PHASE_OK)
        status = phase_phaser_signal(&phaser, 0, sends, 2, PHASE_NO_SINGLE, 0, 0, &phase);
    if (status == PHASE_OK)
        status = phase_phaser_signal(&phaser, other, sends + 2, 1, PHASE_NO_SINGLE, 0, 0, &phase);
    if (status == PHASE_OK)
        status = phase_phaser_wait(&phaser, 0, &phase, &value);
    if (status == PHASE_OK)
        printf("phase %lu: %ld\n", (unsigned long)phase, (long)value);
    phase_phaser_free(&phaser);
    return status != PHASE_OK;
}
