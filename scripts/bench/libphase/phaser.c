#include "phase.h"
#include <stdio.h>

int main(void)
{
    const int64_t one = 1;
    uint64_t phase = 0;
    int64_t value = 0, sum = 0;
    phase_phaser phaser = {0};
    if (phase_phaser_new(PHASE_SUM, 2, PHASE_PHASES_MAX, &phaser) != PHASE_OK)
        return 1;
    for (int i = 0; i < 10000000; i++) {
        if (phase_phaser_signal(&phaser, 0, &one, 1, PHASE_NO_SINGLE, 0, 0, &phase) != PHASE_OK
            || phase_phaser_wait(&phaser, 0, &phase, &value) != PHASE_OK)
            return 1;
        sum += value;
    }
    phase_phaser_free(&phaser);
    printf("%ld\n", (long)sum);
    return 0;
}
