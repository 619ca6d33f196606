/* Samples a second through a graph that is fed by blocks, from one source to one sink: what it
 * prints is how many values came out, their sum, and the processor seconds.
 *
 *     fed GRAPH COUNT BLOCK */
#define _POSIX_C_SOURCE 200809L
#include "phase.h"
#include <inttypes.h>
#include <stdio.h>
#include <stdlib.h>
#include <string.h>
#include <time.h>

enum { PLACES = 4096 };

static double seconds(void)
{
    struct timespec now;
    clock_gettime(CLOCK_PROCESS_CPUTIME_ID, &now);
    return (double)now.tv_sec + (double)now.tv_nsec / 1e9;
}

/* Feeds the samples, runs, and adds up what the sink got: whether each call was done. */
static int feeds(phase_stream *stream, const int64_t *samples, size_t count, uint64_t *many,
                 uint64_t *sum)
{
    int64_t values[PLACES];
    size_t took = 0, came = 0;
    phase_stop stop;
    for (size_t fed = 0; fed < count; fed += took) {
        if (phase_stream_feed(stream, 0, samples + fed, count - fed, &took) != PHASE_OK
            || phase_stream_run(stream, &stop) != PHASE_OK
            || (stop.kind != PHASE_HUNGRY && stop.kind != PHASE_FULL)
            || phase_stream_take(stream, 0, values, PLACES, &came) != PHASE_OK)
            return 0;
        *many += came;
        for (size_t i = 0; i < came; i++)
            *sum += (uint64_t)values[i];
    }
    return 1;
}

int main(int argc, char **argv)
{
    static char text[4096];
    FILE *file = argc == 4 ? fopen(argv[1], "rb") : NULL;
    if (!file)
        return 2;
    size_t length = fread(text, 1, sizeof text, file), count = strtoull(argv[2], NULL, 10),
           block = strtoull(argv[3], NULL, 10);
    int64_t *samples = malloc(count * sizeof *samples);
    uint64_t state = 0, many = 0, sum = 0;
    phase_stream stream = PHASE_STREAM_INIT;
    phase_fault fault;
    for (size_t i = 0; i < count; i++) {
        state = (state * 1103515 + 12345) % 2147483648;
        samples[i] = (int64_t)(state / 1024) - 1048576;
    }
    if (phase_stream_new((const uint8_t *)text, length, &stream, &fault) != PHASE_OK)
        return 1;
    double begun = seconds();
    for (size_t at = 0; at < count; at += block)
        if (!feeds(&stream, samples + at, block < count - at ? block : count - at, &many, &sum))
            return 1;
    printf("%" PRIu64 " %" PRId64 " %.6f\n", many, (int64_t)sum, seconds() - begun);
    phase_stream_free(&stream);
    free(samples);
    fclose(file);
    return 0;
}
