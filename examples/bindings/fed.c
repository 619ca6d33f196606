/* A graph that is fed: reads a number a line, and writes each value as soon as it is there. */
#include "phase.h"
#include <inttypes.h>
#include <stdio.h>
#include <string.h>

int main(void)
{
    const char *graph = "phaser x sum 4\n"
                        "phaser y sum 4\n"
                        "source s s.csv -> x\n"
                        "fir f x -> y shift 1 taps 1 1\n"
                        "sink out y\n";
    phase_stream stream = PHASE_STREAM_INIT;
    phase_fault fault;
    phase_stop stop = {0};
    int64_t sample, values[8];
    size_t took, count;
    int32_t status = phase_stream_new((const uint8_t *)graph, strlen(graph), &stream, &fault);
    while (status == PHASE_OK && stop.kind != PHASE_DONE) {
        if (scanf("%" SCNd64, &sample) == 1)
            status = phase_stream_feed(&stream, 0, &sample, 1, &took);
        else
            status = phase_stream_finish(&stream, 0);
        if (status == PHASE_OK)
            status = phase_stream_run(&stream, &stop);
        if (status == PHASE_OK)
            status = phase_stream_take(&stream, 0, values, 8, &count);
        for (size_t i = 0; status == PHASE_OK && i < count; i++)
            printf("%" PRId64 "\n", values[i]);
    }
    phase_stream_free(&stream);
    return status != PHASE_OK;
}
