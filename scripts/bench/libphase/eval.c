#define _POSIX_C_SOURCE 200809L
#include "phase.h"
#include <stdio.h>
#include <stdlib.h>
#include <string.h>
#include <time.h>

static double now(void)
{
    struct timespec at;
    clock_gettime(CLOCK_PROCESS_CPUTIME_ID, &at);
    return at.tv_sec + at.tv_nsec / 1e9;
}

int main(int argc, char **argv)
{
    enum { N = 1000000 };
    static char text[4096];
    int64_t *in = malloc(sizeof(int64_t) * N), *out = malloc(sizeof(int64_t) * N), start;
    size_t count = N, found, length = fread(text, 1, sizeof text, fopen("graph", "rb"));
    FILE *samples = fopen("s.csv", "r");
    double least = 1e9, sizes = 1e9;
    phase_fault fault;
    for (int i = 0; i < N; i++)
        if (fscanf(samples, "%ld", in + i) != 1)
            return 1;
    for (int round = 0; round < atoi(argv[argc - 1]); round++) {
        double begin = now();
        if (phase_eval((uint8_t *)text, length, in, N, &count, 1, NULL, 0, &found, 1, &start, 1,
                       &fault)
            != PHASE_E_ROOM)
            return 1;
        double between = now();
        if (phase_eval((uint8_t *)text, length, in, N, &count, 1, out, N, &found, 1, &start, 1,
                       &fault)
            != PHASE_OK)
            return 1;
        double end = now();
        if (between - begin < sizes)
            sizes = between - begin;
        if (end - between < least)
            least = end - between;
    }
    FILE *values = fopen("c.out", "w");
    for (int i = 0; i < N; i++)
        fprintf(values, "%ld\n", out[i]);
    printf("C, phase_eval\t%.3f\nC, phase_eval for the sizes alone\t%.3f\n", least, sizes);
    return 0;
}
