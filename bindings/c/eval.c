/* eval GRAPH: writes what `phase eval GRAPH` does, by phase.h. A file of samples has a number a
 * line. */
#define _POSIX_C_SOURCE 200809L
#include "phase.h"
#include <errno.h>
#include <inttypes.h>
#include <stdio.h>
#include <stdlib.h>
#include <string.h>

static void *or_stop(void *memory)
{
    if (!memory) {
        fprintf(stderr, "phase: out of memory\n");
        exit(5);
    }
    return memory;
}

/* The bytes of a file, with a 0 behind them. */
static char *bytes_of(const char *name, size_t *length)
{
    FILE *file = fopen(name, "rb");
    size_t room = 65536, count;
    char *text = or_stop(malloc(room));
    if (!file) {
        fprintf(stderr, "phase: read fault\n");
        exit(5);
    }
    *length = 0;
    while ((count = fread(text + *length, 1, room - *length - 1, file)) > 0) {
        *length += count;
        if (room - *length < 2)
            text = or_stop(realloc(text, room *= 2));
    }
    fclose(file);
    text[*length] = 0;
    return text;
}

/* What the lines of a good graph name: the file of each source, and each sink. */
struct named {
    char *files[PHASE_TASKS_MAX];
    char *sinks[PHASE_TASKS_MAX];
    size_t sources, kept;
};

static void names_of(char *text, struct named *named)
{
    char *lines, *words;
    named->sources = named->kept = 0;
    for (char *line = strtok_r(text, "\n", &lines); line; line = strtok_r(NULL, "\n", &lines)) {
        char *kind = strtok_r(line, " \t\r", &words);
        char *name = kind ? strtok_r(NULL, " \t\r", &words) : NULL;
        if (kind && !strcmp(kind, "source"))
            named->files[named->sources++] = strtok_r(NULL, " \t\r", &words);
        if (kind && !strcmp(kind, "sink"))
            named->sinks[named->kept++] = name;
    }
}

struct samples {
    int64_t *values;
    size_t room, used;
};

/* Puts the numbers of a file behind the samples, and answers how many they are. */
static size_t put_numbers(const char *name, struct samples *samples)
{
    size_t length, before = samples->used;
    char *text = bytes_of(name, &length), *end;
    for (char *at = text;; at = end) {
        errno = 0;
        long long value = strtoll(at, &end, 10);
        if (end == at || errno)
            break;
        if (samples->used == samples->room)
            samples->values =
                or_stop(realloc(samples->values, sizeof(int64_t) * (samples->room *= 2)));
        samples->values[samples->used++] = value;
    }
    free(text);
    return samples->used - before;
}

/* A graph's text, and how many of each it has. */
struct graph {
    const uint8_t *text;
    size_t length;
    phase_counts all;
};

/* The name of the phaser or task of a value that is out of range, with a 0 behind it. */
static char *place_of(const struct graph *graph, const phase_fault *fault)
{
    /* Each name stands in the text with a byte behind it, but for one at its end. */
    uint8_t *names = or_stop(malloc(graph->length + 1));
    size_t needed, above = fault->number + (fault->place == PHASE_AT_TASK ? graph->all.phasers : 0);
    phase_fault none;
    if (phase_all_names(graph->text, graph->length, names, graph->length + 1, &needed, &none)
        != PHASE_OK)
        or_stop(NULL);
    uint8_t *name = names, *end = memchr(names, '\n', needed);
    for (; above; above--) {
        name = end + 1;
        end = memchr(name, '\n', names + needed - name);
    }
    *end = 0;
    memmove(names, name, end + 1 - name);
    return (char *)names;
}

static int stop(int32_t status, const struct graph *graph, const phase_fault *fault)
{
    if (status == PHASE_E_GRAPH) {
        fprintf(stderr, "phase: graph line %" PRIu64 ": %s\n", fault->line,
                phase_kind_text(fault->kind));
    } else if (status == PHASE_E_TOO_BIG) {
        char *place = place_of(graph, fault);
        fprintf(stderr, "phase: too big at %s %" PRIu64 "\n", place, fault->at);
        free(place);
    } else {
        fprintf(stderr, "phase: %s\n", phase_status_text(status));
    }
    return status == PHASE_E_TOO_BIG ? 3 : status == PHASE_E_MEMORY ? 5 : 1;
}

int main(int argc, char **argv)
{
    if (argc != 2) {
        fprintf(stderr, "eval GRAPH\n");
        return 2;
    }
    struct graph graph;
    char *text = bytes_of(argv[1], &graph.length);
    graph.text = (const uint8_t *)text;
    const phase_counts *all = &graph.all;
    phase_fault fault;
    int32_t status = phase_check(graph.text, graph.length, &graph.all, &fault);
    if (status != PHASE_OK)
        return stop(status, &graph, &fault);

    char *copy = or_stop(malloc(graph.length + 1));
    struct named named;
    memcpy(copy, text, graph.length + 1);
    names_of(copy, &named);
    struct samples samples = {or_stop(malloc(8 * 1024)), 1024, 0};
    size_t counts[PHASE_TASKS_MAX], sink_counts[PHASE_TASKS_MAX], total = 0;
    int64_t sink_starts[PHASE_TASKS_MAX], *out = NULL;
    for (size_t source = 0; source < named.sources; source++)
        counts[source] = put_numbers(named.files[source], &samples);

    /* The first call has no room, and tells how much it takes. */
    status =
        phase_eval(graph.text, graph.length, samples.values, samples.used, counts, all->sources,
                   NULL, 0, sink_counts, all->sinks, sink_starts, all->sinks, &fault);
    if (status == PHASE_E_ROOM) {
        for (size_t sink = 0; sink < all->sinks; sink++)
            total += sink_counts[sink];
        out = or_stop(malloc(sizeof(int64_t) * total));
        status =
            phase_eval(graph.text, graph.length, samples.values, samples.used, counts, all->sources,
                       out, total, sink_counts, all->sinks, sink_starts, all->sinks, &fault);
    }
    if (status != PHASE_OK)
        return stop(status, &graph, &fault);
    int64_t *at = out;
    for (size_t sink = 0; sink < all->sinks; sink++) {
        printf("%s", named.sinks[sink]);
        if (sink_starts[sink] != PHASE_NO_START)
            printf(" from %" PRId64, sink_starts[sink]);
        printf(" %zu\n", sink_counts[sink]);
        for (size_t i = 0; i < sink_counts[sink]; i++)
            printf("%" PRId64 "\n", *at++);
    }
    free(out);
    free(samples.values);
    free(copy);
    free(text);
    return 0;
}
