/* What a graph that is fed gives: each graph of examples/graphs that is named, fed by blocks of
 * several lengths, beside its stored output; each refusal, which leaves all as it was; why a run
 * stops; four threads with a stream each, and a stream that goes from thread to thread. */
#define _POSIX_C_SOURCE 200809L
#include "phase.h"
#include <pthread.h>
#include <stdio.h>
#include <stdlib.h>
#include <string.h>

enum { MOST = 8192, SINKS = 8 };

static int passed, failed;
static pthread_mutex_t counting = PTHREAD_MUTEX_INITIALIZER;

/* Whether a number is the one that is wanted. */
#define IS(found, wanted) is(__LINE__, #found, (int64_t)(found), (int64_t)(wanted))

static void is(int line, const char *name, int64_t found, int64_t wanted)
{
    pthread_mutex_lock(&counting);
    if (found != wanted)
        printf("stream: line %d: %s is %lld, and not %lld\n", line, name, (long long)found,
               (long long)wanted);
    *(found == wanted ? &passed : &failed) += 1;
    pthread_mutex_unlock(&counting);
}

static int32_t makes(const char *text, phase_stream *stream, phase_fault *fault)
{
    return phase_stream_new((const uint8_t *)text, strlen(text), stream, fault);
}

/* ---- The graphs of examples/graphs. */

struct list {
    int64_t values[MOST];
    size_t count;
    int64_t start;
};

/* A graph: its text, the samples of each source, and what is stored of each sink. */
struct example {
    char text[MOST];
    struct list sources[SINKS], sinks[SINKS];
    size_t source_count, sink_count;
};

/* The bytes of a file, with a 0 behind them. */
static void reads(const char *name, char *text)
{
    FILE *file = fopen(name, "rb");
    size_t count = file ? fread(text, 1, MOST - 1, file) : 0;
    if (!count) {
        printf("stream: %s cannot be read\n", name);
        exit(1);
    }
    text[count] = 0;
    fclose(file);
}

/* The numbers of a file, a number a line. */
static void reads_numbers(const char *name, struct list *list)
{
    static char text[MOST];
    reads(name, text);
    list->count = 0;
    for (char *at = text, *end;; at = end) {
        list->values[list->count] = strtoll(at, &end, 10);
        if (end == at)
            break;
        list->count++;
    }
}

/* What is stored of the sinks: a line with a name, perhaps a start, and a count, and the values. */
static void reads_output(const char *name, struct example *example)
{
    static char text[MOST];
    char *words, *lines;
    struct list *sink = NULL;
    reads(name, text);
    example->sink_count = 0;
    for (char *line = strtok_r(text, "\n", &lines); line; line = strtok_r(NULL, "\n", &lines)) {
        if (!strchr(line, ' ')) {
            sink->values[sink->count++] = strtoll(line, NULL, 10);
            continue;
        }
        sink = &example->sinks[example->sink_count++];
        sink->count = 0;
        sink->start = PHASE_NO_START;
        strtok_r(line, " ", &words);
        if (!strcmp(strtok_r(NULL, " ", &words), "from"))
            sink->start = strtoll(strtok_r(NULL, " ", &words), NULL, 10);
    }
}

static void reads_example(const char *graph, struct example *example)
{
    char name[256], line[256], kind[16], file[128];
    const char *slash = strrchr(graph, '/');
    int folder = slash ? (int)(slash + 1 - graph) : 0;
    reads(graph, example->text);
    example->source_count = 0;
    for (const char *at = example->text; at; at = strchr(at, '\n') ? strchr(at, '\n') + 1 : NULL) {
        snprintf(line, sizeof line, "%.200s", at);
        if (sscanf(line, "%15s %*s %127s", kind, file) == 2 && !strcmp(kind, "source")) {
            snprintf(name, sizeof name, "%.*s%s", folder, graph, file);
            reads_numbers(name, &example->sources[example->source_count++]);
        }
    }
    snprintf(name, sizeof name, "%.*s.stdout", (int)(strrchr(graph, '.') - graph), graph);
    reads_output(name, example);
}

/* Takes what a sink has, behind what was taken before. */
static void takes(phase_stream *stream, size_t sink, struct list *got)
{
    size_t count = 77;
    IS(phase_stream_take(stream, sink, got->values + got->count, MOST - got->count, &count),
       PHASE_OK);
    got->count += count;
}

/* Feeds a source its next block, or says that no more come. */
static void feeds(phase_stream *stream, const struct example *example, size_t source, size_t block,
                  size_t *fed)
{
    const struct list *samples = &example->sources[source];
    size_t left = samples->count - fed[source], took = 77;
    if (!left) {
        IS(phase_stream_finish(stream, source), PHASE_OK);
        return;
    }
    size_t many = block && block < left ? block : left;
    IS(phase_stream_feed(stream, source, samples->values + fed[source], many, &took), PHASE_OK);
    IS(took, many);
    fed[source] += took;
}

/* Feeds a graph to its end by such blocks, or all at once by blocks of none, and takes what each
 * sink has after each run. */
static void goes(phase_stream *stream, const struct example *example, size_t block,
                 struct list *got)
{
    size_t fed[SINKS] = {0};
    phase_stop stop = {0};
    for (size_t sink = 0; sink < example->sink_count; sink++)
        got[sink].count = 0;
    do {
        IS(phase_stream_run(stream, &stop), PHASE_OK);
        for (size_t sink = 0; sink < example->sink_count; sink++)
            takes(stream, sink, &got[sink]);
        if (stop.kind == PHASE_HUNGRY)
            feeds(stream, example, stop.number, block, fed);
    } while (stop.kind == PHASE_HUNGRY || stop.kind == PHASE_FULL);
    IS(stop.kind, PHASE_DONE);
    for (size_t sink = 0; sink < example->sink_count; sink++)
        IS(phase_stream_start(stream, sink, &got[sink].start), PHASE_OK);
}

/* Whether a sink got what is stored; one that joined now, as many values of the sink that it is a
 * child of, the first of its graph, from where it joined. */
static void is_stored(const struct example *example, size_t sink, const struct list *got)
{
    const struct list *wanted = &example->sinks[sink];
    size_t from = 0;
    if (wanted->start != PHASE_NO_START) {
        IS(got->start >= wanted->start, true);
        wanted = &example->sinks[0];
        from = got->start;
        IS(got->count, example->sinks[sink].count);
    } else {
        IS(got->start, PHASE_NO_START);
        IS(got->count, wanted->count);
    }
    IS(got->count + from <= wanted->count
           && !memcmp(got->values, wanted->values + from, got->count * sizeof(int64_t)),
       true);
}

static void gives_what_is_stored(const struct example *example, size_t block)
{
    struct list *got = malloc(sizeof(struct list) * SINKS);
    phase_stream stream = PHASE_STREAM_INIT;
    phase_counts counts;
    phase_fault fault;
    IS(makes(example->text, &stream, &fault), PHASE_OK);
    IS(phase_stream_counts(&stream, &counts), PHASE_OK);
    IS(counts.sources, example->source_count);
    IS(counts.sinks, example->sink_count);
    goes(&stream, example, block, got);
    for (size_t sink = 0; sink < example->sink_count; sink++)
        is_stored(example, sink, &got[sink]);
    phase_stream_free(&stream);
    IS(stream.live, false);
    free(got);
}

/* ---- Why a run stops, and what is refused. */

static const char *const HALVES = "phaser x sum 4\n"
                                  "phaser y sum 4\n"
                                  "source s s.csv -> x\n"
                                  "fir f x -> y shift 1 taps 1 1\n"
                                  "sink out y\n";

/* It stops so. */
#define STOPS(stream, wanted_kind, wanted_number)                                                  \
    do {                                                                                           \
        phase_stop stop_ = {77, 77, 77, 77};                                                       \
        IS(phase_stream_run(stream, &stop_), PHASE_OK);                                            \
        IS(stop_.kind, wanted_kind);                                                               \
        IS(stop_.number, wanted_number);                                                           \
        IS(stop_.at, 0);                                                                           \
        IS(stop_.place, 0);                                                                        \
    } while (0)

static void values_are_taken_once(void)
{
    phase_stream stream = PHASE_STREAM_INIT;
    phase_fault fault = {77, 77, 77, 77, 77};
    const int64_t first[] = {2, 4, 6}, second[] = {8};
    int64_t out[4] = {-1, -1, -1, -1};
    size_t took = 77, count = 77;
    IS(makes(HALVES, &stream, &fault), PHASE_OK);
    IS(fault.line, 77);
    STOPS(&stream, PHASE_HUNGRY, 0);
    IS(phase_stream_feed(&stream, 0, first, 3, &took), PHASE_OK);
    IS(took, 3);
    STOPS(&stream, PHASE_HUNGRY, 0);
    IS(phase_stream_take(&stream, 0, NULL, 0, &count), PHASE_E_ROOM);
    IS(count, 3);
    IS(phase_stream_take(&stream, 0, out, 2, &count), PHASE_E_ROOM);
    IS(count, 3);
    IS(out[0], -1);
    IS(phase_stream_take(&stream, 0, out, 4, &count), PHASE_OK);
    IS(count, 3);
    IS(out[0], 1);
    IS(out[1], 3);
    IS(out[2], 5);
    IS(out[3], -1);
    IS(phase_stream_take(&stream, 0, NULL, 0, &count), PHASE_OK);
    IS(count, 0);
    IS(phase_stream_feed(&stream, 0, second, 1, &took), PHASE_OK);
    IS(phase_stream_finish(&stream, 0), PHASE_OK);
    IS(phase_stream_feed(&stream, 0, second, 1, &took), PHASE_OK);
    IS(took, 0);
    STOPS(&stream, PHASE_DONE, 0);
    STOPS(&stream, PHASE_DONE, 0);
    IS(phase_stream_take(&stream, 0, out, 4, &count), PHASE_OK);
    IS(count, 1);
    IS(out[0], 7);
    IS(out[1], 3);
    phase_stream_free(&stream);
    phase_stream_free(&stream);
}

/* A feed that is larger than there is room for takes a part, and says how much; and a sink that
 * nobody reads is told. */
static void rooms_are_told(void)
{
    phase_stream stream = PHASE_STREAM_INIT;
    phase_fault fault;
    static int64_t samples[10000], out[10000];
    size_t fed = 0, got = 0, took = 77, count = 77, full = 0;
    phase_stop stop;
    for (size_t i = 0; i < 10000; i++)
        samples[i] = 2 * (int64_t)i;
    IS(makes(HALVES, &stream, &fault), PHASE_OK);
    IS(phase_stream_feed(&stream, 0, samples, 10000, &took), PHASE_OK);
    IS(took, 4096);
    IS(phase_stream_feed(&stream, 0, samples, 1, &took), PHASE_OK);
    IS(took, 0);
    for (fed = 4096; fed < 10000; fed += took) {
        IS(phase_stream_run(&stream, &stop), PHASE_OK);
        if (stop.kind == PHASE_FULL) {
            full++;
            IS(phase_stream_take(&stream, 0, out + got, 10000 - got, &count), PHASE_OK);
            got += count;
        }
        IS(phase_stream_feed(&stream, 0, samples + fed, 10000 - fed, &took), PHASE_OK);
    }
    IS(full > 0, true);
    IS(phase_stream_finish(&stream, 0), PHASE_OK);
    do {
        IS(phase_stream_run(&stream, &stop), PHASE_OK);
        IS(phase_stream_take(&stream, 0, out + got, 10000 - got, &count), PHASE_OK);
        got += count;
    } while (stop.kind == PHASE_FULL);
    IS(stop.kind, PHASE_DONE);
    IS(got, 10000);
    for (size_t i = 0; i < 10000; i++)
        if (out[i] != (i ? 2 * (int64_t)i - 1 : 0)) {
            IS(out[i], 2 * i - 1);
            break;
        }
    phase_stream_free(&stream);
}

/* A value out of range is told, again at each later run, and then no sample is taken. */
static void too_big_is_told(void)
{
    const int64_t most[] = {INT64_MAX, 1};
    int64_t out[4];
    size_t took, count;
    phase_stream stream = PHASE_STREAM_INIT;
    phase_fault fault;
    phase_stop stop;
    IS(makes("phaser x sum 4\nsource s s.csv -> x\nsource t t.csv -> x\nsink out x\n", &stream,
             &fault),
       PHASE_OK);
    IS(phase_stream_feed(&stream, 0, most, 2, &took), PHASE_OK);
    /* Both wait for a sample, and the first is told. */
    STOPS(&stream, PHASE_HUNGRY, 0);
    IS(phase_stream_feed(&stream, 1, most + 1, 1, &took), PHASE_OK);
    for (int again = 0; again < 2; again++) {
        IS(phase_stream_run(&stream, &stop), PHASE_OK);
        IS(stop.kind, PHASE_TOO_BIG);
        IS(stop.place, PHASE_AT_PHASER);
        IS(stop.number, 0);
        IS(stop.at, 0);
    }
    IS(phase_stream_feed(&stream, 1, most + 1, 1, &took), PHASE_OK);
    IS(took, 0);
    IS(phase_stream_take(&stream, 0, out, 4, &count), PHASE_OK);
    IS(count, 0);
    phase_stream_free(&stream);
}

/* A graph that stands still tells so, whatever comes: the filter f takes every second sample, and g
 * each, so that f wants samples further ahead of g than the bounds allow. */
static void stalls_are_told(void)
{
    static const char waits[] = "  s may not signal phase 6 of x: bound 1, and g stands at 5\n"
                                "  d waits for phase 6 of x, which s has not signalled\n"
                                "  f waits for phase 3 of a, which d has not signalled\n"
                                "  g may not signal phase 4 of y: bound 1, and out stands at 3\n"
                                "  out waits for phase 3 of y, which f has not signalled\n"
                                "  x: d has come to phase 6, g has come to phase 5\n"
                                "  y: out has come to phase 3\n";
    const int64_t samples[] = {1, 2, 3, 4, 5, 6, 7}, wanted[] = {2, 5, 8};
    const size_t length = sizeof waits - 1;
    uint8_t text[sizeof waits + 1];
    int64_t out[4];
    size_t took, count = 77;
    phase_stream stream = PHASE_STREAM_INIT;
    phase_fault fault;
    IS(makes("phaser x sum 1\nphaser a sum 1\nphaser b sum 1\nphaser y sum 1\n"
             "source s s.csv -> x\nsplit d x -> a b\nfir f a -> y shift 0 taps 1\n"
             "fir g x -> y shift 0 taps 1\nsink out y\n",
             &stream, &fault),
       PHASE_OK);
    IS(phase_stream_feed(&stream, 0, samples, 7, &took), PHASE_OK);
    IS(took, 7);
    STOPS(&stream, PHASE_STALLED, 0);
    IS(phase_stream_finish(&stream, 0), PHASE_OK);
    STOPS(&stream, PHASE_STALLED, 0);
    IS(phase_stream_waits(&stream, NULL, 0, &count), PHASE_E_ROOM);
    IS(count, length);
    memset(text, '#', sizeof text);
    IS(phase_stream_waits(&stream, text, length - 1, &count), PHASE_E_ROOM);
    IS(text[0], '#');
    IS(phase_stream_waits(&stream, text, length + 1, &count), PHASE_OK);
    IS(count, length);
    IS(memcmp(text, waits, length), 0);
    IS(text[length], '#');
    IS(phase_stream_take(&stream, 0, out, 4, &count), PHASE_OK);
    IS(count == 3 && !memcmp(out, wanted, sizeof wanted), true);
    phase_stream_free(&stream);
    IS(phase_stream_waits(&stream, text, length, &count), PHASE_E_NO_STREAM);
}

static void a_text_is_refused(void)
{
    phase_stream stream = PHASE_STREAM_INIT;
    phase_fault fault = {77, 77, 77, 77, 77};
    IS(makes("phaser x sum 4\nsource s s.csv -> z\n", &stream, &fault), PHASE_E_GRAPH);
    IS(fault.line, 2);
    IS(fault.kind, PHASE_UNKNOWN);
    IS(fault.number, 0);
    IS(stream.live, false);
    IS(makes("phaser x any 4\nsource s s.csv -> x\nsource t t.csv -> x\nsink out x\n", &stream,
             &fault),
       PHASE_E_GRAPH);
    IS(fault.line, 3);
    IS(fault.kind, PHASE_ANY_MEETS);
    IS(stream.live, false);
    IS(makes(HALVES, &stream, &fault), PHASE_OK);
    IS(makes(HALVES, &stream, &fault), PHASE_E_HAS_STREAM);
    IS(fault.line, 0);
    STOPS(&stream, PHASE_HUNGRY, 0);
    phase_stream_free(&stream);
}

/* Each call on no stream, and each number of a source or a sink that there is not. */
static void misuse_is_refused(void)
{
    phase_stream none = PHASE_STREAM_INIT, stream = PHASE_STREAM_INIT;
    phase_fault fault;
    phase_counts counts = {77, 77, 77, 77};
    phase_stop stop = {77, 77, 77, 77};
    const int64_t samples[] = {1, INT64_MIN, 3};
    int64_t out[2] = {77, 77}, start = 77;
    size_t took = 77, count = 77;
    IS(phase_stream_counts(&none, &counts), PHASE_E_NO_STREAM);
    IS(phase_stream_feed(&none, 9, samples, 3, &took), PHASE_E_NO_STREAM);
    IS(phase_stream_finish(&none, 9), PHASE_E_NO_STREAM);
    IS(phase_stream_run(&none, &stop), PHASE_E_NO_STREAM);
    IS(phase_stream_take(&none, 9, out, 2, &count), PHASE_E_NO_STREAM);
    IS(phase_stream_start(&none, 9, &start), PHASE_E_NO_STREAM);
    IS(makes(HALVES, &stream, &fault), PHASE_OK);
    IS(phase_stream_feed(&stream, 1, samples, 3, &took), PHASE_E_NO_SOURCE);
    IS(phase_stream_feed(&stream, SIZE_MAX, samples, 1, &took), PHASE_E_NO_SOURCE);
    IS(phase_stream_feed(&stream, 0, samples, 3, &took), PHASE_E_SAMPLE);
    IS(phase_stream_finish(&stream, 1), PHASE_E_NO_SOURCE);
    IS(phase_stream_take(&stream, 1, out, 2, &count), PHASE_E_NO_SINK);
    IS(phase_stream_start(&stream, 1, &start), PHASE_E_NO_SINK);
    IS(counts.tasks, 77);
    IS(stop.kind, 77);
    IS(took, 77);
    IS(count, 77);
    IS(out[0], 77);
    IS(start, 77);
    STOPS(&stream, PHASE_HUNGRY, 0);
    IS(phase_stream_take(&stream, 0, out, 2, &count), PHASE_OK);
    IS(count, 0);
    IS(phase_stream_feed(&stream, 0, NULL, 0, &took), PHASE_OK);
    IS(took, 0);
    phase_stream_free(&stream);
    IS(phase_stream_run(&stream, &stop), PHASE_E_NO_STREAM);
}

/* ---- Threads. */

static struct example average;

static void *feeds_average(void *block)
{
    gives_what_is_stored(&average, *(size_t *)block);
    return NULL;
}

static void *feeds_one(void *stream)
{
    const int64_t sample = 8;
    size_t took;
    IS(phase_stream_feed(stream, 0, &sample, 1, &took), PHASE_OK);
    STOPS((phase_stream *)stream, PHASE_HUNGRY, 0);
    return NULL;
}

static void threads(void)
{
    pthread_t thread[4];
    size_t blocks[] = {1, 7, 64, 0};
    phase_stream stream = PHASE_STREAM_INIT;
    phase_fault fault;
    int64_t out[2] = {77, 77};
    size_t count;
    for (size_t i = 0; i < 4; i++)
        IS(pthread_create(&thread[i], NULL, feeds_average, &blocks[i]), 0);
    for (size_t i = 0; i < 4; i++)
        IS(pthread_join(thread[i], NULL), 0);
    IS(makes(HALVES, &stream, &fault), PHASE_OK);
    for (size_t i = 0; i < 2; i++) {
        IS(pthread_create(&thread[i], NULL, feeds_one, &stream), 0);
        IS(pthread_join(thread[i], NULL), 0);
    }
    IS(phase_stream_take(&stream, 0, out, 2, &count), PHASE_OK);
    IS(count, 2);
    IS(out[0], 4);
    IS(out[1], 8);
    phase_stream_free(&stream);
}

int main(int argc, char **argv)
{
    static const size_t blocks[] = {1, 7, 64, 1000, 0};
    static struct example example;
    for (int i = 1; i < argc; i++) {
        reads_example(argv[i], &example);
        for (size_t block = 0; block < 5; block++)
            gives_what_is_stored(&example, blocks[block]);
        if (i == 1)
            average = example;
    }
    values_are_taken_once();
    rooms_are_told();
    too_big_is_told();
    stalls_are_told();
    a_text_is_refused();
    misuse_is_refused();
    if (argc > 1)
        threads();
    printf("stream: %d passed, %d failed\n", passed, failed);
    return failed || !passed;
}
