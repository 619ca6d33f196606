/* Each request for memory of an evaluation, of names, of a filter, of a phaser and of a stream
 * refused in turn: the answer is PHASE_E_MEMORY with the output as it was, or right all the same,
 * and all memory is given back. Linked with --wrap of malloc, realloc and free. */
#include "phase.h"
#include <stdio.h>
#include <string.h>

void *__real_malloc(size_t);
void *__real_realloc(void *, size_t);
void __real_free(void *);

/* How many requests are still granted, or -1 where all are; how many blocks are held; how many
 * requests came. */
static long granted = -1, held, asked;

static int is_refused(void)
{
    asked++;
    return granted >= 0 && granted-- == 0;
}

void *__wrap_malloc(size_t size)
{
    void *block = is_refused() ? NULL : __real_malloc(size);
    held += block != NULL;
    return block;
}

void *__wrap_realloc(void *block, size_t size)
{
    void *grown = is_refused() ? NULL : __real_realloc(block, size);
    held += !block && grown;
    return grown;
}

void __wrap_free(void *block)
{
    held -= block != NULL;
    __real_free(block);
}

static const char *graph = "graph 2\nphaser x sum 4\nphaser y greatest 4\nsource s s.csv -> x\n"
                           "source t t.csv -> x by s at 1\nfir f x -> y shift 0 taps 1 1\n"
                           "sink out y\nsink all x\nsink late x by all at 1 now\n";

/* Whether the answer is that of the graph: s is 1 2 3, and t is 4 5 6 from phase 1 on, so that x is
 * 1 6 8 6, and y is 1 7 14 14; late has x from phase 1 on. */
static int is_right(const int64_t *out, const size_t *counts, const int64_t *starts)
{
    static const int64_t wanted[11] = {1, 7, 14, 14, 1, 6, 8, 6, 6, 8, 6};
    return !memcmp(out, wanted, sizeof wanted) && counts[0] == 4 && counts[1] == 4 && counts[2] == 3
           && starts[0] == PHASE_NO_START && starts[1] == PHASE_NO_START && starts[2] == 1;
}

static long requests, refused, right, wrong;

/* A call of an evaluation with request number `request` refused: whether no request was. */
static int evaluates(long request)
{
    const int64_t samples[6] = {1, 2, 3, 4, 5, 6};
    const size_t counts[2] = {3, 3};
    int64_t out[12], was[12], starts[3];
    size_t found[3];
    phase_fault fault;
    memset(out, 0x55, sizeof out);
    memcpy(was, out, sizeof was);
    granted = request;
    int32_t status = phase_eval((const uint8_t *)graph, strlen(graph), samples, 6, counts, 2, out,
                                12, found, 3, starts, 3, &fault);
    int is_done = granted >= 0;
    granted = -1;
    if (status == PHASE_E_MEMORY && !is_done && !memcmp(out, was, sizeof was))
        refused++;
    else if (status == PHASE_OK && is_right(out, found, starts))
        right++;
    else
        wrong++, printf("memory: status %d after request %ld was refused\n", (int)status, request);
    return is_done;
}

typedef int32_t names_of(const uint8_t *, size_t, uint8_t *, size_t, size_t *, phase_fault *);

/* The same of names. */
static int writes_names(long request, names_of *call, const char *wanted)
{
    uint8_t out[40], was[40];
    size_t needed = 77;
    phase_fault fault;
    memset(out, 0x55, sizeof out);
    memcpy(was, out, sizeof was);
    granted = request;
    int32_t status = call((const uint8_t *)graph, strlen(graph), out, sizeof out, &needed, &fault);
    int is_done = granted >= 0;
    granted = -1;
    if (status == PHASE_E_MEMORY && !is_done && needed == 77 && !memcmp(out, was, sizeof was))
        refused++;
    else if (status == PHASE_OK && needed == strlen(wanted) && !memcmp(out, wanted, needed))
        right++;
    else
        wrong++, printf("memory: status %d of names after request %ld was refused\n", (int)status,
                        request);
    return is_done;
}

static int names(long request)
{
    return writes_names(request, phase_names, "s\nt\nout\nall\nlate\n");
}

static int all_names(long request)
{
    return writes_names(request, phase_all_names, "x\ny\ns\nt\nf\nout\nall\nlate\n");
}

/* The same of a block through a filter. */
static int filters(long request)
{
    const int64_t taps[2] = {1, 1}, block[2] = {1, 2};
    int64_t state[1] = {4}, out[2] = {-77, -77};
    size_t done = 77;
    granted = request;
    int32_t status = phase_fir(taps, 2, 0, state, 1, block, 2, out, 2, &done);
    int is_done = granted >= 0;
    granted = -1;
    if (status == PHASE_E_MEMORY && !is_done && done == 0 && state[0] == 4 && out[0] == -77)
        refused++;
    else if (status == PHASE_OK && done == 2 && state[0] == 2 && out[0] == 5 && out[1] == 3)
        right++;
    else
        wrong++, printf("memory: status %d of a block after request %ld was refused\n", (int)status,
                        request);
    return is_done;
}

/* The same of a block through a filter, each value over its sample. */
static int filters_in_place(long request)
{
    const int64_t taps[2] = {1, 1};
    int64_t state[1] = {4}, block[2] = {1, 2};
    size_t done = 77;
    granted = request;
    int32_t status = phase_fir_in_place(taps, 2, 0, state, 1, block, 2, &done);
    int is_done = granted >= 0;
    granted = -1;
    if (status == PHASE_E_MEMORY && !is_done && done == 0 && state[0] == 4 && block[0] == 1
        && block[1] == 2)
        refused++;
    else if (status == PHASE_OK && done == 2 && state[0] == 2 && block[0] == 5 && block[1] == 3)
        right++;
    else
        wrong++, printf("memory: status %d in place after request %ld was refused\n", (int)status,
                        request);
    return is_done;
}

/* The same of blocks through a filter that weighs what it put, beside and over their samples. */
static int filters_again(long request, int is_in_place)
{
    const phase_fir_form form = {.again = 1};
    const int64_t taps[2] = {1, 1};
    int64_t state[1] = {4}, puts[1] = {3}, block[2] = {1, 2}, out[2] = {1, 2};
    size_t done = 77;
    granted = request;
    int32_t status =
        is_in_place
            ? phase_fir_with_in_place(taps, 2, &form, state, 1, puts, 1, out, 2, &done)
            : phase_fir_with(taps, 2, &form, state, 1, puts, 1, block, 2, out, 2, &done);
    int is_done = granted >= 0;
    granted = -1;
    if (status == PHASE_E_MEMORY && !is_done && done == 0 && state[0] == 4 && puts[0] == 3
        && out[0] == 1 && out[1] == 2)
        refused++;
    else if (status == PHASE_OK && done == 2 && state[0] == 2 && puts[0] == 6 && out[0] == 4
             && out[1] == 6)
        right++;
    else
        wrong++, printf("memory: status %d of a form after request %ld was refused\n", (int)status,
                        request);
    return is_done;
}

static int filters_formed(long request)
{
    return filters_again(request, 0);
}

static int filters_formed_in_place(long request)
{
    return filters_again(request, 1);
}

/* With no memory at all a filter tells of its taps, its state and its room all the same, and of
 * memory behind them. */
static void without_memory(void)
{
    const int64_t taps[2] = {1, 1};
    int64_t state[2] = {4, 4}, block[2] = {1, 2}, out[2] = {-77, -77};
    size_t done = 77;
    const int32_t wanted[6] = {PHASE_E_TAPS,   PHASE_E_COUNTS, PHASE_E_ROOM,
                               PHASE_E_MEMORY, PHASE_E_COUNTS, PHASE_E_MEMORY};
    int32_t found[6];
    granted = 0;
    found[0] = phase_fir(taps, 2, 63, state, 2, block, 2, out, 1, &done);
    granted = 0;
    found[1] = phase_fir(taps, 2, 0, state, 2, block, 2, out, 1, &done);
    granted = 0;
    found[2] = phase_fir(taps, 2, 0, state, 1, block, 2, out, 1, &done);
    granted = 0;
    found[3] = phase_fir(taps, 2, 0, state, 1, block, 2, out, 2, &done);
    granted = 0;
    found[4] = phase_fir_in_place(taps, 2, 0, state, 2, block, 2, &done);
    granted = 0;
    found[5] = phase_fir_in_place(taps, 2, 0, state, 1, block, 2, &done);
    granted = -1;
    for (int i = 0; i < 6; i++)
        if (found[i] != wanted[i])
            wrong++, printf("memory: status %d of row %d with no memory\n", (int)found[i], i);
    if (done != 0 || state[0] != 4 || block[0] != 1 || block[1] != 2 || out[0] != -77)
        wrong++, printf("memory: a filter wrote with no memory\n");
}

/* Each request of a phaser with 40 waiters: what was refused is done when it is asked for again,
 * and neither signals nor waits ask for memory. */
static int phasers(long request)
{
    phase_phaser phaser = {0};
    const int64_t one = 1;
    uint64_t task = 77, phase = 77;
    int64_t value = 77;
    int told = 0, is_good = 1;
    granted = request;
    int32_t status = phase_phaser_new(PHASE_SUM, 4, 100, &phaser);
    if (status == PHASE_E_MEMORY) {
        told++;
        is_good = !phaser.live;
        status = phase_phaser_new(PHASE_SUM, 4, 100, &phaser);
    }
    is_good = is_good && status == PHASE_OK;
    for (uint64_t waiter = 1; waiter <= 40; waiter++) {
        uint64_t was = task;
        status = phase_phaser_register(&phaser, 0, PHASE_WAIT, &task);
        if (status == PHASE_E_MEMORY) {
            told++;
            is_good = is_good && task == was;
            status = phase_phaser_register(&phaser, 0, PHASE_WAIT, &task);
        }
        is_good = is_good && status == PHASE_OK && task == waiter;
    }
    int is_done = granted >= 0;
    long asked_so_far = asked;
    for (uint64_t at = 0; at < 10; at++) {
        is_good =
            is_good
            && phase_phaser_signal(&phaser, 0, &one, 1, PHASE_NO_SINGLE, 0, 0, &phase) == PHASE_OK;
        for (uint64_t waiter = 0; waiter <= 40; waiter++)
            is_good = is_good && phase_phaser_wait(&phaser, waiter, &phase, &value) == PHASE_OK
                      && phase == at && value == 1;
    }
    is_good = is_good && asked == asked_so_far;
    granted = -1;
    phase_phaser_free(&phaser);
    if (is_good && told == 1 && !is_done && !phaser.live)
        refused++;
    else if (is_good && told == 0 && !phaser.live)
        right++;
    else
        wrong++, printf("memory: status %d of a phaser after request %ld was refused\n",
                        (int)status, request);
    return is_done;
}

/* The same of a block of three phases that is signalled and got: what was refused left all as it
 * was, and is done when it is asked for again. */
static int blocks(long request)
{
    phase_phaser phaser = {0};
    const int64_t values[3] = {4, 5, 6};
    int64_t got[4] = {77, 77, 77, 77};
    uint64_t task = 77, phase = 77;
    size_t count = 77;
    int told = 0;
    int is_good = phase_phaser_new(PHASE_SUM, 4, 100, &phaser) == PHASE_OK
                  && phase_phaser_register(&phaser, 0, PHASE_SIG, &task) == PHASE_OK
                  && phase_phaser_register(&phaser, 0, PHASE_WAIT, &task) == PHASE_OK
                  && phase_phaser_drop(&phaser, 0) == PHASE_OK;
    granted = request;
    int32_t status =
        phase_phaser_signal_block(&phaser, 1, values, 3, PHASE_NO_SINGLE, 0, 0, &phase);
    if (status == PHASE_E_MEMORY) {
        told++;
        is_good = is_good && phase == 77 && phaser.live;
        status = phase_phaser_signal_block(&phaser, 1, values, 3, PHASE_NO_SINGLE, 0, 0, &phase);
    }
    is_good = is_good && status == PHASE_OK && phase == 0;
    status = phase_phaser_wait_block(&phaser, 2, got, 4, &phase, &count);
    if (status == PHASE_E_MEMORY) {
        told++;
        is_good = is_good && count == 77 && got[0] == 77 && phaser.live;
        status = phase_phaser_wait_block(&phaser, 2, got, 4, &phase, &count);
    }
    is_good = is_good && status == PHASE_OK && phase == 0 && count == 3
              && !memcmp(got, values, sizeof values) && got[3] == 77;
    int is_done = granted >= 0;
    granted = -1;
    phase_phaser_free(&phaser);
    if (is_good && told == 1 && !is_done)
        refused++;
    else if (is_good && told == 0)
        right++;
    else
        wrong++, printf("memory: status %d of blocks of phases after request %ld was refused\n",
                        (int)status, request);
    return is_done;
}

/* Makes a stream of the graph, or tells that there was no memory, and makes it then. */
static int32_t makes_stream(phase_stream *stream, int *told)
{
    phase_fault fault;
    int32_t status = phase_stream_new((const uint8_t *)graph, strlen(graph), stream, &fault);
    if (status == PHASE_E_MEMORY && !stream->live) {
        ++*told;
        status = phase_stream_new((const uint8_t *)graph, strlen(graph), stream, &fault);
    }
    return status;
}

/* Runs a stream, again where there was no memory. */
static int32_t runs_stream(phase_stream *stream, int *told, phase_stop *stop)
{
    int32_t status = phase_stream_run(stream, stop);
    if (status == PHASE_E_MEMORY) {
        ++*told;
        status = phase_stream_run(stream, stop);
    }
    return status;
}

/* Each request of a stream of the graph, fed whole: its sinks got what an evaluation has, but late,
 * which may join later. What was refused is done when it is asked for again, and only a child's
 * registration asks for memory once the stream is made. */
static int streams(long request)
{
    phase_stream stream = PHASE_STREAM_INIT;
    phase_stop stop = {0};
    const int64_t samples[6] = {1, 2, 3, 4, 5, 6};
    int64_t out[12], start = 77;
    size_t took[2] = {0}, counts[3] = {0};
    int told = 0;
    granted = request;
    int is_good = makes_stream(&stream, &told) == PHASE_OK;
    for (size_t source = 0; source < 2; source++)
        is_good = is_good
                  && phase_stream_feed(&stream, source, samples + 3 * source, 3, &took[source])
                         == PHASE_OK
                  && took[source] == 3 && phase_stream_finish(&stream, source) == PHASE_OK;
    is_good = is_good && runs_stream(&stream, &told, &stop) == PHASE_OK && stop.kind == PHASE_DONE;
    int is_done = granted >= 0;
    granted = -1;
    is_good = is_good && phase_stream_take(&stream, 0, out, 4, &counts[0]) == PHASE_OK
              && phase_stream_take(&stream, 1, out + 4, 4, &counts[1]) == PHASE_OK
              && phase_stream_take(&stream, 2, out + 8, 4, &counts[2]) == PHASE_OK
              && phase_stream_start(&stream, 2, &start) == PHASE_OK && start >= 1
              && counts[0] == 4 && counts[1] == 4 && (int64_t)counts[2] == 4 - start
              && !memcmp(out, (const int64_t[8]){1, 7, 14, 14, 1, 6, 8, 6}, 8 * sizeof *out)
              && !memcmp(out + 8, out + 4 + start, counts[2] * sizeof *out);
    phase_stream_free(&stream);
    if (is_good && told == 1 && !is_done && !stream.live)
        refused++;
    else if (is_good && told == 0 && !stream.live)
        right++;
    else
        wrong++, printf("memory: a stream is wrong after request %ld was refused\n", request);
    return is_done;
}

static void all_refused(int (*call)(long))
{
    int is_done = 0;
    for (long request = 0; !is_done; request++) {
        held = 0;
        is_done = call(request);
        requests += !is_done;
        if (held != 0)
            wrong++, printf("memory: %ld blocks are held after request %ld was refused\n", held,
                            request);
    }
}

int main(void)
{
    all_refused(evaluates);
    all_refused(names);
    all_refused(all_names);
    all_refused(filters);
    all_refused(filters_in_place);
    all_refused(filters_formed);
    all_refused(filters_formed_in_place);
    all_refused(phasers);
    all_refused(blocks);
    all_refused(streams);
    without_memory();
    /* With no request refused each has answered once. */
    printf("memory: %ld requests, each refused in turn: %ld told, %ld answered all the same, %ld "
           "wrong\n",
           requests, refused, right - 10, wrong);
    return wrong != 0 || refused == 0 || right < 10;
}
