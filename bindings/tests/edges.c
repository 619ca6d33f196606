/* What libphase answers at its edges: NULL with 0, lengths that do not fit, SIZE_MAX, INT64_MIN,
 * values out of range, sinks that join now; which refusal comes first, and what one leaves; streams
 * by blocks; and four threads of a caller side by side. */
#define _GNU_SOURCE
#include "phase.h"
#include <limits.h>
#include <pthread.h>
#include <stdio.h>
#include <string.h>

#define TEXT(s) (const uint8_t *)(s), strlen(s)

static int passed, failed;

static void look(const char *name, int is_right)
{
    if (!is_right)
        printf("edges: %s\n", name);
    *(is_right ? &passed : &failed) += 1;
}

/* The sum of two samples in a row. */
static const char *sums = "phaser x sum 4\nphaser y sum 4\nsource s s.csv -> x\n"
                          "fir f x -> y shift 0 taps 1 1\nsink out y\n";
/* Two sources on one phaser. */
static const char *both = "phaser x sum 4\nsource s s.csv -> x\nsource t t.csv -> x\nsink out x\n";
static const char *twice = "phaser x any 4\nsource s s.csv -> x\nsource t t.csv -> x\nsink out x\n";
/* Of three sinks the second joins now at 2 or later, and the third, at 9, is not live where there
 * are fewer. */
static const char *late = "graph 2\nphaser x sum 4\nsource s s.csv -> x\nsink all x\n"
                          "sink late x by all at 2 now\nsink never x by all at 9 now\n";

/* What a call is given to write, with numbers that none writes. */
struct room {
    int64_t out[8];
    size_t counts[4];
    int64_t starts[4];
    phase_fault fault;
};

static struct room fresh(void)
{
    struct room room;
    for (int i = 0; i < 8; i++)
        room.out[i] = -77;
    for (int i = 0; i < 4; i++) {
        room.counts[i] = 77;
        room.starts[i] = -77;
    }
    memset(&room.fault, 0x55, sizeof room.fault);
    return room;
}

static int is_fault(const phase_fault *fault, uint64_t line, int32_t kind, int32_t place,
                    uint64_t number, uint64_t at)
{
    return fault->line == line && fault->kind == kind && fault->place == place
           && fault->number == number && fault->at == at;
}

/* Nothing was written but the fault, which says nothing beside the status. */
static int is_untouched(const struct room *room)
{
    struct room was = fresh();
    return !memcmp(room->out, was.out, sizeof was.out)
           && !memcmp(room->counts, was.counts, sizeof was.counts)
           && !memcmp(room->starts, was.starts, sizeof was.starts);
}

static void check_edges(void)
{
    phase_counts counts;
    phase_fault fault, was;
    memset(&counts, 0x55, sizeof counts);
    memset(&was, 0x55, sizeof was);
    fault = was;
    look("a graph is counted, and no fault is written",
         phase_check(TEXT(both), &counts, &fault) == PHASE_OK && counts.phasers == 1
             && counts.tasks == 3 && counts.sources == 2 && counts.sinks == 1
             && !memcmp(&fault, &was, sizeof was));
    look("NULL and 0 are a graph of nothing",
         phase_check(NULL, 0, &counts, &fault) == PHASE_OK && counts.phasers == 0
             && counts.tasks == 0 && counts.sources == 0 && counts.sinks == 0);
    counts.phasers = 99;
    look("a bound of 0 is a limit, and the counts stay",
         phase_check(TEXT("\nphaser x sum 0\n"), &counts, &fault) == PHASE_E_GRAPH
             && is_fault(&fault, 2, PHASE_LIMIT, 0, 0, 0) && counts.phasers == 99
             && counts.tasks == 0);
    look("a block above a bound is told",
         phase_check(TEXT("graph 2\nphaser x sum 2\nsink o x block=3\n"), &counts, &fault)
                 == PHASE_E_GRAPH
             && is_fault(&fault, 3, PHASE_OVER_BOUND, 0, 0, 0));
    const char *faults[] = {
        "phaser x mean 2\n",
        "phaser x sum 0\n",
        "phaser x sum 2\nphaser x sum 2\n",
        "sink out x\n",
        "phaser x sum 2\nphaser y sum 2\nfir f y -> x shift 0 taps 1\n",
        "graph 2\nphaser x sum 2\nsink a x\nsink b x by a at 0 now\nsink c x by b at 1\n",
        "phaser x sum 2 single neg\nsource a a.csv -> x\n",
        "graph 2\nphaser x sum 2\nsource s s.csv -> x block=3\n"};
    uint64_t lines[] = {1, 1, 2, 1, 3, 5, 2, 3};
    for (int32_t kind = PHASE_SYNTAX; kind <= PHASE_OVER_BOUND; kind++)
        look("each kind of fault has its number",
             phase_check(TEXT(faults[kind - 1]), &counts, &fault) == PHASE_E_GRAPH
                 && is_fault(&fault, lines[kind - 1], kind, 0, 0, 0));
}

typedef int32_t names_of(const uint8_t *, size_t, uint8_t *, size_t, size_t *, phase_fault *);

/* The names that a call writes of a text with so much room: whether the answer is this status, the
 * names these, and what stands behind them as it was. Where the status is not PHASE_OK no name is
 * written. */
static int are_written(names_of *call, const char *text, size_t room, int32_t status,
                       size_t wanted_bytes, const char *wanted)
{
    uint8_t out[32];
    size_t needed = 77;
    phase_fault fault;
    memset(out, '.', sizeof out);
    memset(&fault, 0x55, sizeof fault);
    int is_right = call(TEXT(text), room > 0 ? out : NULL, room, &needed, &fault) == status
                   && needed == wanted_bytes && !memcmp(out, wanted, strlen(wanted));
    for (size_t at = strlen(wanted); at < sizeof out; at++)
        is_right = is_right && out[at] == '.';
    return is_right
           && (status == PHASE_OK ? fault.line == 0x5555555555555555
                                  : fault.line != 0x5555555555555555);
}

static int are_names(const char *text, size_t room, int32_t status, size_t wanted_bytes,
                     const char *wanted)
{
    return are_written(phase_names, text, room, status, wanted_bytes, wanted);
}

static int are_all_names(const char *text, size_t room, int32_t status, size_t wanted_bytes,
                         const char *wanted)
{
    return are_written(phase_all_names, text, room, status, wanted_bytes, wanted);
}

static void names(void)
{
    /* A sink stands above a source. */
    const char *mixed = "phaser x sum 4\nphaser y sum 4\nsource s s.csv -> x\nsink first x\n"
                        "source t t.csv -> y\nsink last y\n";
    look("sources before sinks", are_names(mixed, 32, PHASE_OK, 15, "s\nt\nfirst\nlast\n"));
    look("names that just fit", are_names(mixed, 15, PHASE_OK, 15, "s\nt\nfirst\nlast\n"));
    look("names that are one too long", are_names(mixed, 14, PHASE_E_ROOM, 15, ""));
    look("how long names are is asked", are_names(mixed, 0, PHASE_E_ROOM, 15, ""));
    look("a filter is not named", are_names(sums, 32, PHASE_OK, 6, "s\nout\n"));
    look("sinks that join now are named",
         are_names(late, 32, PHASE_OK, 17, "s\nall\nlate\nnever\n"));
    look("a graph of nothing has no names", are_names("", 0, PHASE_OK, 0, ""));
    look("a fault has no names", are_names("phaser x mean 2\n", 32, PHASE_E_GRAPH, 77, ""));
    look("two sources meet in an evaluation alone",
         are_names(twice, 32, PHASE_OK, 8, "s\nt\nout\n"));
}

static void all_names(void)
{
    /* Phasers stand below tasks, and a sink above a source. */
    const char *mixed =
        "phaser x sum 4\nsource s s.csv -> x\nsink first x\nphaser y sum 4\nsource t t.csv -> y\n"
        "fir d x -> y shift 0 taps 1\n";
    look("phasers before tasks, each in the order of the lines",
         are_all_names(mixed, 32, PHASE_OK, 16, "x\ny\ns\nfirst\nt\nd\n"));
    look("all names that just fit",
         are_all_names(mixed, 16, PHASE_OK, 16, "x\ny\ns\nfirst\nt\nd\n"));
    look("all names that are one too long", are_all_names(mixed, 15, PHASE_E_ROOM, 16, ""));
    look("how long all names are is asked", are_all_names(mixed, 0, PHASE_E_ROOM, 16, ""));
    look("a filter is named", are_all_names(sums, 32, PHASE_OK, 12, "x\ny\ns\nf\nout\n"));
    look("phasers alone",
         are_all_names("phaser b sum 1\nphaser a any 1\n", 32, PHASE_OK, 4, "b\na\n"));
    look("a graph of nothing has no names at all", are_all_names("", 0, PHASE_OK, 0, ""));
    look("a fault has no names at all",
         are_all_names("phaser x mean 2\n", 32, PHASE_E_GRAPH, 77, ""));
}

/* The name of the place where a value is too big, by its line among all names. */
static void named_fault(const char *text, const int64_t *samples, const size_t *counts,
                        size_t sources, const char *wanted)
{
    uint8_t out[32];
    size_t needed = 0, line = 0, at = 0;
    struct room room = fresh();
    phase_counts found;
    int is_told = phase_check(TEXT(text), &found, &room.fault) == PHASE_OK
                  && phase_eval(TEXT(text), samples, sources * 2, counts, sources, room.out, 8,
                                room.counts, 1, room.starts, 1, &room.fault)
                         == PHASE_E_TOO_BIG
                  && phase_all_names(TEXT(text), out, sizeof out, &needed, &room.fault) == PHASE_OK;
    size_t place = room.fault.number + (room.fault.place == PHASE_AT_TASK ? found.phasers : 0);
    for (; at < needed && line < place; at++)
        line += out[at] == '\n';
    look(wanted,
         is_told && line == place && at + strlen(wanted) < needed
             && !memcmp(out + at, wanted, strlen(wanted)) && out[at + strlen(wanted)] == '\n');
}

static void named_faults(void)
{
    const int64_t most[4] = {INT64_MAX, INT64_MAX, INT64_MAX, INT64_MAX};
    const size_t two[2] = {2, 2};
    /* At the filter's second step two samples come to too much, and on the phaser the sources'
     * first ones. */
    named_fault(sums, most, two, 1, "f");
    named_fault(both, most, two, 2, "x");
}

static void lengths(void)
{
    int64_t in[4] = {1, 2, 3, 4};
    size_t three[2] = {3, 0}, none[1] = {0}, most[2] = {SIZE_MAX, 4};
    struct room room = fresh();
    look("sums of two in a row",
         phase_eval(TEXT(sums), in, 3, three, 1, room.out, 8, room.counts, 1, room.starts, 1,
                    &room.fault)
                 == PHASE_OK
             && room.out[0] == 1 && room.out[1] == 3 && room.out[2] == 5 && room.out[3] == -77
             && room.counts[0] == 3 && room.counts[1] == 77 && room.starts[0] == PHASE_NO_START
             && room.starts[1] == -77 && room.fault.line == 0x5555555555555555);
    room = fresh();
    look("a room that is just enough",
         phase_eval(TEXT(sums), in, 3, three, 1, room.out, 3, room.counts, 1, room.starts, 1,
                    &room.fault)
                 == PHASE_OK
             && room.out[2] == 5 && room.out[3] == -77);
    room = fresh();
    look("a room that is one too short: it is told how much it takes",
         phase_eval(TEXT(sums), in, 3, three, 1, room.out, 2, room.counts, 1, room.starts, 1,
                    &room.fault)
                 == PHASE_E_ROOM
             && room.out[0] == -77 && room.counts[0] == 3 && room.starts[0] == PHASE_NO_START
             && is_fault(&room.fault, 0, 0, 0, 0, 0));
    look("NULL and 0 as room",
         phase_eval(TEXT(sums), in, 3, three, 1, NULL, 0, room.counts, 1, room.starts, 1,
                    &room.fault)
                 == PHASE_E_ROOM
             && room.counts[0] == 3);
    look("no samples, and NULL and 0 as room",
         phase_eval(TEXT(sums), NULL, 0, none, 1, NULL, 0, room.counts, 1, room.starts, 1,
                    &room.fault)
                 == PHASE_OK
             && room.counts[0] == 0);
    look("a graph of nothing, with NULL and 0 everywhere",
         phase_eval(NULL, 0, NULL, 0, NULL, 0, NULL, 0, NULL, 0, NULL, 0, &room.fault) == PHASE_OK);
    room = fresh();
    look("fewer samples than a count says",
         phase_eval(TEXT(sums), in, 2, three, 1, room.out, 8, room.counts, 1, room.starts, 1,
                    &room.fault)
                 == PHASE_E_COUNTS
             && is_untouched(&room) && is_fault(&room.fault, 0, 0, 0, 0, 0));
    look("more samples than a count says",
         phase_eval(TEXT(sums), in, 4, three, 1, room.out, 8, room.counts, 1, room.starts, 1,
                    &room.fault)
                 == PHASE_E_COUNTS
             && is_untouched(&room));
    look("a count too many", phase_eval(TEXT(sums), in, 3, three, 2, room.out, 8, room.counts, 1,
                                        room.starts, 1, &room.fault)
                                     == PHASE_E_COUNTS
                                 && is_untouched(&room));
    look("counts that go past SIZE_MAX",
         phase_eval(TEXT(both), in, 3, most, 2, room.out, 8, room.counts, 1, room.starts, 1,
                    &room.fault)
                 == PHASE_E_COUNTS
             && is_untouched(&room));
    look("one count of SIZE_MAX",
         phase_eval(TEXT(sums), in, 3, most, 1, room.out, 8, room.counts, 1, room.starts, 1,
                    &room.fault)
                 == PHASE_E_COUNTS
             && is_untouched(&room));
    look("room for the counts of two sinks, where there is one",
         phase_eval(TEXT(sums), in, 3, three, 1, room.out, 8, room.counts, 2, room.starts, 1,
                    &room.fault)
                 == PHASE_E_COUNTS
             && is_untouched(&room));
    look("no room for the start of a sink",
         phase_eval(TEXT(sums), in, 3, three, 1, room.out, 8, room.counts, 1, NULL, 0, &room.fault)
                 == PHASE_E_COUNTS
             && is_untouched(&room));
}

static void values(void)
{
    int64_t lowest[3] = {1, INT64_MIN, INT64_MIN}, big[4] = {INT64_MAX, 0, INT64_MAX, INT64_MAX};
    int64_t least[2] = {-INT64_MAX, INT64_MAX};
    size_t three[1] = {3}, four[1] = {4}, two[1] = {2}, each[2] = {2, 2}, ones[2] = {1, 1};
    struct room room = fresh();
    look("the first sample of INT64_MIN is told",
         phase_eval(TEXT(sums), lowest, 3, three, 1, room.out, 8, room.counts, 1, room.starts, 1,
                    &room.fault)
                 == PHASE_E_SAMPLE
             && is_untouched(&room) && is_fault(&room.fault, 0, 0, 0, 0, 1));
    look("the filter's step at which a value is out of range",
         phase_eval(TEXT(sums), big, 4, four, 1, room.out, 8, room.counts, 1, room.starts, 1,
                    &room.fault)
                 == PHASE_E_TOO_BIG
             && room.out[0] == -77 && room.counts[0] == 4
             && is_fault(&room.fault, 0, 0, PHASE_AT_TASK, 1, 3));
    room = fresh();
    look("the phaser's phase at which a value is out of range",
         phase_eval(TEXT(both), big, 4, each, 2, room.out, 8, room.counts, 1, room.starts, 1,
                    &room.fault)
                 == PHASE_E_TOO_BIG
             && room.out[0] == -77 && room.counts[0] == 2
             && is_fault(&room.fault, 0, 0, PHASE_AT_PHASER, 0, 0));
    look("where there is no room, no value is looked at",
         phase_eval(TEXT(both), big, 4, each, 2, room.out, 1, room.counts, 1, room.starts, 1,
                    &room.fault)
                 == PHASE_E_ROOM
             && room.counts[0] == 2);
    look("the greatest and the least value",
         phase_eval(TEXT(sums), least, 2, two, 1, room.out, 8, room.counts, 1, room.starts, 1,
                    &room.fault)
                 == PHASE_OK
             && room.out[0] == -INT64_MAX && room.out[1] == 0);
    room = fresh();
    look("two tasks that meet on a phaser with any",
         phase_eval(TEXT(twice), least, 2, ones, 2, room.out, 8, room.counts, 1, room.starts, 1,
                    &room.fault)
                 == PHASE_E_GRAPH
             && is_untouched(&room) && is_fault(&room.fault, 3, PHASE_ANY_MEETS, 0, 0, 0));
}

static void sinks_that_join_now(void)
{
    int64_t in[4] = {5, 6, 7, 8};
    size_t four[1] = {4}, one[1] = {1};
    struct room room = fresh();
    look("a sink that joins now begins at its least start, and one that is not live has none",
         phase_eval(TEXT(late), in, 4, four, 1, room.out, 8, room.counts, 3, room.starts, 3,
                    &room.fault)
                 == PHASE_OK
             && room.counts[0] == 4 && room.counts[1] == 2 && room.counts[2] == 0
             && room.starts[0] == PHASE_NO_START && room.starts[1] == 2
             && room.starts[2] == PHASE_NO_START && room.out[3] == 8 && room.out[4] == 7
             && room.out[5] == 8 && room.out[6] == -77);
    look("where its parent makes fewer steps it has no start",
         phase_eval(TEXT(late), in, 1, one, 1, room.out, 8, room.counts, 3, room.starts, 3,
                    &room.fault)
                 == PHASE_OK
             && room.counts[1] == 0 && room.starts[1] == PHASE_NO_START);
    look("starts are told where there is no room",
         phase_eval(TEXT(late), in, 4, four, 1, room.out, 5, room.counts, 3, room.starts, 3,
                    &room.fault)
                 == PHASE_E_ROOM
             && room.counts[0] == 4 && room.counts[1] == 2 && room.starts[1] == 2);
}

static void blocks(void)
{
    int64_t taps[3] = {1, 2, 1}, big[2] = {INT64_C(2147483648), 1}, state[2] = {0, 0},
            block[4] = {-1, -1, 0, 4};
    int64_t out[5] = {-77, -77, -77, -77, -77}, ones[2] = {1, 1}, last[1] = {3},
            most[3] = {0, INT64_MAX, 1};
    size_t done = 77;
    look("a block, rounded down",
         phase_fir(taps, 3, 2, state, 2, block, 4, out, 5, &done) == PHASE_OK && done == 4
             && out[0] == -1 && out[1] == -1 && out[2] == -1 && out[3] == 0 && out[4] == -77
             && state[0] == 0 && state[1] == 4);
    look("the next block goes on, in a block shorter than the state",
         phase_fir(taps, 3, 0, state, 2, ones, 1, out, 5, &done) == PHASE_OK && done == 1
             && out[0] == 9 && state[0] == 4 && state[1] == 1);
    look("an empty block, NULL with 0",
         phase_fir(taps, 3, 0, state, 2, NULL, 0, NULL, 0, &done) == PHASE_OK && done == 0
             && state[0] == 4);
    look("one tap has no state, NULL with 0",
         phase_fir(ones, 1, 0, NULL, 0, block, 2, out, 5, &done) == PHASE_OK && out[1] == -1);
    out[2] = -77;
    look("too big: so many are right, and the state stays",
         phase_fir(ones, 2, 0, last, 1, most, 3, out, 5, &done) == PHASE_E_TOO_BIG && done == 2
             && out[0] == 3 && out[1] == INT64_MAX && out[2] == -77 && last[0] == 3);
    look("a state that is too long",
         phase_fir(ones, 2, 0, state, 2, most, 3, out, 5, &done) == PHASE_E_COUNTS && done == 0
             && state[1] == 1);
    look("no room", phase_fir(ones, 2, 0, last, 1, most, 3, out, 2, &done) == PHASE_E_ROOM
                        && done == 0 && out[0] == 3);
    look("a tap that is too large",
         phase_fir(big, 2, 0, last, 1, most, 3, out, 5, &done) == PHASE_E_TAPS && done == 0);
    look("a shift that is too large",
         phase_fir(ones, 2, 63, last, 1, most, 3, out, 5, &done) == PHASE_E_TAPS);
    look("no taps",
         phase_fir(NULL, 0, 0, NULL, 0, most, 3, out, 5, &done) == PHASE_E_TAPS && last[0] == 3);
}

static void blocks_in_place(void)
{
    int64_t taps[3] = {1, 2, 1}, state[2] = {0, 0}, block[4] = {-1, -1, 0, 4}, ones[2] = {1, 1},
            one[1] = {1};
    int64_t last[1] = {3}, most[4] = {0, INT64_MAX, 1, 5};
    size_t done = 77;
    look("a block over its samples, rounded down",
         phase_fir_in_place(taps, 3, 2, state, 2, block, 4, &done) == PHASE_OK && done == 4
             && block[0] == -1 && block[1] == -1 && block[2] == -1 && block[3] == 0 && state[0] == 0
             && state[1] == 4);
    look("the next goes on in place, in a block shorter than the state",
         phase_fir_in_place(taps, 3, 0, state, 2, one, 1, &done) == PHASE_OK && done == 1
             && one[0] == 9 && state[0] == 4 && state[1] == 1);
    look("an empty block in place, NULL with 0",
         phase_fir_in_place(taps, 3, 0, state, 2, NULL, 0, &done) == PHASE_OK && done == 0
             && state[0] == 4 && state[1] == 1);
    look("one tap in place has no state, NULL with 0",
         phase_fir_in_place(taps + 1, 1, 0, NULL, 0, block, 4, &done) == PHASE_OK && done == 4
             && block[0] == -2 && block[3] == 0);
    look("too big in place: so many values, then samples, and the state stays",
         phase_fir_in_place(ones, 2, 0, last, 1, most, 4, &done) == PHASE_E_TOO_BIG && done == 2
             && most[0] == 3 && most[1] == INT64_MAX && most[2] == 1 && most[3] == 5
             && last[0] == 3);
    look("too big in place at the first sample",
         phase_fir_in_place(ones, 2, 0, last, 1, most + 1, 2, &done) == PHASE_E_TOO_BIG && done == 0
             && most[1] == INT64_MAX && most[2] == 1 && last[0] == 3);
}

/* What both calls of a filter refuse where more than one thing is wrong, and leave all as it was.
 * The first value of each row is too big, so that none is written. */
static void refusals(void)
{
    static const struct {
        const char *name;
        size_t taps;
        uint32_t shift;
        size_t state, room;
        int32_t wanted, in_place;
    } rows[] = {
        {"taps before all", 0, 0, 3, 0, PHASE_E_TAPS, PHASE_E_TAPS},
        {"a shift before all", 2, 63, 3, 0, PHASE_E_TAPS, PHASE_E_TAPS},
        {"taps before the state", 0, 0, 3, 2, PHASE_E_TAPS, PHASE_E_TAPS},
        {"taps before the room", 2, 63, 1, 0, PHASE_E_TAPS, PHASE_E_TAPS},
        {"the state before the room", 2, 0, 3, 0, PHASE_E_COUNTS, PHASE_E_COUNTS},
        {"a state that is one too short", 2, 0, 0, 1, PHASE_E_COUNTS, PHASE_E_COUNTS},
        {"the room before a value", 2, 0, 1, 1, PHASE_E_ROOM, PHASE_E_TOO_BIG},
        {"a value", 2, 0, 1, 2, PHASE_E_TOO_BIG, PHASE_E_TOO_BIG},
    };
    const int64_t taps[2] = {1, 1};
    for (size_t i = 0; i < sizeof rows / sizeof *rows; i++) {
        int64_t state[3] = {INT64_MAX, 4, 5}, block[2] = {1, 2}, out[2] = {-77, -77};
        size_t done = 77;
        look(rows[i].name, phase_fir(taps, rows[i].taps, rows[i].shift, state, rows[i].state, block,
                                     2, out, rows[i].room, &done)
                                   == rows[i].wanted
                               && done == 0 && out[0] == -77 && out[1] == -77
                               && state[0] == INT64_MAX && state[1] == 4);
        done = 77;
        look(rows[i].name, phase_fir_in_place(taps, rows[i].taps, rows[i].shift, state,
                                              rows[i].state, block, 2, &done)
                                   == rows[i].in_place
                               && done == 0 && block[0] == 1 && block[1] == 2
                               && state[0] == INT64_MAX && state[1] == 4);
    }
}

#define SAMPLES 200

/* A stream by both calls, in blocks of so many, beside the sums as they are written down: each
 * value is the sum of the last samples times their taps, by 2 to the power of the shift, rounded
 * down. */
static void streams(const char *name, size_t taps_len, uint32_t shift, size_t each)
{
    int64_t samples[SAMPLES], out[SAMPLES], taps[PHASE_TAPS_MAX];
    int64_t state[PHASE_TAPS_MAX] = {0}, other[PHASE_TAPS_MAX] = {0};
    int is_right = 1;
    for (int64_t n = 0; n < SAMPLES; n++)
        samples[n] = (n * 7919 + 13) % 2003 - 1000;
    for (int64_t j = 0; j < (int64_t)taps_len; j++)
        taps[j] = j * 31 % 17 - 8;
    int64_t in_place[SAMPLES];
    memcpy(in_place, samples, sizeof in_place);
    for (size_t at = 0; at < SAMPLES; at += each) {
        size_t count = at + each < SAMPLES ? each : SAMPLES - at, done = 0, done_in_place = 0;
        is_right =
            is_right
            && phase_fir(taps, taps_len, shift, state, taps_len - 1, samples + at, count, out + at,
                         SAMPLES - at, &done)
                   == PHASE_OK
            && phase_fir_in_place(taps, taps_len, shift, other, taps_len - 1, in_place + at, count,
                                  &done_in_place)
                   == PHASE_OK
            && done == count && done_in_place == count && !memcmp(state, other, sizeof state);
    }
    for (size_t n = 0; n < SAMPLES; n++) {
        int64_t sum = 0, whole = INT64_C(1) << shift;
        for (size_t j = 0; j < taps_len && j <= n; j++)
            sum += taps[j] * samples[n - j];
        int64_t wanted = (sum - (sum % whole + whole) % whole) / whole;
        is_right = is_right && out[n] == wanted && in_place[n] == wanted;
    }
    for (size_t j = 0; j + 1 < taps_len; j++)
        is_right = is_right && state[j] == samples[SAMPLES - taps_len + 1 + j];
    look(name, is_right);
}

static void all_streams(void)
{
    static const size_t each[] = {1, 3, 64, SAMPLES};
    for (size_t i = 0; i < sizeof each / sizeof *each; i++) {
        streams("a stream through one tap", 1, 0, each[i]);
        streams("a stream through three taps", 3, 2, each[i]);
        streams("a stream through the most taps", PHASE_TAPS_MAX, 3, each[i]);
    }
}

static const int64_t shared[3] = {1, 2, 3};

static void *evaluates(void *right)
{
    size_t three[1] = {3}, count[1];
    int64_t out[3], start[1];
    phase_fault fault;
    for (int i = 0; i < 1000; i++)
        *(int *)right +=
            phase_eval(TEXT(sums), shared, 3, three, 1, out, 3, count, 1, start, 1, &fault)
                == PHASE_OK
            && out[2] == 5;
    return NULL;
}

static void four_threads(void)
{
    pthread_t threads[4];
    pthread_attr_t small;
    int right[4] = {0, 0, 0, 0}, begun = 0;
    pthread_attr_init(&small);
    pthread_attr_setstacksize(&small, PTHREAD_STACK_MIN + 65536);
    while (begun < 4 && !pthread_create(threads + begun, &small, evaluates, right + begun))
        begun++;
    for (int i = 0; i < begun; i++)
        pthread_join(threads[i], NULL);
    look("four threads", begun == 4 && right[0] == 1000 && right[1] == 1000 && right[2] == 1000
                             && right[3] == 1000);
}

int main(void)
{
    look("the version of the header", phase_version() == PHASE_VERSION && phase_version() == 200);
    check_edges();
    names();
    all_names();
    named_faults();
    lengths();
    values();
    sinks_that_join_now();
    blocks();
    blocks_in_place();
    refusals();
    all_streams();
    four_threads();
    printf("edges: %d passed, %d failed\n", passed, failed);
    return failed != 0;
}
