/* What libphase answers of filters of any form: values worked out by hand, streams by blocks of any
 * length beside sums as they are written down, and each refusal. */
#include "phase.h"
#include <stdio.h>
#include <string.h>

#define MOST 200
#define BIG INT64_C(4611686018427387904)

static int passed, failed;

static void look(const char *name, int is_right)
{
    if (!is_right)
        printf("formed: %s\n", name);
    *(is_right ? &passed : &failed) += 1;
}

static const int64_t ones[66] = {1, 1, 1, 1, 1, 1, 1, 1, 1, 1, 1, 1, 1, 1, 1, 1, 1,
                                 1, 1, 1, 1, 1, 1, 1, 1, 1, 1, 1, 1, 1, 1, 1, 1, 1,
                                 1, 1, 1, 1, 1, 1, 1, 1, 1, 1, 1, 1, 1, 1, 1, 1, 1,
                                 1, 1, 1, 1, 1, 1, 1, 1, 1, 1, 1, 1, 1, 1, 1};

/* By hand: a filter from its first sample on, with one or two taps that are 1 or 2. */
static void by_hand(void)
{
    static const struct {
        const char *name;
        phase_fir_form form;
        size_t taps, samples;
        int64_t tap, block[6], values[6];
    } rows[] = {
        {"a sum so far", {.again = 1}, 2, 4, 1, {1, 2, 3, 4}, {1, 3, 6, 10}},
        {"the sum of the last two values", {.again = 2}, 3, 6, 1, {1, 0, 0, 0, 0, 0},
         {1, 1, 2, 3, 5, 8}},
        {"a clamp saturates", {.again = 1, .single = PHASE_CLAMP, .low = -5, .high = 5}, 2, 4, 1,
         {3, 3, 3, -20}, {3, 5, 5, -5}},
        {"a clamp before the range", {.single = PHASE_CLAMP, .low = -5, .high = INT64_MAX}, 1, 2, 2,
         {INT64_MAX, INT64_MIN}, {INT64_MAX, -5}},
        {"a value is put behind its sign", {.again = 1, .single = PHASE_NEG}, 2, 3, 1, {1, 2, 3},
         {-1, -1, -2}},
        {"a magnitude", {.single = PHASE_ABS}, 1, 2, 1, {-3, 4}, {3, 4}},
        {"a half, rounded down", {.single = PHASE_HALVE}, 1, 2, 1, {-3, 4}, {-2, 2}},
        {"a sum, then the shift", {.shift = 1, .plus = 1, .delay = 1}, 1, 3, 1, {3, 4, -3},
         {0, 2, 2}},
        {"as no form", {.low = 7, .high = -7}, 2, 3, 1, {1, 2, 3}, {1, 3, 5}},
    };
    for (size_t i = 0; i < sizeof rows / sizeof *rows; i++) {
        int64_t taps[3] = {rows[i].tap, 1, 1}, state[3] = {0}, puts[2] = {0}, out[6], place[6];
        int64_t other[3] = {0}, other_puts[2] = {0};
        size_t n = rows[i].samples, done = 77, again = rows[i].form.again;
        size_t reach = rows[i].form.delay + rows[i].taps - again;
        memcpy(place, rows[i].block, sizeof place);
        look(rows[i].name, phase_fir_with(taps, rows[i].taps, &rows[i].form, state, reach, puts,
                                          again, rows[i].block, n, out, 6, &done)
                                   == PHASE_OK
                               && done == n && !memcmp(out, rows[i].values, n * sizeof *out)
                               && !memcmp(puts, out + n - again, again * sizeof *out)
                               && !memcmp(state, rows[i].block + n - reach, reach * sizeof *out));
        done = 77;
        look(rows[i].name, phase_fir_with_in_place(taps, rows[i].taps, &rows[i].form, other, reach,
                                                   other_puts, again, place, n, &done)
                                   == PHASE_OK
                               && done == n && !memcmp(place, out, n * sizeof *out)
                               && !memcmp(state, other, sizeof state)
                               && !memcmp(puts, other_puts, sizeof puts));
    }
}

/* What is refused where more than one thing is wrong; and then all is as it was. The first value of
 * each row is too big, so that none is written. */
static void refusals(void)
{
    static const struct {
        const char *name;
        size_t taps;
        phase_fir_form form;
        size_t state, puts, room;
        int32_t wanted, in_place;
    } rows[] = {
        {"no taps", 0, {0}, 0, 0, 0, PHASE_E_TAPS, PHASE_E_TAPS},
        {"no tap for a sample", 2, {.again = 2}, 0, 2, 2, PHASE_E_TAPS, PHASE_E_TAPS},
        {"fewer taps than weigh again", 1, {.again = 2}, 0, 2, 2, PHASE_E_TAPS, PHASE_E_TAPS},
        {"65 taps weigh again", 66, {.again = 65}, 1, 65, 2, PHASE_E_TAPS, PHASE_E_TAPS},
        {"a shift", 2, {.shift = 63, .again = 1}, 1, 1, 2, PHASE_E_TAPS, PHASE_E_TAPS},
        {"a plus", 2, {.plus = BIG + 1, .again = 1}, 1, 1, 2, PHASE_E_TAPS, PHASE_E_TAPS},
        {"a plus below 0", 2, {.plus = -BIG - 1, .again = 1}, 1, 1, 2, PHASE_E_TAPS, PHASE_E_TAPS},
        {"a delay", 2, {.delay = 65537, .again = 1}, 1, 1, 2, PHASE_E_TAPS, PHASE_E_TAPS},
        {"a delay of any size", 2, {.delay = SIZE_MAX, .again = 1}, 0, 1, 2, PHASE_E_TAPS,
         PHASE_E_TAPS},
        {"taps that weigh again of any number", 2, {.again = SIZE_MAX}, 3, 1, 2, PHASE_E_TAPS,
         PHASE_E_TAPS},
        {"no single", 2, {.single = 5, .again = 1}, 1, 1, 2, PHASE_E_TAPS, PHASE_E_TAPS},
        {"a low end above the high", 2, {.single = PHASE_CLAMP, .again = 1, .low = 1}, 1, 1, 2,
         PHASE_E_TAPS, PHASE_E_TAPS},
        {"an end that is no value", 2, {.single = PHASE_CLAMP, .again = 1, .low = INT64_MIN}, 1, 1,
         2, PHASE_E_TAPS, PHASE_E_TAPS},
        {"the form before the state", 2, {.single = 5, .again = 1}, 3, 1, 2, PHASE_E_TAPS,
         PHASE_E_TAPS},
        {"the shift before puts and room", 2, {.shift = 63, .again = 1}, 1, 0, 0, PHASE_E_TAPS,
         PHASE_E_TAPS},
        {"a state that is too long", 2, {.again = 1}, 2, 1, 2, PHASE_E_COUNTS, PHASE_E_COUNTS},
        {"a state that is too short", 2, {.delay = 1, .again = 1}, 1, 1, 2, PHASE_E_COUNTS,
         PHASE_E_COUNTS},
        {"puts that are too long", 2, {.again = 1}, 1, 2, 2, PHASE_E_COUNTS, PHASE_E_COUNTS},
        {"puts that are too short", 2, {.again = 1}, 1, 0, 2, PHASE_E_COUNTS, PHASE_E_COUNTS},
        {"puts before the room", 2, {.again = 1}, 1, 0, 0, PHASE_E_COUNTS, PHASE_E_COUNTS},
        {"the room before a value", 2, {.again = 1}, 1, 1, 1, PHASE_E_ROOM, PHASE_E_TOO_BIG},
        {"a value", 2, {.again = 1}, 1, 1, 2, PHASE_E_TOO_BIG, PHASE_E_TOO_BIG},
    };
    for (size_t i = 0; i < sizeof rows / sizeof *rows; i++) {
        int64_t state[3] = {4, 5, 6}, puts[66] = {INT64_MAX, 7}, block[2] = {1, 2};
        int64_t out[2] = {-77, -77};
        size_t done = 77;
        look(rows[i].name,
             phase_fir_with(ones, rows[i].taps, &rows[i].form, state, rows[i].state, puts,
                            rows[i].puts, block, 2, out, rows[i].room, &done)
                     == rows[i].wanted
                 && done == 0 && out[0] == -77 && out[1] == -77 && state[0] == 4 && state[1] == 5
                 && puts[0] == INT64_MAX && puts[1] == 7);
        done = 77;
        look(rows[i].name,
             phase_fir_with_in_place(ones, rows[i].taps, &rows[i].form, state, rows[i].state, puts,
                                     rows[i].puts, block, 2, &done)
                     == rows[i].in_place
                 && done == 0 && block[0] == 1 && block[1] == 2 && state[0] == 4 && state[1] == 5
                 && puts[0] == INT64_MAX && puts[1] == 7);
    }
}

static void too_big(void)
{
    phase_fir_form form = {.again = 1};
    int64_t state[1] = {4}, puts[1] = {INT64_MAX - 1}, block[3] = {1, 1, 5}, out[3] = {-7, -7, -7};
    size_t done = 77;
    look("so many are right, and the state stays",
         phase_fir_with(ones, 2, &form, state, 1, puts, 1, block, 3, out, 3, &done)
                 == PHASE_E_TOO_BIG
             && done == 1 && out[0] == INT64_MAX && out[1] == -7 && state[0] == 4
             && puts[0] == INT64_MAX - 1);
    look("in place too, with samples behind them",
         phase_fir_with_in_place(ones, 2, &form, state, 1, puts, 1, block, 3, &done)
                 == PHASE_E_TOO_BIG
             && done == 1 && block[0] == INT64_MAX && block[1] == 1 && block[2] == 5
             && state[0] == 4 && puts[0] == INT64_MAX - 1);
    look("an empty block, NULL with 0",
         phase_fir_with(ones, 2, &form, state, 1, puts, 1, NULL, 0, NULL, 0, &done) == PHASE_OK
             && done == 0 && state[0] == 4 && puts[0] == INT64_MAX - 1);
}

/* z divided by 2 to the power of the shift, rounded down. */
static int64_t shifted(int64_t z, uint32_t shift)
{
    int64_t whole = INT64_C(1) << shift;
    return (z - (z % whole + whole) % whole) / whole;
}

/* A stream by both calls, in blocks of so many, beside the sums as they are written down. */
static void stream(const char *name, size_t each)
{
    static const int64_t taps[7] = {3, -5, 7, 2, 4, -3, 2};
    phase_fir_form form = {.shift = 3, .plus = 4, .delay = 3, .again = 3, .single = PHASE_CLAMP,
                           .low = -1000, .high = 900};
    int64_t samples[MOST], wanted[MOST], out[MOST], place[MOST];
    int64_t state[7] = {0}, puts[3] = {0}, other[7] = {0}, other_puts[3] = {0};
    int is_right = 1;
    for (int64_t n = 0; n < MOST; n++)
        place[n] = samples[n] = (n * 7919 + 13) % 2003 - 1000;
    for (int n = 0; n < MOST; n++) {
        int64_t sum = 4;
        for (int j = 0; j < 4 && j + 3 <= n; j++)
            sum += taps[j] * samples[n - 3 - j];
        for (int j = 0; j < 3 && j + 1 <= n; j++)
            sum += taps[4 + j] * wanted[n - 1 - j];
        sum = shifted(sum, 3);
        wanted[n] = sum < -1000 ? -1000 : sum > 900 ? 900 : sum;
    }
    for (size_t at = 0; at < MOST; at += each) {
        size_t count = at + each < MOST ? each : MOST - at, done = 0, other_done = 0;
        is_right = is_right
                   && phase_fir_with(taps, 7, &form, state, 7, puts, 3, samples + at, count,
                                     out + at, MOST - at, &done)
                          == PHASE_OK
                   && phase_fir_with_in_place(taps, 7, &form, other, 7, other_puts, 3, place + at,
                                              count, &other_done)
                          == PHASE_OK
                   && done == count && other_done == count;
    }
    look(name, is_right && !memcmp(out, wanted, sizeof out) && !memcmp(place, wanted, sizeof out)
                   && !memcmp(state, samples + MOST - 7, sizeof state)
                   && !memcmp(other, state, sizeof state)
                   && !memcmp(puts, wanted + MOST - 3, sizeof puts)
                   && !memcmp(other_puts, puts, sizeof puts));
}

int main(void)
{
    by_hand();
    refusals();
    too_big();
    stream("one by one", 1);
    stream("by twos", 2);
    stream("in blocks of the state's length", 7);
    stream("in blocks of 16", 16);
    stream("whole", MOST);
    printf("formed: %d passed, %d failed\n", passed, failed);
    return failed != 0;
}
