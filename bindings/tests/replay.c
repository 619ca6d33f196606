/* replay SCRIPT..: each script by a phaser of C, beside the replies that are stored in
 * SCRIPT.stdout. A line that is none of the grammar is left out, and so is one that no call has: a
 * number for a child that is not the next. */
#define _POSIX_C_SOURCE 200809L
#include "phase.h"
#include <inttypes.h>
#include <stdio.h>
#include <stdlib.h>
#include <string.h>

enum { TASKS = 16, HELD = 16, WORDS = 20 };

/* What a script has left so far: its phaser with the operation, the sends that each task holds, and
 * the greatest number of a task. */
struct script {
    phase_phaser phaser;
    uint32_t operation;
    int64_t held[TASKS][HELD];
    size_t held_count[TASKS];
    uint64_t greatest;
};

struct word {
    const char *text;
    int number;
};

static const struct word operations[] = {
    {"sum", PHASE_SUM},           {"product", PHASE_PRODUCT}, {"least", PHASE_LEAST},
    {"greatest", PHASE_GREATEST}, {"any", PHASE_ANY},         {NULL, 0}};
static const struct word modes[] = {
    {"sig", PHASE_SIG},
    {"wait", PHASE_WAIT},
    {"sigwait", PHASE_SIG_WAIT},
    {"single", PHASE_SINGLE},
    {NULL, 0}};
static const struct word singles[] = {
    {"neg", PHASE_NEG},
    {"abs", PHASE_ABS},
    {"halve", PHASE_HALVE},
    {"clamp", PHASE_CLAMP},
    {NULL, PHASE_NO_SINGLE}};
static const struct word refusals[] = {{"made", PHASE_E_HAS_PHASER},
                                       {"bad-bound", PHASE_E_BAD_BOUND},
                                       {"bad-phases", PHASE_E_BAD_PHASES},
                                       {"no-task", PHASE_E_NO_TASK},
                                       {"not-allowed", PHASE_E_NOT_ALLOWED},
                                       {"not-new", PHASE_E_NOT_NEW},
                                       {"too-many-tasks", PHASE_E_TOO_MANY_TASKS},
                                       {"no-signal", PHASE_E_NO_SIGNAL},
                                       {"not-single", PHASE_E_NOT_SINGLE},
                                       {"signal-twice", PHASE_E_SIGNAL_TWICE},
                                       {"spent", PHASE_E_SPENT},
                                       {"ahead", PHASE_E_AHEAD},
                                       {"single-differs", PHASE_E_SINGLE_DIFFERS},
                                       {"phase-full", PHASE_E_PHASE_FULL},
                                       {"no-wait", PHASE_E_NO_WAIT},
                                       {"signal-first", PHASE_E_SIGNAL_FIRST},
                                       {"not-yet", PHASE_E_NOT_YET},
                                       {NULL, 0}};

/* The number of a word, or that of the row without one. */
static int number_of(const struct word *rows, const char *text)
{
    while (rows->text && strcmp(rows->text, text) != 0)
        rows++;
    return rows->number;
}

static const char *text_of(const struct word *rows, int number)
{
    while (rows->text && rows->number != number)
        rows++;
    return rows->text ? rows->text : "a status that is none";
}

static uint64_t whole(const char *word)
{
    return strtoull(word, NULL, 10);
}

static int32_t holds(struct script *script, uint64_t task, int64_t value)
{
    phase_standing standing;
    int32_t status = phase_phaser_view(&script->phaser, task, &standing);
    if (status != PHASE_OK)
        return status;
    if (standing.mode == PHASE_WAIT)
        return PHASE_E_NO_SIGNAL;
    /* Sends stay here until the task signals. */
    script->held[task][script->held_count[task]++] = value;
    return PHASE_OK;
}

static int32_t signals(struct script *script, uint64_t task, char **rest, uint64_t *phase)
{
    uint32_t single = rest[0] ? (uint32_t)number_of(singles, rest[0]) : PHASE_NO_SINGLE;
    int64_t low = single == PHASE_CLAMP ? strtoll(rest[1], NULL, 10) : 0;
    int64_t high = single == PHASE_CLAMP ? strtoll(rest[2], NULL, 10) : 0;
    int32_t status = phase_phaser_signal(&script->phaser, task, script->held[task],
                                         script->held_count[task], single, low, high, phase);
    if (status == PHASE_OK)
        script->held_count[task] = 0;
    return status;
}

/* Writes the reply to a wait that got a value or the number of none. */
static void write_value(const struct script *script, uint64_t phase, int64_t value, char *reply,
                        size_t size)
{
    if (value != INT64_MIN)
        snprintf(reply, size, "value %" PRIu64 " %" PRId64, phase, value);
    else
        snprintf(reply, size, "%s %" PRIu64,
                 script->operation <= PHASE_PRODUCT ? "toobig" : "empty", phase);
}

/* Writes the reply to the words of a line, behind which there are NULLs; or answers 0 where it is
 * left out. */
static int replies(struct script *script, char **words, char *reply, size_t size)
{
    uint64_t task = words[1] ? whole(words[1]) : 0, phase = 0, child = 0;
    int64_t value = 0;
    int32_t status;
    int tells_phase = 0;
    if (task >= TASKS)
        return 0;
    if (!strcmp(words[0], "make")) {
        uint32_t operation = (uint32_t)number_of(operations, words[1]);
        status = phase_phaser_new(operation, whole(words[2]), whole(words[3]), &script->phaser);
        script->operation = status == PHASE_OK ? operation : script->operation;
    } else if (!strcmp(words[0], "add") || !strcmp(words[0], "now")) {
        tells_phase = words[0][0] == 'n';
        if (whole(words[2]) != script->greatest + 1)
            return 0;
        uint32_t mode = tells_phase ? PHASE_WAIT : (uint32_t)number_of(modes, words[3]);
        status = tells_phase ? phase_phaser_register_now(&script->phaser, task, &child, &phase)
                             : phase_phaser_register(&script->phaser, task, mode, &child);
        if (status == PHASE_OK && child != ++script->greatest)
            return snprintf(reply, size, "task %" PRIu64, child);
    } else if (!strcmp(words[0], "send"))
        status = holds(script, task, strtoll(words[2], NULL, 10));
    else if (!strcmp(words[0], "signal"))
        status = signals(script, task, words + 2, &phase), tells_phase = 1;
    else if (!strcmp(words[0], "drop"))
        status = phase_phaser_drop(&script->phaser, task);
    else if (!strcmp(words[0], "wait"))
        status = phase_phaser_wait(&script->phaser, task, &phase, &value);
    else
        return 0;
    if (status == PHASE_ENDED)
        snprintf(reply, size, "ended");
    else if (status != PHASE_OK)
        snprintf(reply, size, "no %s", text_of(refusals, status));
    else if (!strcmp(words[0], "wait"))
        write_value(script, phase, value, reply, size);
    else if (tells_phase)
        snprintf(reply, size, "ok %" PRIu64, phase);
    else
        snprintf(reply, size, "ok");
    return 1;
}

static int passed, failed;

static void replay(const char *name, FILE *lines, FILE *stored)
{
    struct script script = {0};
    char line[512], wanted[512], reply[512];
    for (int number = 1; fgets(line, sizeof line, lines) && fgets(wanted, sizeof wanted, stored);
         number++) {
        char *words[WORDS] = {0};
        int count = 0;
        wanted[strcspn(wanted, "\n")] = 0;
        if (!strcmp(wanted, "bad line"))
            continue;
        for (char *word = strtok(line, " \n"); word && count < WORDS - 4;
             word = strtok(NULL, " \n"))
            words[count++] = word;
        if (!replies(&script, words, reply, sizeof reply))
            continue;
        if (strcmp(reply, wanted) != 0)
            printf("replay: %s: line %d: %s, and not %s\n", name, number, reply, wanted);
        *(strcmp(reply, wanted) == 0 ? &passed : &failed) += 1;
    }
    phase_phaser_free(&script.phaser);
}

int main(int argc, char **argv)
{
    for (int i = 1; i < argc; i++) {
        char name[1024];
        snprintf(name, sizeof name, "%s.stdout", argv[i]);
        FILE *lines = fopen(argv[i], "r"), *stored = fopen(name, "r");
        if (lines && stored)
            replay(argv[i], lines, stored);
        else
            failed++, printf("replay: there is no %s, or no %s\n", argv[i], name);
        if (lines)
            fclose(lines);
        if (stored)
            fclose(stored);
    }
    printf("replay: %d replies as stored, %d others\n", passed, failed);
    return failed != 0 || passed == 0;
}
