/* phase_shared.h: phasers between threads, whose calls wait, from C and C++.
 *
 * Link libphase.a or libphase.so, as for phase.h, and with -pthread where the C library has threads
 * apart. docs/THREADS.md has examples, and phase.hpp the same for C++17.
 *
 * Threads meet at a phaser, phase by phase. Each has a registration of its own, whose mode says
 * whether it signals or waits, or both. A phase is complete when each registration that signals has
 * signalled it, and its value is what the sends of these signals come to. No call names a phase: it
 * is the registration's next one.
 *
 * A registration stands in a struct of the caller's, which has none while it is
 * PHASE_REGISTRATION_INIT, or all zero. The first is made with the phaser, and each other one is
 * the child of one that is there. The phaser lives as long as any of its registrations, and is
 * freed with the last.
 *
 * Calls have three forms. The plain one waits as long as it takes, and is answered neither
 * PHASE_E_AHEAD nor PHASE_E_NOT_YET. The one with _for tries for so many nanoseconds, or a little
 * longer, and then the answer is that of its last try, which may be one of these; 0 is a few tries.
 * The one with try_ tries once: it may be answered so, too, and it alone PHASE_E_BUSY, while
 * another call on the phaser is in the middle. Where others are in the middle all the time, the
 * form with _for answers PHASE_E_AHEAD of a signal and PHASE_E_NOT_YET of a wait. A thread that has
 * waited for more than some microseconds sleeps. Behind `Refused as` stand all negative statuses of
 * the three forms, in the order in which they are looked for; where a call was tried too early or
 * was busy, it is looked at anew.
 *
 * phase_shared_next_for has made its signal when its time is over, or has not: PHASE_SIGNALLED says
 * that it has. PHASE_ASKED says that it has asked others to make it, and did not get its turn since
 * to see whether they did. Its ask stands until the next call that waits, registers, counts who is
 * missing or leaves, which ends it first, at its turn. The wait is told what came of it: the phase,
 * or what its signal was refused as, also as PHASE_E_AHEAD, and then nothing was sent. Before that
 * calls that signal are PHASE_E_SIGNAL_TWICE, and it may be that nobody makes the signal.
 *
 * A program in which one thread may fail, and leave the others to wait for ever, takes the calls
 * with _or_closed: they wait no longer once a thread has called phase_shared_close. Who is missing
 * where nothing goes on tells phase_shared_missing, and phase_shared_lacks in the words that an
 * error has whose time was over.
 *
 * What a thread did before its signal is seen by every thread that got the phase: each call is a
 * sequentially consistent exchange on one word of the phaser.
 *
 * The statuses are those of phase.h, where `the task` is the registration. Where one is negative,
 * the registration and what the call writes are as they were.
 *
 * A caller owes, beside what phase.h says:
 * - One thread at a time uses a registration, but for phase_shared_close and phase_shared_closed.
 *   Who hands it to another orders that by a lock, the start or end of a thread, or a sequentially
 *   consistent atomic.
 * - Nobody reads or writes its fields, but for the zeros at first, and it is not copied. It may be
 *   moved, if the struct where it was is made zero.
 * - It may give NULL for a number, or counts, that a call of phase_shared writes.
 * - Parent and child are two structs.
 * - No thread is cancelled, or leaves by longjmp, in the middle of a call.
 * - Each registration is left. As long as it is not, others may wait for it, and memory is kept.
 *
 * Proved are the answers of the phase_member calls, at the end of this file, which never wait. How
 * a call waits is written in C (phase_wait.c), and is tested; no answer rests on it, since it only
 * tries again. */
#ifndef PHASE_SHARED_H
#define PHASE_SHARED_H
#include "phase.h"
#ifdef __cplusplus
extern "C" {
#endif

/* What the library has of a registration. */
typedef struct phase_member {
    void *at;
    bool live; /* whether there is a registration */
} phase_member;

/* What a registration stands at: its number, which no other registration of its phaser has, the
 * phases that it signals and waits for next, counted from 0, its mode, and the operation. */
typedef struct phase_member_standing {
    uint64_t number;
    uint64_t signal_phase;
    uint64_t wait_phase;
    uint32_t mode;
    uint32_t operation;
} phase_member_standing;

/* How many registrations a phaser has, how many of them signal and how many wait, the first phase
 * that is not complete, counted from 0, and how many of those that signal have signalled it. */
typedef struct phase_member_counts {
    uint64_t tasks;
    uint64_t signallers;
    uint64_t waiters;
    uint64_t phase;
    uint64_t signalled;
} phase_member_counts;

/* The place of a registration. */
typedef struct phase_registration {
    phase_member member;
    struct phase_gate *gate; /* where those that wait on the phaser sleep */
    uint64_t bound;
    uint64_t signal_phase;
    uint64_t wait_phase;
    uint32_t mode;
    uint32_t soon;     /* how soon others come */
    uint64_t crowded;  /* whether others want the processor */
    uint64_t answers;  /* how many phases others' turns made for it */
    uint32_t asks;     /* whether an ask stands, or what came of it is still to be got */
    int32_t outcome;   /* what came of it */
    int64_t kept;      /* and the value */
    uint64_t apart[5]; /* nothing: threads do not write beside each other's in an array */
} phase_registration;

/* A place with no registration. */
#define PHASE_REGISTRATION_INIT {{NULL, false}, NULL, 0, 0, 0, 0, 0, 0, 0, 0, 0, 0, {0}}

/* Makes a phaser of at most this many phases, whose signallers may be `bound` phases ahead of its
 * slowest waiter, and its founder, in the mode PHASE_SINGLE at phase 0. Where threads meet at a
 * barrier, each of which signals a phase and waits for it, the bound should be 2. It takes memory,
 * and so do the calls that register; signals and waits of one phase take none.
 *
 * Refused as PHASE_E_HAS_PHASER, PHASE_E_BAD_OPERATION, PHASE_E_BAD_BOUND, PHASE_E_BAD_PHASES,
 * PHASE_E_MEMORY. */
int32_t phase_shared_new(uint32_t operation, uint64_t bound, uint64_t phases,
                         phase_registration *founder);

/* Registers a child in a mode that the mode of parent holds, at both phases of parent. The child
 * may be handed to another thread. It waits for its turn alone.
 *
 * Refused as PHASE_E_NO_PHASER, PHASE_E_HAS_PHASER, PHASE_E_BAD_MODE, PHASE_E_BUSY,
 * PHASE_E_NOT_ALLOWED, PHASE_E_NOT_NEW, PHASE_E_TOO_MANY_TASKS, PHASE_E_MEMORY. */
int32_t phase_shared_register(phase_registration *parent, uint32_t mode,
                              phase_registration *child);
int32_t phase_shared_try_register(phase_registration *parent, uint32_t mode,
                                  phase_registration *child);

/* Registers a child in the mode PHASE_WAIT at the first phase that is not complete, and writes that
 * phase. The mode of parent waits.
 *
 * Refused as PHASE_E_NO_PHASER, PHASE_E_HAS_PHASER, PHASE_E_BUSY, PHASE_E_NOT_ALLOWED,
 * PHASE_E_NOT_NEW, PHASE_E_TOO_MANY_TASKS, PHASE_E_MEMORY. */
int32_t phase_shared_register_now(phase_registration *parent, phase_registration *child,
                                  uint64_t *phase);
int32_t phase_shared_try_register_now(phase_registration *parent, phase_registration *child,
                                      uint64_t *phase);

/* Signals the phase with these sends and a single or PHASE_NO_SINGLE, and writes that phase. low
 * and high are the ends of a PHASE_CLAMP, and else not read. It waits while the phase is the bound
 * or more ahead of the slowest waiter.
 *
 * Refused as PHASE_E_NO_PHASER, PHASE_E_BAD_SINGLE, PHASE_E_TOO_MANY_SENDS, PHASE_E_BAD_VALUE,
 * PHASE_E_BUSY, PHASE_E_NO_SIGNAL, PHASE_E_NOT_SINGLE, PHASE_E_SIGNAL_TWICE, PHASE_E_SPENT,
 * PHASE_E_AHEAD, PHASE_E_SINGLE_DIFFERS, PHASE_E_PHASE_FULL. */
int32_t phase_shared_signal(phase_registration *registration,
                            const int64_t *values, size_t values_len,
                            uint32_t single, int64_t low, int64_t high, uint64_t *phase);
int32_t phase_shared_try_signal(phase_registration *registration,
                                const int64_t *values, size_t values_len,
                                uint32_t single, int64_t low, int64_t high, uint64_t *phase);
int32_t phase_shared_signal_for(phase_registration *registration,
                                const int64_t *values, size_t values_len,
                                uint32_t single, int64_t low, int64_t high, uint64_t *phase,
                                uint64_t nanoseconds);

/* Signals the phase, as phase_shared_signal does, and then waits for it, where the mode waits, as
 * phase_shared_wait does: a barrier, from which all get what they sent. It writes the phase, and
 * with PHASE_OK its value.
 *
 * The answer is PHASE_SIGNALLED where the mode signals alone; or, of the forms that do not wait
 * until the end, where the phase is signalled and not complete yet. phase_shared_wait, or one of
 * its forms, then gets it. With a time limit it may also be PHASE_ASKED, as said above.
 *
 * Refused as phase_shared_signal is. */
int32_t phase_shared_next(phase_registration *registration,
                          const int64_t *values, size_t values_len,
                          uint32_t single, int64_t low, int64_t high,
                          uint64_t *phase, int64_t *value);
int32_t phase_shared_try_next(phase_registration *registration,
                              const int64_t *values, size_t values_len,
                              uint32_t single, int64_t low, int64_t high,
                              uint64_t *phase, int64_t *value);
int32_t phase_shared_next_for(phase_registration *registration,
                              const int64_t *values, size_t values_len,
                              uint32_t single, int64_t low, int64_t high,
                              uint64_t *phase, int64_t *value, uint64_t nanoseconds);

/* The same with one send and no single, where only what all sent is wanted: it writes the value of
 * the phase. */
int32_t phase_shared_meet(phase_registration *registration, int64_t value, int64_t *result);

/* Gets the phase and its value; or answers PHASE_ENDED, and writes neither. It waits until the
 * phase is complete, or no signaller is registered. The value is INT64_MIN where the phase has
 * none: a sum or a product that is out of range, and under the other operations a phase without a
 * send.
 *
 * Refused as PHASE_E_NO_PHASER, PHASE_E_BUSY, PHASE_E_NO_WAIT, PHASE_E_SIGNAL_FIRST,
 * PHASE_E_NOT_YET. */
int32_t phase_shared_wait(phase_registration *registration, uint64_t *phase, int64_t *value);
int32_t phase_shared_try_wait(phase_registration *registration, uint64_t *phase, int64_t *value);
int32_t phase_shared_wait_for(phase_registration *registration, uint64_t *phase, int64_t *value,
                              uint64_t nanoseconds);

/* Signals as many phases in a row as there are values, with one send each and the single, or
 * PHASE_NO_SINGLE, for all of them; and writes the first phase. It waits until no phase of the
 * block is ahead, and signals all or none. It takes memory for the sends, and gives it back.
 *
 * Refused as PHASE_E_NO_PHASER, PHASE_E_BAD_SINGLE, PHASE_E_BAD_VALUE, PHASE_E_MEMORY,
 * PHASE_E_BUSY, PHASE_E_NO_SIGNAL, PHASE_E_NOT_SINGLE, PHASE_E_BAD_BLOCK, PHASE_E_SIGNAL_TWICE,
 * PHASE_E_SPENT, PHASE_E_AHEAD, PHASE_E_SINGLE_DIFFERS, PHASE_E_PHASE_FULL. */
int32_t phase_shared_signal_block(phase_registration *registration,
                                  const int64_t *values, size_t values_len,
                                  uint32_t single, int64_t low, int64_t high, uint64_t *phase);
int32_t phase_shared_try_signal_block(phase_registration *registration,
                                      const int64_t *values, size_t values_len,
                                      uint32_t single, int64_t low, int64_t high,
                                      uint64_t *phase);
int32_t phase_shared_signal_block_for(phase_registration *registration,
                                      const int64_t *values, size_t values_len,
                                      uint32_t single, int64_t low, int64_t high,
                                      uint64_t *phase, uint64_t nanoseconds);

/* Gets the phase and those behind it that are complete, at most values_len of them, which may be no
 * more than the bound; writes the first phase, how many there are, and the value of each, as
 * phase_shared_wait has it, into the first places of values; or answers PHASE_ENDED, and writes
 * nothing. What stands behind the values stays. It waits until one phase is complete, and no
 * longer. It takes memory for as many values as there are places, and gives it back.
 *
 * Refused as PHASE_E_NO_PHASER, PHASE_E_MEMORY, PHASE_E_BUSY, PHASE_E_NO_WAIT, PHASE_E_BAD_BLOCK,
 * PHASE_E_SIGNAL_FIRST, PHASE_E_NOT_YET. */
int32_t phase_shared_wait_block(phase_registration *registration, int64_t *values,
                                size_t values_len, uint64_t *phase, size_t *count);
int32_t phase_shared_try_wait_block(phase_registration *registration, int64_t *values,
                                    size_t values_len, uint64_t *phase, size_t *count);
int32_t phase_shared_wait_block_for(phase_registration *registration, int64_t *values,
                                    size_t values_len, uint64_t *phase, size_t *count,
                                    uint64_t nanoseconds);

/* ---- Who is missing, and an end for all. */

/* Writes how the phaser stands, and the numbers of those that are missing: of the registrations
 * that signal and have not signalled the first phase that is not complete. They are as many as
 * counts->signallers - counts->signalled, and stand in the first places, in the order in which they
 * joined, as many as there are places for; NULL and 0 are none. phase_shared_view has the number of
 * a registration. It waits for its turn alone.
 *
 * Refused as PHASE_E_NO_PHASER, PHASE_E_BUSY. */
int32_t phase_shared_missing(phase_registration *registration, phase_member_counts *counts,
                             uint64_t *places, size_t places_len);
int32_t phase_shared_try_missing(phase_registration *registration, phase_member_counts *counts,
                                 uint64_t *places, size_t places_len);

/* Writes who is missing as a text that ends in a zero, for the words of an error, as `phase 7 lacks
 * the signal of 1, 4 and 2 more`. It names 16 at most, and the text is cut where it is longer than
 * text_len, which PHASE_LACKS_MAX never is too short for. It is empty where nobody is missing, and
 * where the call is refused. It waits for its turn for a millisecond at most.
 *
 * Refused as PHASE_E_NO_PHASER, PHASE_E_BUSY. */
int32_t phase_shared_lacks(phase_registration *registration, char *text, size_t text_len);
enum { PHASE_LACKS_MAX = 512 };

/* Closes the phaser, for ever: who waits by a call with _or_closed comes back, and no such call
 * waits from then on. Every other call goes on as before, and nothing is lost that was sent or is
 * complete. It is for a thread that fails. Any thread may call it, also while another is in the
 * middle of a call on the registration, as long as nobody leaves by it meanwhile.
 *
 * Refused as PHASE_E_NO_PHASER. */
int32_t phase_shared_close(const phase_registration *registration);

/* Answers PHASE_E_CLOSED where the phaser was closed, and else PHASE_OK. Any thread may call it, as
 * it may phase_shared_close. Refused as PHASE_E_NO_PHASER. */
int32_t phase_shared_closed(const phase_registration *registration);

/* As many nanoseconds as it takes. */
#define PHASE_FOR_EVER UINT64_MAX

/* The calls above with _for, where none waits once the phaser is closed. What is complete then, or
 * has room, is still got or signalled; what would have to wait is answered PHASE_E_CLOSED, whatever
 * time is left, and all is as it was. phase_shared_next_or_closed is answered so where its signal
 * would have to wait; where its phase is signalled and not complete it is PHASE_SIGNALLED, and
 * phase_shared_closed tells whether that is since time was over. A thread that should end also
 * where it need not wait, as the last one that is left, asks phase_shared_closed itself. */
int32_t phase_shared_signal_or_closed(phase_registration *registration,
                                      const int64_t *values, size_t values_len,
                                      uint32_t single, int64_t low, int64_t high,
                                      uint64_t *phase, uint64_t nanoseconds);
int32_t phase_shared_next_or_closed(phase_registration *registration,
                                    const int64_t *values, size_t values_len,
                                    uint32_t single, int64_t low, int64_t high,
                                    uint64_t *phase, int64_t *value, uint64_t nanoseconds);
int32_t phase_shared_wait_or_closed(phase_registration *registration, uint64_t *phase,
                                    int64_t *value, uint64_t nanoseconds);
int32_t phase_shared_signal_block_or_closed(phase_registration *registration,
                                            const int64_t *values, size_t values_len,
                                            uint32_t single, int64_t low, int64_t high,
                                            uint64_t *phase, uint64_t nanoseconds);
int32_t phase_shared_wait_block_or_closed(phase_registration *registration, int64_t *values,
                                          size_t values_len, uint64_t *phase, size_t *count,
                                          uint64_t nanoseconds);

/* ---- Ends. */

/* Ends the registration; there is none then. From then on no phase waits for it, and phases that
 * the others have signalled are complete. It waits for its turn alone. With the last registration
 * the phaser ends, and its memory is given back.
 *
 * Refused as PHASE_E_NO_PHASER, PHASE_E_BUSY. */
int32_t phase_shared_leave(phase_registration *registration);
int32_t phase_shared_try_leave(phase_registration *registration);

/* Writes what the registration stands at. Refused as PHASE_E_NO_PHASER. */
int32_t phase_shared_view(phase_registration *registration, phase_member_standing *standing);

/* Writes how far the phaser is, as far as the calls that have ended tell: the phases below done are
 * complete, and every waiter got those below base. Each is UINT64_MAX where nobody is left to wait
 * for. Neither ever falls. It is a hint for when to try, and takes no turn. */
int32_t phase_shared_told(phase_registration *registration, uint64_t *done, uint64_t *base);

/* Writes how many phases of phase_shared_next, and of its other forms, others' turns made for the
 * registration: it asked for them, and took no turn for the answer. It takes no turn. Refused as
 * PHASE_E_NO_PHASER. */
int32_t phase_shared_answers(const phase_registration *registration, uint64_t *answers);

/* What phase_status_text says, as a call of the library, for whoever cannot read the header. */
const char *phase_shared_status_text(int32_t status);

/* ---- What stands under these calls, without any waiting: the forms with try_, over what the
 * library has of a registration, and proved. Those above wake who sleeps, and these do not; so the
 * two are not mixed on one phaser, unless nobody minds some 10 milliseconds. */

int32_t phase_member_new(uint32_t operation, uint64_t bound, uint64_t phases,
                         phase_member *founder);
int32_t phase_member_register(phase_member *parent, uint32_t mode, phase_member *child);
int32_t phase_member_register_now(phase_member *parent, phase_member *child, uint64_t *phase);
int32_t phase_member_signal(phase_member *member, const int64_t *values, size_t values_len,
                            uint32_t single, int64_t low, int64_t high, uint64_t *phase);
int32_t phase_member_next(phase_member *member, const int64_t *values, size_t values_len,
                          uint32_t single, int64_t low, int64_t high,
                          uint64_t *phase, int64_t *value);
int32_t phase_member_signal_block(phase_member *member, const int64_t *values, size_t values_len,
                                  uint32_t single, int64_t low, int64_t high, uint64_t *phase);
int32_t phase_member_wait(phase_member *member, uint64_t *phase, int64_t *value);
int32_t phase_member_wait_block(phase_member *member, int64_t *values, size_t values_len,
                                uint64_t *phase, size_t *count);
int32_t phase_member_leave(phase_member *member);

/* Asks others for the next phase, with one value at most and no single, where it can: the mode
 * signals and waits, others are registered, and one of 16 lanes is its own. It answers PHASE_ASKED,
 * or PHASE_E_CANNOT_ASK. Until the ask has ended every other call on the registration is
 * PHASE_E_BUSY, but for those below, phase_member_close, phase_member_closed, phase_member_view
 * and phase_member_told.
 *
 * phase_member_look ends the ask where another's turn has made it: PHASE_OK with the phase and its
 * value, or else PHASE_ASKED. phase_member_serve takes the turn, where that is free, signals for
 * all that ask, looks so often for more, and ends the ask where its phase is complete or its signal
 * refused; else it is PHASE_ASKED where its signal is made, and PHASE_E_BUSY where the turn was
 * another's. phase_member_take_back ends it whenever it gets the turn: PHASE_SIGNALLED where its
 * wait is still to be made, and PHASE_E_BUSY where the turn was another's. All three are
 * PHASE_E_NOT_ASKED where it asks for nothing. Who sleeps owes a phase_member_serve before that is
 * PHASE_ASKED. */
int32_t phase_member_ask(phase_member *member, const int64_t *values, size_t values_len);
int32_t phase_member_look(phase_member *member, uint64_t *phase, int64_t *value);
int32_t phase_member_serve(phase_member *member, uint32_t looks, uint64_t *phase, int64_t *value);
int32_t phase_member_take_back(phase_member *member, uint64_t *phase, int64_t *value);

/* Closes the phaser for phase_member_closed of each of its registrations, which answers
 * PHASE_E_CLOSED then, and else PHASE_OK. The calls of phase_shared do not heed it. */
int32_t phase_member_close(phase_member *member);
int32_t phase_member_closed(phase_member *member);

int32_t phase_member_missing(phase_member *member, phase_member_counts *counts, uint64_t *places,
                             size_t places_len);
int32_t phase_member_view(phase_member *member, phase_member_standing *standing);
int32_t phase_member_told(phase_member *member, uint64_t *done, uint64_t *base);

/* A program that ThreadSanitizer looks at sees what these calls order. */
#if defined(__has_feature) && !defined(PHASE_RACES)
#if __has_feature(thread_sanitizer)
#define PHASE_RACES
#endif
#endif
#if (defined(__SANITIZE_THREAD__) || defined(PHASE_RACES)) && !defined(PHASE_WAIT_ITSELF)
#include "phase_races.h"
#endif

#ifdef __cplusplus
}
#endif
#endif
