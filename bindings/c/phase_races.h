/* phase_races.h: has ThreadSanitizer see what the calls of phase_shared.h order. That header
 * includes it in a program that is compiled with the sanitizer, and nothing else does.
 *
 * The library is not compiled so, and the sanitizer would take what it orders for a race. Here each
 * call that signals or leaves says to it that what its thread did before is handed on, and each
 * that got a phase that it sees what was. */
#ifndef PHASE_RACES_H
#define PHASE_RACES_H
#include <sanitizer/tsan_interface.h>

/* A call that hands on what its thread did, and one that sees what was handed on. */
#define PHASE_HANDS_ON(call, parameters, arguments)                                                \
    static inline int32_t call##_seen parameters                                                   \
    {                                                                                              \
        __tsan_release(registration->gate);                                                        \
        return call arguments;                                                                     \
    }
#define PHASE_SEES(call, parameters, arguments)                                                    \
    static inline int32_t call##_seen parameters                                                   \
    {                                                                                              \
        int32_t status = call arguments;                                                           \
        __tsan_acquire(registration->gate);                                                        \
        return status;                                                                             \
    }
#define PHASE_MEETS(call, parameters, arguments)                                                   \
    static inline int32_t call##_seen parameters                                                   \
    {                                                                                              \
        __tsan_release(registration->gate);                                                        \
        int32_t status = call arguments;                                                           \
        __tsan_acquire(registration->gate);                                                        \
        return status;                                                                             \
    }

#define PHASE_SENT                                                                                 \
    phase_registration *registration, const int64_t *values, size_t values_len, uint32_t single,   \
        int64_t low, int64_t high, uint64_t *phase
#define PHASE_GOT phase_registration *registration, uint64_t *phase, int64_t *value
#define PHASE_PLACES                                                                               \
    phase_registration *registration, int64_t *values, size_t values_len, uint64_t *phase,         \
        size_t *count

PHASE_HANDS_ON(phase_shared_signal, (PHASE_SENT),
               (registration, values, values_len, single, low, high, phase))
PHASE_HANDS_ON(phase_shared_try_signal, (PHASE_SENT),
               (registration, values, values_len, single, low, high, phase))
PHASE_HANDS_ON(phase_shared_signal_for, (PHASE_SENT, uint64_t nanoseconds),
               (registration, values, values_len, single, low, high, phase, nanoseconds))
PHASE_HANDS_ON(phase_shared_signal_block, (PHASE_SENT),
               (registration, values, values_len, single, low, high, phase))
PHASE_HANDS_ON(phase_shared_try_signal_block, (PHASE_SENT),
               (registration, values, values_len, single, low, high, phase))
PHASE_HANDS_ON(phase_shared_signal_block_for, (PHASE_SENT, uint64_t nanoseconds),
               (registration, values, values_len, single, low, high, phase, nanoseconds))
PHASE_MEETS(phase_shared_next, (PHASE_SENT, int64_t *value),
            (registration, values, values_len, single, low, high, phase, value))
PHASE_MEETS(phase_shared_try_next, (PHASE_SENT, int64_t *value),
            (registration, values, values_len, single, low, high, phase, value))
PHASE_MEETS(phase_shared_next_for, (PHASE_SENT, int64_t *value, uint64_t nanoseconds),
            (registration, values, values_len, single, low, high, phase, value, nanoseconds))
PHASE_MEETS(phase_shared_meet, (phase_registration *registration, int64_t value, int64_t *result),
            (registration, value, result))
PHASE_SEES(phase_shared_wait, (PHASE_GOT), (registration, phase, value))
PHASE_SEES(phase_shared_try_wait, (PHASE_GOT), (registration, phase, value))
PHASE_SEES(phase_shared_wait_for, (PHASE_GOT, uint64_t nanoseconds),
           (registration, phase, value, nanoseconds))
PHASE_SEES(phase_shared_wait_block, (PHASE_PLACES),
           (registration, values, values_len, phase, count))
PHASE_SEES(phase_shared_try_wait_block, (PHASE_PLACES),
           (registration, values, values_len, phase, count))
PHASE_SEES(phase_shared_wait_block_for, (PHASE_PLACES, uint64_t nanoseconds),
           (registration, values, values_len, phase, count, nanoseconds))
PHASE_MEETS(phase_shared_signal_or_closed, (PHASE_SENT, uint64_t nanoseconds),
            (registration, values, values_len, single, low, high, phase, nanoseconds))
PHASE_MEETS(phase_shared_signal_block_or_closed, (PHASE_SENT, uint64_t nanoseconds),
            (registration, values, values_len, single, low, high, phase, nanoseconds))
PHASE_MEETS(phase_shared_next_or_closed, (PHASE_SENT, int64_t *value, uint64_t nanoseconds),
            (registration, values, values_len, single, low, high, phase, value, nanoseconds))
PHASE_SEES(phase_shared_wait_or_closed, (PHASE_GOT, uint64_t nanoseconds),
           (registration, phase, value, nanoseconds))
PHASE_SEES(phase_shared_wait_block_or_closed, (PHASE_PLACES, uint64_t nanoseconds),
           (registration, values, values_len, phase, count, nanoseconds))
PHASE_SEES(phase_shared_closed, (const phase_registration *registration), (registration))
PHASE_HANDS_ON(phase_shared_close, (const phase_registration *registration), (registration))
PHASE_HANDS_ON(phase_shared_leave, (phase_registration *registration), (registration))
PHASE_HANDS_ON(phase_shared_try_leave, (phase_registration *registration), (registration))

#define phase_shared_signal phase_shared_signal_seen
#define phase_shared_try_signal phase_shared_try_signal_seen
#define phase_shared_signal_for phase_shared_signal_for_seen
#define phase_shared_signal_block phase_shared_signal_block_seen
#define phase_shared_try_signal_block phase_shared_try_signal_block_seen
#define phase_shared_signal_block_for phase_shared_signal_block_for_seen
#define phase_shared_next phase_shared_next_seen
#define phase_shared_try_next phase_shared_try_next_seen
#define phase_shared_next_for phase_shared_next_for_seen
#define phase_shared_meet phase_shared_meet_seen
#define phase_shared_wait phase_shared_wait_seen
#define phase_shared_try_wait phase_shared_try_wait_seen
#define phase_shared_wait_for phase_shared_wait_for_seen
#define phase_shared_wait_block phase_shared_wait_block_seen
#define phase_shared_try_wait_block phase_shared_try_wait_block_seen
#define phase_shared_wait_block_for phase_shared_wait_block_for_seen
#define phase_shared_signal_or_closed phase_shared_signal_or_closed_seen
#define phase_shared_signal_block_or_closed phase_shared_signal_block_or_closed_seen
#define phase_shared_next_or_closed phase_shared_next_or_closed_seen
#define phase_shared_wait_or_closed phase_shared_wait_or_closed_seen
#define phase_shared_wait_block_or_closed phase_shared_wait_block_or_closed_seen
#define phase_shared_closed phase_shared_closed_seen
#define phase_shared_close phase_shared_close_seen
#define phase_shared_leave phase_shared_leave_seen
#define phase_shared_try_leave phase_shared_try_leave_seen

#endif
