/* phase.hpp: phasers between threads and for one thread at a time, as values of C++17 that own
 * them: what is made is given back when its value ends. A value can be moved, and is not copied;
 * one that was moved has none, and says so.
 *
 * Calls answer by the statuses of phase.h, so that none throws. get() lends the struct of C for the
 * calls that have no name here. */
#ifndef PHASE_HPP
#define PHASE_HPP
#include "phase_shared.h"
#include <chrono>
#include <exception>
#include <string>
#include <utility>
#include <vector>

namespace phase {

/* The phase of a call, its value, and how the call was answered. The value is INT64_MIN where the
 * phase has none. */
struct answer {
    int32_t status = PHASE_OK;
    uint64_t phase = 0;
    int64_t value = INT64_MIN;

    explicit operator bool() const { return status == PHASE_OK; }
};

/* The first phase of a block, how many phases it has, and how the call was answered. */
struct block {
    int32_t status = PHASE_OK;
    uint64_t phase = 0;
    size_t count = 0;

    explicit operator bool() const { return status == PHASE_OK; }
};

/* The sends of a signal: values that are lent for the call, or one, or none. */
class sends {
public:
    sends(const int64_t *values, size_t count) : values_(values), count_(count) {}
    sends(int64_t value) : one_(value), count_(1) {}
    sends() = default;

    const int64_t *values() const { return values_ == nullptr && count_ == 1 ? &one_ : values_; }
    size_t count() const { return count_; }

private:
    const int64_t *values_ = nullptr;
    int64_t one_ = 0;
    size_t count_ = 0;
};

/* The single of a signal, or none. */
struct single {
    uint32_t number = PHASE_NO_SINGLE;
    int64_t low = 0;
    int64_t high = 0;
};

/* A registration on a phaser between threads, as phase_shared.h has it, or none. It leaves when it
 * ends, and where another is assigned to it; to move it to another thread is to hand it over. The
 * calls with try_ try once. */
class registration {
public:
    registration() = default;
    registration(registration &&other) noexcept { take(other); }
    registration &operator=(registration &&other) noexcept
    {
        if (this != &other) {
            leave();
            take(other);
        }
        return *this;
    }
    registration(const registration &) = delete;
    registration &operator=(const registration &) = delete;
    ~registration() { leave(); }

    /* Makes a phaser and its founder. There is none where that was refused. */
    static registration founder(uint32_t operation, uint64_t bound, uint64_t phases)
    {
        registration made;
        made.status_ = phase_shared_new(operation, bound, phases, &made.it_);
        return made;
    }

    /* Registers a child. There is none where that was refused. */
    registration add(uint32_t mode)
    {
        registration child;
        child.status_ = phase_shared_register(&it_, mode, &child.it_);
        return child;
    }

    /* Registers a waiter at the first phase that is not complete, which view tells. */
    registration add_now()
    {
        registration child;
        uint64_t phase = 0;
        child.status_ = phase_shared_register_now(&it_, &child.it_, &phase);
        return child;
    }

    /* How it was made, and whether there is one. */
    int32_t status() const { return status_; }
    explicit operator bool() const { return it_.member.live; }

    answer signal(sends lent = {}, single one = {})
    {
        return signals(phase_shared_signal, lent, one);
    }

    answer try_signal(sends lent = {}, single one = {})
    {
        return signals(phase_shared_try_signal, lent, one);
    }

    answer signal_for(std::chrono::nanoseconds time, sends lent = {}, single one = {})
    {
        return signals(phase_shared_signal_for, lent, one, number(time));
    }

    answer next(sends lent = {}, single one = {}) { return goes(phase_shared_next, lent, one); }

    answer try_next(sends lent = {}, single one = {})
    {
        return goes(phase_shared_try_next, lent, one);
    }

    answer next_for(std::chrono::nanoseconds time, sends lent = {}, single one = {})
    {
        return goes(phase_shared_next_for, lent, one, number(time));
    }

    answer wait() { return waits(phase_shared_wait); }

    answer try_wait() { return waits(phase_shared_try_wait); }

    answer wait_for(std::chrono::nanoseconds time)
    {
        return waits(phase_shared_wait_for, number(time));
    }

    /* Signals a phase for each of these values. */
    block signal_block(const int64_t *values, size_t count, single one = {})
    {
        return signals_block(phase_shared_signal_block, {values, count}, one);
    }

    block try_signal_block(const int64_t *values, size_t count, single one = {})
    {
        return signals_block(phase_shared_try_signal_block, {values, count}, one);
    }

    block signal_block_for(std::chrono::nanoseconds time, const int64_t *values, size_t count,
                           single one = {})
    {
        return signals_block(phase_shared_signal_block_for, {values, count}, one, number(time));
    }

    /* Gets the phases in a row that are complete, at most as many as there are places. */
    block wait_block(int64_t *values, size_t places)
    {
        return waits_block(phase_shared_wait_block, values, places);
    }

    block try_wait_block(int64_t *values, size_t places)
    {
        return waits_block(phase_shared_try_wait_block, values, places);
    }

    block wait_block_for(std::chrono::nanoseconds time, int64_t *values, size_t places)
    {
        return waits_block(phase_shared_wait_block_for, values, places, number(time));
    }

    /* The same calls for some time, or as long as it takes, where none waits once the phaser is
     * closed: what would have to wait then is PHASE_E_CLOSED, or a next PHASE_SIGNALLED. */
    answer signal_or_closed(sends lent = {}, single one = {}, std::chrono::nanoseconds time = ever)
    {
        return signals(phase_shared_signal_or_closed, lent, one, number(time));
    }

    answer next_or_closed(sends lent = {}, single one = {}, std::chrono::nanoseconds time = ever)
    {
        return goes(phase_shared_next_or_closed, lent, one, number(time));
    }

    answer wait_or_closed(std::chrono::nanoseconds time = ever)
    {
        return waits(phase_shared_wait_or_closed, number(time));
    }

    block signal_block_or_closed(const int64_t *values, size_t count, single one = {},
                                 std::chrono::nanoseconds time = ever)
    {
        return signals_block(phase_shared_signal_block_or_closed, {values, count}, one,
                             number(time));
    }

    block wait_block_or_closed(int64_t *values, size_t places,
                               std::chrono::nanoseconds time = ever)
    {
        return waits_block(phase_shared_wait_block_or_closed, values, places, number(time));
    }

    /* Closes the phaser, for ever, and whether it was closed. Any thread may call these, as long as
     * the registration does not leave meanwhile. */
    void close() { phase_shared_close(&it_); }
    bool is_closed() const { return phase_shared_closed(&it_) == PHASE_E_CLOSED; }

    /* How the phaser stands: all zero where there is none. */
    phase_member_counts standing()
    {
        phase_member_counts counts = {0, 0, 0, 0, 0};
        phase_shared_missing(&it_, &counts, nullptr, 0);
        return counts;
    }

    /* Who is missing: the numbers of the registrations that signal and have not signalled the first
     * phase that is not complete. It takes memory. */
    std::vector<uint64_t> missing()
    {
        phase_member_counts counts = {0, 0, 0, 0, 0};
        std::vector<uint64_t> numbers(PHASE_MEMBERS_MAX);
        phase_shared_missing(&it_, &counts, numbers.data(), numbers.size());
        numbers.resize(counts.signallers - counts.signalled);
        return numbers;
    }

    /* Who is missing, for the words of an error, as phase_shared_lacks has it. */
    std::string lacks()
    {
        char text[PHASE_LACKS_MAX];
        phase_shared_lacks(&it_, text, sizeof text);
        return text;
    }

    /* What it stands at: all zero where there is none. */
    phase_member_standing view()
    {
        phase_member_standing standing = {0, 0, 0, 0, 0};
        phase_shared_view(&it_, &standing);
        return standing;
    }

    /* How many phases of next and its forms others' turns made for it, for which it took none: 0
     * where there is none. */
    uint64_t answers() const
    {
        uint64_t count = 0;
        phase_shared_answers(&it_, &count);
        return count;
    }

    /* Leaves, where there is one. */
    void leave()
    {
        if (it_.member.live)
            phase_shared_leave(&it_);
        status_ = PHASE_E_NO_PHASER;
    }

    phase_registration *get() { return &it_; }

private:
    /* Takes what another has; that has none then. */
    void take(registration &other)
    {
        const phase_registration none = PHASE_REGISTRATION_INIT;
        it_ = other.it_;
        status_ = other.status_;
        other.it_ = none;
        other.status_ = PHASE_E_NO_PHASER;
    }

    template <class Call, class... Time>
    answer signals(Call call, const sends &lent, single one, Time... time)
    {
        answer is;
        is.status = call(&it_, lent.values(), lent.count(), one.number, one.low, one.high,
                         &is.phase, time...);
        return is;
    }

    template <class Call, class... Time>
    answer goes(Call call, const sends &lent, single one, Time... time)
    {
        answer is;
        is.status = call(&it_, lent.values(), lent.count(), one.number, one.low, one.high,
                         &is.phase, &is.value, time...);
        return is;
    }

    template <class Call, class... Time> answer waits(Call call, Time... time)
    {
        answer is;
        is.status = call(&it_, &is.phase, &is.value, time...);
        return is;
    }

    template <class Call, class... Time>
    block signals_block(Call call, const sends &lent, single one, Time... time)
    {
        block is;
        is.status = call(&it_, lent.values(), lent.count(), one.number, one.low, one.high,
                         &is.phase, time...);
        is.count = is ? lent.count() : 0;
        return is;
    }

    template <class Call, class... Time>
    block waits_block(Call call, int64_t *values, size_t places, Time... time)
    {
        block is;
        is.status = call(&it_, values, places, &is.phase, &is.count, time...);
        return is;
    }

    /* A time that is none. */
    static constexpr std::chrono::nanoseconds ever = std::chrono::nanoseconds::max();

    static uint64_t number(std::chrono::nanoseconds time)
    {
        if (time == ever)
            return PHASE_FOR_EVER;
        return time.count() < 0 ? 0 : static_cast<uint64_t>(time.count());
    }

    phase_registration it_ = PHASE_REGISTRATION_INIT;
    int32_t status_ = PHASE_E_NO_PHASER;
};

/* Closes the phaser of a registration where an exception ends the scope that this is in. It stands
 * behind the registration, which leaves after it. It closes nothing where the registration has left
 * by then, or was moved on: so it is made where the registration stays. */
class closing {
public:
    explicit closing(registration &lent) : lent_(lent) {}
    closing(const closing &) = delete;
    closing &operator=(const closing &) = delete;
    ~closing()
    {
        if (std::uncaught_exceptions() > before_)
            lent_.close();
    }

private:
    registration &lent_;
    const int before_ = std::uncaught_exceptions();
};

/* A phaser for one thread at a time, as phase.h has it, or none. It is freed when it ends, and
 * where another is assigned to it. */
class phaser {
public:
    phaser() = default;
    phaser(uint32_t operation, uint64_t bound, uint64_t phases)
    {
        status_ = phase_phaser_new(operation, bound, phases, &it_);
    }
    phaser(phaser &&other) noexcept { take(other); }
    phaser &operator=(phaser &&other) noexcept
    {
        if (this != &other) {
            phase_phaser_free(&it_);
            take(other);
        }
        return *this;
    }
    phaser(const phaser &) = delete;
    phaser &operator=(const phaser &) = delete;
    ~phaser() { phase_phaser_free(&it_); }

    /* How it was made, and whether there is one. */
    int32_t status() const { return status_; }
    explicit operator bool() const { return it_.live; }

    phase_phaser *get() { return &it_; }

private:
    /* Takes what another has; that has none then. */
    void take(phaser &other)
    {
        const phase_phaser none = PHASE_PHASER_INIT;
        it_ = other.it_;
        status_ = other.status_;
        other.it_ = none;
        other.status_ = PHASE_E_NO_PHASER;
    }

    phase_phaser it_ = PHASE_PHASER_INIT;
    int32_t status_ = PHASE_E_NO_PHASER;
};

} // namespace phase
#endif
