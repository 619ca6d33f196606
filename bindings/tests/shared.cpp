/* What the values of phase.hpp own: a registration is left where its value ends, and is one
 * value's after a move; threads get what they sent, are told who is missing, and end with one
 * that fails. */
#include "phase.hpp"
#include <cstdio>
#include <functional>
#include <stdexcept>
#include <thread>
#include <type_traits>
#include <vector>

static int failed;

static void has(bool is_so, const char *what)
{
    if (!is_so)
        std::printf("shared.cpp: not so: %s\n", what);
    failed += !is_so;
}

static_assert(!std::is_copy_constructible_v<phase::registration>, "a registration is not copied");
static_assert(!std::is_copy_assignable_v<phase::phaser>, "a phaser is not copied");
static_assert(std::is_nothrow_move_constructible_v<phase::registration>, "a vector may have it");

static int64_t sum_of(phase::registration own, int64_t number)
{
    int64_t sum = 0;
    for (int64_t at = 0; at < 100; at++)
        sum += own.next(at + number).value;
    return sum;
}

static void meets()
{
    auto founder = phase::registration::founder(PHASE_SUM, 2, 100);
    has(founder && founder.status() == PHASE_OK, "a founder");
    std::vector<std::thread> threads;
    std::vector<int64_t> sums(4);
    for (int64_t number = 1; number < 4; number++)
        threads.emplace_back(
            [&sums, number](phase::registration own) {
                sums[static_cast<size_t>(number)] = sum_of(std::move(own), number);
            },
            founder.add(PHASE_SIG_WAIT));
    sums[0] = sum_of(std::move(founder), 0);
    for (auto &it : threads)
        it.join();
    for (auto sum : sums)
        has(sum == 4 * 4950 + 600, "what all sent");
}

static void others_answer()
{
    auto founder = phase::registration::founder(PHASE_SUM, 2, 2000);
    auto child = founder.add(PHASE_SIG_WAIT);
    has(founder.answers() == 0 && child.answers() == 0, "nobody has asked");
    const auto meets = [](phase::registration &own) {
        for (int64_t at = 0; at < 2000; at++)
            own.next(at);
    };
    std::thread other([&] { meets(child); });
    meets(founder);
    other.join();
    const bool asks = std::thread::hardware_concurrency() > 1;
    has((founder.answers() + child.answers() > 1000) == asks, "others' turns made most phases");
    founder.leave();
    has(founder.answers() == 0, "one that has left has no answers");
}

static void leaves()
{
    auto founder = phase::registration::founder(PHASE_GREATEST, 2, 100);
    auto waiter = founder.add(PHASE_WAIT);
    const int64_t few[2] = {4, 9};
    has(founder.signal({few, 2}, {PHASE_CLAMP, 0, 7}).phase == 0, "a signal");
    has(waiter.wait().value == 7, "its value");
    has(waiter.wait_for(std::chrono::milliseconds(1)).status == PHASE_E_NOT_YET, "a time limit");
    has(waiter.add(PHASE_SIG).status() == PHASE_E_NOT_ALLOWED, "a refused child");
    phase::registration moved = std::move(founder);
    has(moved && !founder && founder.wait().status == PHASE_E_NO_PHASER, "one that was moved");
    moved = phase::registration();
    has(waiter.wait().status == PHASE_ENDED, "a founder that ended has left");
}

static void sends_one()
{
    auto founder = phase::registration::founder(PHASE_SUM, 4, 100);
    auto waiter = founder.add(PHASE_WAIT);
    phase::sends five = 5;
    phase::sends same = five;
    founder.signal(five);
    five = phase::sends(7);
    founder.wait();
    founder.signal(same);
    founder.wait();
    founder.signal(five);
    has(waiter.wait().value == 5, "one value that is kept as a variable");
    has(waiter.wait().value == 5, "a copy of it");
    has(waiter.wait().value == 7, "another that is assigned to it");
}

static void is_replaced()
{
    auto founder = phase::registration::founder(PHASE_SUM, 2, 100);
    auto late = founder.add(PHASE_SIG);
    late = phase::registration::founder(PHASE_SUM, 2, 100);
    has(founder.signal(3) && founder.wait().value == 3, "one that is replaced has left");
    has(late && late.status() == PHASE_OK, "by another that is there");
    auto &self = late;
    late = std::move(self);
    has(late && late.status() == PHASE_OK, "one that is assigned to itself stays");
    auto moved = std::move(late);
    has(late.status() == PHASE_E_NO_PHASER && moved.status() == PHASE_OK, "the status of a move");
    moved.leave();
    has(!moved && moved.status() == PHASE_E_NO_PHASER, "one that has left has none");
}

static void by_blocks()
{
    auto founder = phase::registration::founder(PHASE_SUM, 4, 100);
    auto signaller = founder.add(PHASE_SIG);
    auto waiter = founder.add(PHASE_WAIT);
    founder.leave();
    const std::chrono::milliseconds soon(1);
    const int64_t values[4] = {1, 2, 3, 4};
    int64_t got[4] = {0, 0, 0, 0};
    has(waiter.try_wait().status == PHASE_E_NOT_YET, "a wait that is tried");
    has(waiter.try_wait_block(got, 4).status == PHASE_E_NOT_YET, "a block that is tried");
    has(waiter.wait_block_for(soon, got, 4).status == PHASE_E_NOT_YET, "for some time");
    has(signaller.try_signal(9).phase == 0 && waiter.wait().value == 9, "a signal that is tried");
    auto put = signaller.signal_block(values, 3);
    has(put && put.phase == 1 && put.count == 3, "a block of signals");
    has(signaller.try_signal_block(values, 4).status == PHASE_E_AHEAD, "one that is tried");
    has(signaller.signal_block_for(soon, values, 4).status == PHASE_E_AHEAD, "for some time");
    has(signaller.view().signal_phase == 4 && signaller.view().mode == PHASE_SIG, "a view");
    auto taken = waiter.wait_block(got, 4);
    has(taken && taken.phase == 1 && taken.count == 3 && got[2] == 3, "a block of phases");
    has(signaller.try_next(8).status == PHASE_SIGNALLED, "a next that is tried");
    has(phase::registration().view().signal_phase == 0, "a view of none");
}

static void who_is_missing()
{
    auto founder = phase::registration::founder(PHASE_SUM, 2, 100);
    auto first = founder.add(PHASE_SIG_WAIT), second = founder.add(PHASE_SIG_WAIT);
    auto waiter = founder.add(PHASE_WAIT);
    founder.leave();
    has(second.signal(5).phase == 0, "a signal");
    auto counts = waiter.standing();
    has(counts.tasks == 3 && counts.signallers == 2 && counts.waiters == 3, "who is registered");
    has(counts.phase == 0 && counts.signalled == 1, "who has signalled");
    has(waiter.missing() == std::vector<uint64_t>{1}, "who is missing");
    has(waiter.lacks() == "phase 0 lacks the signal of 1", "in words");
    has(first.signal(4).phase == 0 && waiter.wait_or_closed().value == 9, "and then nobody is");
    has(waiter.missing() == std::vector<uint64_t>({1, 2}), "but for the next phase");
    has(founder.standing().tasks == 0 && founder.missing().empty() && founder.lacks().empty(),
        "of none");
}

/* A thread that throws in step 3, and three that end with it. */
static void works(phase::registration own, bool throws, int32_t &status)
{
    try {
        phase::closing guard(own);
        for (int step = 0; step < 1000; step++) {
            if (throws && step == 3)
                throw std::runtime_error("it fails");
            status = own.next_or_closed(1).status;
            if (status != PHASE_OK || own.is_closed())
                return;
        }
    } catch (const std::runtime_error &) {
        status = PHASE_E_CLOSED;
    }
}

static void all_end()
{
    auto founder = phase::registration::founder(PHASE_SUM, 2, 1000);
    std::vector<std::thread> threads;
    std::vector<int32_t> statuses(4);
    std::vector<phase::registration> owned;
    for (int number = 0; number < 4; number++)
        owned.push_back(founder.add(PHASE_SIG_WAIT));
    auto waiter = founder.add(PHASE_WAIT);
    founder.leave();
    for (size_t number = 0; number < 4; number++)
        threads.emplace_back(works, std::move(owned[number]), number == 2,
                             std::ref(statuses[number]));
    uint64_t phases = 0;
    while (waiter.wait())
        phases++;
    for (auto &it : threads)
        it.join();
    has(statuses[2] == PHASE_E_CLOSED && waiter.is_closed(), "one that throws closes");
    has(phases >= 3 && phases <= 5, "and the others make no more than the next phase");
    for (auto status : statuses)
        has(status == PHASE_OK || status == PHASE_SIGNALLED || status == PHASE_E_CLOSED,
            "they end");
}

static void or_closed()
{
    auto founder = phase::registration::founder(PHASE_SUM, 2, 100);
    auto signaller = founder.add(PHASE_SIG), waiter = founder.add(PHASE_WAIT);
    founder.leave();
    const std::chrono::milliseconds soon(1);
    int64_t values[2] = {5, 6};
    has(waiter.wait_or_closed(soon).status == PHASE_E_NOT_YET, "a time limit");
    has(waiter.wait_block_or_closed(values, 2, soon).status == PHASE_E_NOT_YET, "of a block");
    has(signaller.signal_block_or_closed(values, 2).count == 2, "a block of signals");
    has(signaller.signal_or_closed(7, {}, soon).status == PHASE_E_AHEAD, "a limit of a signal");
    {
        phase::closing guard(waiter);
    }
    has(!waiter.is_closed(), "a scope that ends well closes nothing");
    signaller.close();
    has(waiter.is_closed(), "a close");
    has(signaller.signal_or_closed(7).status == PHASE_E_CLOSED, "a signal then");
    has(signaller.signal_block_or_closed(values, 2).status == PHASE_E_CLOSED, "a block then");
    has(waiter.wait_block_or_closed(values, 2).count == 2 && values[1] == 6, "what is complete");
    has(waiter.wait_or_closed().status == PHASE_E_CLOSED, "and no more");
    has(waiter.wait_block_or_closed(values, 2).status == PHASE_E_CLOSED, "by blocks");
    has(signaller.next_or_closed(7).status == PHASE_SIGNALLED, "there is room again");
    has(!phase::registration().is_closed(), "none is not closed");
}

static void one_thread()
{
    phase::phaser phaser(PHASE_SUM, 2, 100), other;
    has(phaser && !other, "a phaser, and none");
    other = std::move(phaser);
    has(other && !phaser, "a phaser that was moved");
    has(phase::phaser(PHASE_SUM, 0, 100).status() == PHASE_E_BAD_BOUND, "a refused phaser");
    has(phase::registration::founder(PHASE_SUM, 2, 0).status() == PHASE_E_BAD_PHASES,
        "a refused founder");
}

int main()
{
    meets();
    others_answer();
    leaves();
    sends_one();
    is_replaced();
    by_blocks();
    who_is_missing();
    all_end();
    or_closed();
    one_thread();
    std::printf("shared.cpp: %d failed\n", failed);
    return failed != 0;
}
