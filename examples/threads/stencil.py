"""Four threads have eight cells of a bar each, which is hot at its left end. In each step a thread
tells its neighbours, and them alone, how hot the cells at its ends are: a number of 1/1048576."""
import contextlib
import threading

import phase

SCALE, STEPS = 1048576, 400


def stream():
    """A thread's way to another: the one signals, and the other waits."""
    with phase.SharedPhaser(phase.SUM, bound=2, phases=STEPS) as founder:
        return founder.register(phase.SIG), founder.register(phase.WAIT)


def told(sender, heat):
    if sender:
        sender.signal(int(heat * SCALE))


def got(receiver, at_end):
    return receiver.wait().value / SCALE if receiver else at_end


def cools(cells, to_left, from_left, to_right, from_right):
    with contextlib.ExitStack() as registrations:
        for own in (to_left, from_left, to_right, from_right):
            if own:
                registrations.enter_context(own)
        for _ in range(STEPS):
            told(to_left, cells[0])
            told(to_right, cells[-1])
            row = [got(from_left, 100.0), *cells, got(from_right, 0.0)]
            for at in range(8):
                cells[at] = (row[at] + 2 * row[at + 1] + row[at + 2]) / 4


NONE = None, None
bar = [[0.0] * 8 for _ in range(4)]
# The ways to the right and to the left at the left end of each part, and at the end of the last.
rights, lefts = ([NONE, *(stream() for _ in range(3)), NONE] for _ in range(2))
threads = []
for at, cells in enumerate(bar):
    left, right = (lefts[at][0], rights[at][1]), (rights[at + 1][0], lefts[at + 1][1])
    threads.append(threading.Thread(target=cools, args=(cells, *left, *right)))
    threads[-1].start()
for thread in threads:
    thread.join()
print(" ".join(f"{sum(cells) / 8:.3f}" for cells in bar))
