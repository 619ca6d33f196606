"""Two threads work until the one that may signal leaves."""
from concurrent.futures import ThreadPoolExecutor

import phase


def works(stop, begun):
    with stop, begun:
        # Behind its first piece of work it signals that it has begun.
        begun.signal(1)
        while True:
            try:
                # It waits, for a millisecond at most, for what will never come but the end.
                return stop.wait(timeout=0.001)
            except TimeoutError:
                pass


with ThreadPoolExecutor() as pool, phase.SharedPhaser(phase.SUM, bound=1, phases=1) as begun:
    with phase.SharedPhaser(phase.ANY, bound=1, phases=1) as founder:
        workers = [
            pool.submit(works, founder.register(phase.WAIT), begun.register(phase.SIG))
            for _ in range(2)
        ]
        # Each worker has signalled a 1 when this phase is complete.
        _, busy = begun.next()
    ends = [it.result() for it in workers]
print(f"{busy} worked, and have stopped")
