"""One thread sends squares, at most four ahead of the slower of two others, each of which gets all
of them."""
from concurrent.futures import ThreadPoolExecutor

import phase


def consumes(own, of_all):
    with own:
        return of_all(value for _, value in own)


with phase.SharedPhaser(phase.SUM, bound=4, phases=10) as founder:
    producer = founder.register(phase.SIG)
    adds, compares = founder.register(phase.WAIT), founder.register(phase.WAIT)

with ThreadPoolExecutor() as pool:
    total, greatest = pool.submit(consumes, adds, sum), pool.submit(consumes, compares, max)
    # Once it has left nobody is there to signal, so the consumers end behind the last square.
    with producer:
        for n in range(10):
            producer.signal(n * n)
print(f"sum {total.result()}, greatest {greatest.result()}")
