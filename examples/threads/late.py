"""A thread that joins while others are at work gets each value from then on."""
import threading

import phase


def watches(late):
    with late:
        for step, value in late:
            print(f"phase {step}: {value}")


with phase.SharedPhaser(phase.SUM, bound=4, phases=6) as founder:
    for n in range(6):
        if n == 3:
            late, _ = founder.register_now()
            threading.Thread(target=watches, args=(late,)).start()
        founder.next(n)
