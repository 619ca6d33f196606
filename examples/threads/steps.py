"""Four parts cool, step by step. In each step all send what they have, get the total, and so stop
at one step."""
import threading

import phase


def cools(own, heat):
    with own:
        while True:
            heat -= heat // 10
            step, total = own.next(heat)
            if total <= 200:
                return step, total


with phase.SharedPhaser(phase.SUM, bound=2, phases=1000) as first:
    for heat in (200, 300, 400):
        threading.Thread(target=cools, args=(first.register(phase.SIG_WAIT), heat)).start()
    step, total = cools(first, 100)
print(f"step {step}: {total}")
