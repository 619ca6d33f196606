"""Of four threads one never signals. The main thread tells which, and ends all."""
from concurrent.futures import ThreadPoolExecutor

import phase


def meets(own):
    with own.closing():
        own.next(1)


with phase.SharedPhaser(phase.SUM, bound=2, phases=100) as founder:
    silent, *owned = [founder.register(phase.SIG_WAIT) for _ in range(4)]

with ThreadPoolExecutor() as pool, silent:
    ends = [pool.submit(meets, own) for own in owned]
    while len(silent.missing()) > 1:
        pass
    print(f"missing: {silent.missing()}")
    silent.close()
    told = [it.exception() for it in ends]
print(f"ended: {len([why for why in told if isinstance(why, phase.BrokenPhaserError)])}")
