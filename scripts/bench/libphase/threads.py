"""Phases a second of threads that meet and add up: by `next` of a registration, or by
threading.Barrier with a shared sum. What it prints is as of PlainPhaser.java.

    threads.py phase|barrier THREADS COUNT
"""
import json
import sys
import threading
import time

import phase


def runs(number, count, go_next, ends):
    warm, check = count // 10, 0
    begun = time.perf_counter()
    for at in range(warm + count):
        if at == warm:
            begun = time.perf_counter()
        check += go_next(number, at + number)
    ends[number] = check, time.perf_counter() - begun


def with_phaser(threads, count):
    first = phase.SharedPhaser(phase.SUM, 2, count // 10 + count)
    own = [first] + [first.register(phase.SIG_WAIT) for _ in range(1, threads)]
    return lambda number, value: own[number].next(value).value


def with_barrier(threads, count):
    sent, total = [0] * threads, [0]

    def add():
        total[0] = sum(sent)

    barrier = threading.Barrier(threads, add)

    def go_next(number, value):
        sent[number] = value
        barrier.wait()
        return total[0]

    return go_next


def main(kind, threads, count):
    go_next = (with_phaser if kind == "phase" else with_barrier)(threads, count)
    ends = [None] * threads
    all_threads = [
        threading.Thread(target=runs, args=(number, count, go_next, ends))
        for number in range(threads)
    ]
    for it in all_threads:
        it.start()
    for it in all_threads:
        it.join()
    row = {
        "name": f"python {kind} {threads}",
        "count": count,
        "seconds": round(ends[0][1], 6),
        "check": sum(it[0] for it in ends),
    }
    print(json.dumps({"rows": [row]}))


if __name__ == "__main__":
    main(sys.argv[1], int(sys.argv[2]), int(sys.argv[3]))
