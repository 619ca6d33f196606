"""Samples a second through the moving average of eight samples, by blocks: by a graph that is fed,
or by sums of numpy that go on from block to block, and wrap unseen. What it prints is as of fed.c.

    fed.py phase|numpy GRAPH COUNT BLOCK
"""
import pathlib
import sys
import time

import numpy


def samples(count):
    state, found = 0, numpy.empty(count, numpy.int64)
    for at in range(count):
        state = (state * 1103515 + 12345) % 2147483648
        found[at] = state // 1024 - 1048576
    return found


def by_phase(graph):
    import phase

    stream = phase.Stream(pathlib.Path(graph))
    return lambda block: stream.feed(block)["out"]


def by_numpy(_):
    last = numpy.zeros(7, numpy.int64)

    def average(block):
        nonlocal last
        known = numpy.concatenate((last, block))
        last = known[-7:]
        sums = numpy.concatenate(([0], numpy.cumsum(known)))
        return (sums[8:] - sums[:-8]) >> 3

    return average


def main(kind, graph, count, block):
    average = (by_phase if kind == "phase" else by_numpy)(graph)
    given, many, total = samples(count), 0, 0
    begun = time.process_time()
    for at in range(0, count, block):
        values = average(given[at : at + block])
        many += len(values)
        total += int(values.sum())
    print(many, total, f"{time.process_time() - begun:.6f}")


if __name__ == "__main__":
    main(sys.argv[1], sys.argv[2], *map(int, sys.argv[3:]))
