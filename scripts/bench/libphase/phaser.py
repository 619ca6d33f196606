import statistics
import time

import numpy

import phase


def nanoseconds(call, phases):
    spent = []
    for _ in range(7):
        begin = time.process_time_ns()
        call(phases)
        spent.append((time.process_time_ns() - begin) / phases)
    return f"{statistics.median(spent):.1f} ({min(spent):.1f} to {max(spent):.1f})"


def one_by_one(phases):
    for _ in range(phases):
        phaser.signal(0, one)
        assert phaser.wait(0).value == 1


def by_blocks(phases):
    for _ in range(phases // len(ones)):
        phaser.signal_block(signaller, ones)
        assert phaser.wait_block(waiter, out).values.sum() == len(ones)


phaser, one = phase.Phaser(phase.SUM, 2, 2**62), numpy.ones(1, numpy.int64)
print(f"Python, Phaser.signal and wait\t{nanoseconds(one_by_one, 100_000)}")
if hasattr(phase._lib, "phase_phaser_signal_block"):
    ones, out = numpy.ones(4096, numpy.int64), numpy.empty(4096, numpy.int64)
    phaser = phase.Phaser(phase.SUM, len(ones), 2**62)
    signaller, waiter = phaser.register(0, phase.SIG), phaser.register(0, phase.WAIT)
    phaser.drop(0)
    print(f"Python, in blocks of {len(ones)}\t{nanoseconds(by_blocks, 4_096_000)}")
