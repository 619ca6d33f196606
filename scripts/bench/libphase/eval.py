import sys
import time

import numpy

import phase


def least(call):
    spent, values = [], None
    for _ in range(int(sys.argv[1])):
        begin = time.process_time()
        values = call()
        spent.append(time.process_time() - begin)
    return min(spent), values


def filtered(call):
    def all_four():
        ys = xs
        for _ in range(4):
            ys = call(ys)
        return ys

    return least(all_four)


xs = numpy.loadtxt("s.csv", numpy.int64)
taps = numpy.array([i % 7 + 1 for i in range(64)])
graph = open("graph").read()
seconds, wanted = least(lambda: phase.eval(graph, s=xs)["out"])
print(f"Python, phase.eval, arrays in and out\t{seconds:.3f}")
numpy.savetxt("python.out", wanted, "%d")
seconds, values = filtered(lambda ys: numpy.convolve(ys, taps)[: len(ys)] >> 8)
print(
    f"numpy.convolve, int64 (wraps "
    f"unseen)\t{seconds:.3f}\t{'' if (values == wanted).all() else 'OTHER VALUES'}"
)
try:
    from scipy.signal import lfilter
except ImportError:
    print("scipy.signal.lfilter\tthere is no scipy")
else:
    seconds, values = filtered(lambda ys: numpy.floor(lfilter(taps, [1.0], ys) / 256))
    print(
        f"scipy.signal.lfilter, float64 (inexact past "
        f"2^53)\t{seconds:.3f}\t{'' if (values == wanted).all() else 'OTHER VALUES'}"
    )
