"""eval.py GRAPH: writes what `phase eval GRAPH` does. A file of samples has a number a line."""
import sys

import numpy

import phase


def main(name):
    with open(name) as file:
        graph = file.read()
    lines = (line.split() for line in graph.splitlines())
    files = [words[2] for words in lines if words[:1] == ["source"]]
    found = phase.eval(graph, [numpy.loadtxt(it, numpy.int64, ndmin=1) for it in files])
    for sink, values in found.items():
        start = f" from {found.starts[sink]}" if sink in found.starts else ""
        print(f"{sink}{start} {len(values)}")
        for value in values.tolist():
            print(value)


try:
    main(sys.argv[1])
except phase.GraphError as why:
    sys.exit(f"phase: {why}")
except phase.TooBig as why:
    print(f"phase: {why}", file=sys.stderr)
    sys.exit(3)
