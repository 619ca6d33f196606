"""A pool of processes that evaluate graphs, one of which has a fault: the fault comes back, and the
pool goes on."""
import concurrent.futures
import multiprocessing
import sys

import phase

SUMS = (
    "phaser x sum 4\nphaser y sum 4\nsource s s.csv -> x\nfir f x -> y shift 0 taps 1 1\n"
    "sink out y\n"
)


def main():
    with concurrent.futures.ProcessPoolExecutor(2, multiprocessing.get_context("spawn")) as pool:
        rows = [[1, 2, 3], [2**63 - 1, 1], [4]]
        evaluated = [pool.submit(phase.eval, SUMS, {"s": row}) for row in rows]
        faulty = pool.submit(phase.check, "phaser x sum 4\nphaser y mean 4\n")
        told = [
            evaluated[0].result(60)["out"].tolist() == [1, 3, 5],
            str(evaluated[1].exception(60)) == "too big at f 1",
            str(faulty.exception(60)) == "graph line 2: syntax\n  phaser y mean 4",
            evaluated[2].result(60)["out"].tolist() == [4],
            pool.submit(phase.check, SUMS).result(60) == (2, 3, 1, 1),
        ]
    return told != [True] * 5


if __name__ == "__main__":
    sys.exit(main())
