"""A child of `os.fork` ends, though a thread of its parent was in the middle of a call."""
import os
import sys
import threading

import phase

GRAPH = "phaser x sum 4\nsource s s.csv -> x\nsink out x"


def main():
    owners = phase.Phaser(phase.SUM, 2, 10), phase.Stream(GRAPH)
    is_held, may_end = threading.Event(), threading.Event()

    def holds():
        # As in the middle of a call on each.
        for it in owners:
            it._lock.acquire()
        is_held.set()
        may_end.wait()
        for it in owners:
            it._lock.release()

    thread = threading.Thread(target=holds)
    thread.start()
    is_held.wait()
    child = os.fork()
    if child == 0:
        # What stands here is given back, and what stands elsewhere at the end of the interpreter.
        del owners, holds
        sys.exit(0)
    _, status = os.waitpid(child, 0)
    may_end.set()
    thread.join()
    return status


if __name__ == "__main__":
    sys.exit(main())
