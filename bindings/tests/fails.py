"""Where a thread of an example raises, the others go on, and the program ends.

    fails.py FOLDER   tries each example of this folder, once for each call in which a thread fails
"""
import glob
import os
import subprocess
import sys
import time

# More seconds than an example takes on a busy machine whose threads all end.
LONG = 10

# Has the first such call that another thread than the main one makes raise.
FAILS = """
import runpy, sys, threading
import phase
from phase.shared import Registration
name, example = sys.argv[1:]
whole, failed = getattr(Registration, name), threading.Lock()
def fails(*words, **named):
    if threading.current_thread() is not threading.main_thread() and failed.acquire(False):
        raise ArithmeticError("a task that fails")
    return whole(*words, **named)
setattr(Registration, name, fails)
runpy.run_path(example, run_name="__main__")
"""
CALLS = ("signal", "wait", "next")


def main(folder):
    tried, late = 0, 0
    for example in sorted(glob.glob(os.path.join(folder, "*.py"))):
        for call in CALLS:
            begun = time.monotonic()
            try:
                said = subprocess.run(
                    [sys.executable, "-c", FAILS, call, example], capture_output=True, text=True,
                    timeout=20, check=False,
                ).stderr
            except subprocess.TimeoutExpired:
                said = "a task that fails, and the others wait for ever"
            took = time.monotonic() - begun
            # An example whose threads do not make the call ends as ever.
            if "a task that fails" in said:
                tried += 1
                if took > LONG:
                    late += 1
                    print(f"{example}, {call}: {took:.1f} s: {said[-300:]}")
    print(f"fails: {tried} threads failed, {late} of them kept the others waiting")
    return 1 if late or tried < 5 else 0


if __name__ == "__main__":
    sys.exit(main(*sys.argv[1:]))
