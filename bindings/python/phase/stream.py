"""Graphs that are fed block by block: what `phase.Stream` is.

>>> import phase
>>> graph = '''
... phaser x sum 4
... phaser y sum 4
... source s s.csv -> x
... fir f x -> y shift 1 taps 1 1
... sink out y
... '''
>>> with phase.Stream(graph) as stream:
...     [stream.feed(s=block)["out"].tolist() for block in ([2, 4], [6], [8, 10])]
[[1, 3], [5], [7, 9]]

`phase.eval` would begin the graph anew with each block.
"""
from __future__ import annotations

import collections
import ctypes
import os
import threading
import weakref
from collections.abc import Mapping, Sequence
from typing import Any, Union

import numpy
from numpy.typing import ArrayLike, NDArray

import phase
from phase import OK

__all__ = ["Stream", "Stalled", "NoStream"]

E_NO_STREAM = -8
E_HAS_STREAM = -9
E_NO_SOURCE = -10
E_NO_SINK = -11

HUNGRY = 1
FULL = 2
STALLED = 3
DONE = 4
TOO_BIG = 5
PAUSED = 6

# The most samples of a source that wait.
_ROOM = 4096

# The values of each sink by its name.
Outputs = dict[str, NDArray[numpy.int64]]


class NoStream(phase.Error):
    """The stream was closed."""

    def __str__(self) -> str:
        return self.__doc__ or ""


class Stalled(phase.Error):
    """No task of a graph can move, and no sample helps. `values` has what came out before, by
    sink, and `waits` a line for each task that is left, with what it waits for, and one for each
    phaser that a task may not signal, with how far its waiters are."""

    values: Outputs = {}
    waits: list[str] = []

    def __str__(self) -> str:
        return "\n  ".join(["stalled", *self.waits])


class _Stop(ctypes.Structure):
    _fields_ = [
        ("number", ctypes.c_uint64),
        ("at", ctypes.c_uint64),
        ("kind", ctypes.c_int32),
        ("place", ctypes.c_int32),
    ]


def _load():
    lib, place = phase._lib, [ctypes.POINTER(phase._Place)]
    end, row = [ctypes.c_size_t], [ctypes.c_void_p, ctypes.c_size_t]
    count = [ctypes.POINTER(ctypes.c_size_t)]
    text = [ctypes.c_char_p, ctypes.c_size_t]
    calls = {
        "new": text + place + [ctypes.POINTER(phase._Fault)],
        "feed": place + end + row + count,
        "finish": place + end,
        "run": place + [ctypes.POINTER(_Stop)],
        "take": place + end + row + count,
        "start": place + end + [ctypes.POINTER(ctypes.c_int64)],
        "waits": place + text + count,
    }
    for name, arguments in calls.items():
        call = getattr(lib, "phase_stream_" + name)
        call.argtypes, call.restype = arguments, ctypes.c_int32
    lib.phase_stream_free.argtypes, lib.phase_stream_free.restype = place, None
    return lib


_lib = _load()


class Stream:
    """A graph whose samples come block by block: what comes out of it is, joined together, what
    `phase.eval` has over the whole samples.

    The graph is a text, bytes, or the path of its file. It raises GraphError or MemoryError; the
    kind `any-meets` tells the first line whose task could signal with one of an earlier line in one
    phase of a phaser with `any`, were there samples enough.

    A block may have any length, and sources may be fed unequally. No sample is dropped: where a
    block is not gone whole, since another source has no samples for it, the stream keeps the rest
    for the next call, as much as it is given. Samples that come when no task is left go nowhere, as
    those past an `until`.

    The stream is closed at the end of `with`, by `close`, or with the object. Calls may come from
    any thread, and go one by one; one that a thread makes within another, as in a signal handler or
    in the `__array__` of a block, gets a RuntimeError. At a MemoryError nothing is lost: the next
    call goes on, and returns what had come out, too. A KeyboardInterrupt in the middle of a call,
    or what else a signal handler raises there, may lose some.
    """

    def __init__(self, graph: phase.Text):
        text, fault = phase._bytes(graph), phase._Fault()
        self._place, self._lock = phase._Place(), threading.RLock()
        status = _lib.phase_stream_new(text, len(text), self._place, fault)
        phase._stop(status, fault, text)
        # At the end of the interpreter other threads may still be in the middle of a call.
        drop = weakref.finalize(self, phase._drop, _free, self._place, self._lock, os.getpid())
        drop.atexit = False
        self.names = phase.names(text)
        self._text, self._done = text, False
        # Of each source the blocks that wait, the first first; of each sink what came out.
        self._queues = [collections.deque() for _ in self.names.sources]
        self._got: list[list[NDArray[numpy.int64]]] = [[] for _ in self.names.sinks]
        # The sources of which no more samples come, and those of them that wait to be ended.
        self._finished: set[int] = set()
        self._ending: set[int] = set()

    def feed(
        self, samples: Union[Sequence[ArrayLike], Mapping[str, ArrayLike], NDArray[Any]] = (), /,
        **named: ArrayLike,
    ) -> Outputs:
        """Feeds a block of samples to some sources by their names, or to all in the order of their
        lines, or to the only one its array alone; and returns what comes out, by sink.

        Samples are whole numbers, in arrays or lists. It raises NoStream, SamplesError, TypeError
        or OverflowError, and then none is fed; or TooBig or Stalled, whose `values` have what came
        out, and then each later call does too; or MemoryError.

        >>> import phase
        >>> both = "phaser x sum 4\\nsource s s.csv -> x\\nsource t t.csv -> x\\nsink out x"
        >>> stream = phase.Stream(both)
        >>> stream.feed(s=[1, 2, 3])
        {'out': array([], dtype=int64)}
        >>> stream.feed({"t": [10, 20]})
        {'out': array([11, 22])}
        """
        with phase._alone(self._lock):
            blocks = self._blocks(samples, named)
            for source, block in blocks.items():
                self._queues[source].append(block)
            try:
                return self._goes_on()
            finally:
                # What is left is the caller's array.
                for queue in (self._queues[source] for source in blocks):
                    if queue:
                        queue[-1] = queue[-1].copy()

    def finish(self, *sources: str) -> Outputs:
        """Says that no more samples come for these sources, or for any where none is named, and
        returns what comes out, as `feed` does. It raises SamplesError, and what `feed` does.

        >>> import phase
        >>> both = "phaser x sum 4\\nsource s s.csv -> x\\nsource t t.csv -> x\\nsink out x"
        >>> stream = phase.Stream(both)
        >>> stream.feed(s=[1, 2, 3])["out"], stream.finish("t")["out"]
        (array([], dtype=int64), array([1, 2, 3]))
        >>> stream.finish()["out"], stream.done
        (array([], dtype=int64), True)
        """
        with phase._alone(self._lock):
            self._look(sources)
            ended = sources or self.names.sources
            more = {self.names.sources.index(it) for it in ended} - self._finished
            self._finished |= more
            self._ending |= more
            return self._goes_on()

    @property
    def done(self) -> bool:
        """Whether no task is left, so that nothing more comes out."""
        return self._done

    @property
    def starts(self) -> dict[str, int]:
        """The starts of the sinks that join now and have joined. It raises NoStream."""
        found, start = {}, ctypes.c_int64()
        with phase._alone(self._lock):
            for sink, name in enumerate(self.names.sinks):
                _done(_lib.phase_stream_start(self._place, sink, start))
                if start.value != phase.NO_START:
                    found[name] = start.value
            self._look()
        return found

    def close(self) -> None:
        """Ends the stream and gives its memory back. Later calls raise NoStream; to close it again
        does nothing."""
        _free(self._place, self._lock)

    def __enter__(self) -> Stream:
        return self

    def __exit__(self, *_: object) -> None:
        self.close()

    def __repr__(self) -> str:
        return f"<phase.Stream {' '.join(self.names.sources)} -> {' '.join(self.names.sinks)}>"

    def __reduce__(self):
        raise TypeError("a stream is not copied")

    def _look(self, named=()):
        """Refuses a call on a stream that was closed, and names that are none of a source."""
        if not self._place.live:
            raise NoStream
        if not set(named) <= set(self.names.sources):
            raise phase.SamplesError(
                f"the sources are {' '.join(self.names.sources) or 'none'}, and not "
                f"{' '.join(map(str, named))}"
            )

    def _blocks(self, samples, named):
        """The blocks that are fed, by the numbers of their sources."""
        names = self.names.sources
        if isinstance(samples, Mapping):
            samples, named = (), {**samples, **named}
            if not named:
                samples = [()] * len(names)
        self._look(named)
        if named:
            named = {**dict.fromkeys(names, ()), **named}
        rows = enumerate(phase._in_order(names, samples, named))
        blocks = {source: row for source, row in rows if len(row)}
        for source, row in blocks.items():
            if source in self._finished:
                raise phase.SamplesError(f"{names[source]} is finished")
            if row.min() == phase._NO_VALUE:
                at = int(row.argmin())
                raise phase.SamplesError(f"sample {at} of {names[source]} is -2**63, which is none")
        return blocks

    def _goes_on(self):
        """Feeds what waits, runs and takes until nothing moves, and returns what came out."""
        while True:
            is_moved, stop = self._feeds(), self._runs()
            self._takes()
            if stop.kind == HUNGRY and not (is_moved and any(self._queues)):
                return self._answer()
            if stop.kind in (DONE, STALLED, TOO_BIG):
                return self._ends(stop)

    def _feeds(self):
        """Feeds each source what waits for it, as far as there is room, and returns whether any
        took some or ended."""
        is_moved = False
        for source, queue in enumerate(self._queues):
            while queue:
                took = self._feed(source, queue[0])
                is_moved = is_moved or took > 0
                if took < len(queue[0]):
                    queue[0] = queue[0][took:]
                    break
                queue.popleft()
            if not queue and source in self._ending:
                _done(_lib.phase_stream_finish(self._place, source))
                self._ending.discard(source)
        return is_moved

    def _feed(self, source, block):
        # The call looks at all that it is given, and has room for no more than these.
        took, row = ctypes.c_size_t(), (block.ctypes.data, min(len(block), _ROOM))
        _done(_lib.phase_stream_feed(self._place, source, *row, took))
        return took.value

    def _runs(self):
        stop = _Stop()
        _done(_lib.phase_stream_run(self._place, stop))
        return stop

    def _takes(self):
        """Takes what each sink has."""
        count = ctypes.c_size_t()
        for sink, got in enumerate(self._got):
            # The first call has no room, and tells how much it takes.
            status = _lib.phase_stream_take(self._place, sink, None, 0, count)
            if status == phase.E_ROOM:
                values = numpy.empty(count.value, numpy.int64)
                row = values.ctypes.data, len(values)
                _done(_lib.phase_stream_take(self._place, sink, *row, count))
                got.append(values)
            else:
                _done(status)

    def _ends(self, stop):
        """Returns what came out of a stream that is at its end, or raises it with why."""
        for queue in self._queues:
            queue.clear()
        self._done = stop.kind == DONE
        values = self._answer()
        if stop.kind == DONE:
            return values
        why = self._stalled() if stop.kind == STALLED else self._too_big(stop)
        why.values = values
        raise why

    def _stalled(self):
        why, count = Stalled(), ctypes.c_size_t()
        _lib.phase_stream_waits(self._place, None, 0, count)
        told = ctypes.create_string_buffer(count.value)
        _done(_lib.phase_stream_waits(self._place, told, len(told), count))
        why.waits = [line.strip() for line in told.raw[: count.value].decode().splitlines()]
        return why

    def _too_big(self, stop):
        fault = phase._Fault(number=stop.number, at=stop.at, place=stop.place)
        try:
            phase._stop(phase.E_TOO_BIG, fault, self._text)
        except phase.TooBig as why:
            return why

    def _answer(self):
        """What came out since the last answer."""
        joined = [
            it[0] if len(it) == 1 else numpy.concatenate(it or [phase._none()]) for it in self._got
        ]
        for got in self._got:
            got.clear()
        return dict(zip(self.names.sinks, joined))


def _free(place, lock):
    with phase._alone(lock):
        _lib.phase_stream_free(place)


def _done(status):
    if status == E_NO_STREAM:
        raise NoStream
    if status != OK:
        phase._done(status)
