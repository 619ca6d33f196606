//! A graph that is fed.
use crate::error::{self, Error};
use crate::{Names, names, zeros};
use phase_sys::*;
use std::cell::UnsafeCell;

/// The most samples of a source that wait.
const ROOM: usize = 4_096;

/// Why a run goes on no further for now, or at all.
#[derive(Clone, Copy, Debug, PartialEq, Eq, Hash)]
pub enum Stopped {
    /// A source has signalled all its samples. Feed it, or finish it.
    Hungry {
        /// The number of the source.
        source: usize,
    },
    /// A sink has no room for its next values. Take those that it has.
    Full {
        /// The number of the sink.
        sink: usize,
    },
    /// No task is left. The sinks have all the values that they will ever have.
    Done,
}

/// A run of a graph whose samples come in pieces: it is fed, goes on until no task can move, and is
/// read.
///
/// At every moment what was taken of a sink, and what it has, are the first of the values that
/// [`eval`](crate::eval) has for it over the whole samples, whatever samples come later; and all of
/// them, once the run is [`Stopped::Done`]. Whole blocks by `eval`, one by one, would begin the
/// graph anew with each.
///
/// ```
/// use phase::Stream;
/// let graph = "phaser x sum 4\n\
///              phaser y sum 4\n\
///              source s s.csv -> x\n\
///              fir f x -> y shift 1 taps 1 1\n\
///              sink out y\n";
/// let mut stream = Stream::new(graph)?;
/// let mut values = vec![];
/// for block in [&[2, 4][..], &[6, 8, 10]] {
///     stream.feed(0, block)?;
///     stream.run()?;
///     values.extend(stream.take(0)?);
/// }
/// assert_eq!(values, [1, 3, 5, 7, 9]);
/// # Ok::<(), phase::Error>(())
/// ```
///
/// **Numbers.** A source is named by its number among the sources, and a sink by its number among
/// the sinks, each from 0 on in the order of their lines; [`names`](Stream::names) has their names.
///
/// **Rooms.** Of each source at most 4,096 samples wait to be signalled, and each sink keeps at
/// most 4,096 values until they are taken, or a block of its line, where that is more. Of a longer
/// block a feed takes a part:
///
/// ```
/// use phase::{Stopped, Stream};
/// let mut stream = Stream::new("phaser x sum 4\nsource s s.csv -> x\nsink out x\n")?;
/// let samples: Vec<i64> = (0..10_000).collect();
/// let (mut rest, mut values) = (samples.as_slice(), vec![]);
/// loop {
///     let took = stream.feed(0, rest)?;
///     rest = &rest[took..];
///     if rest.is_empty() {
///         stream.finish(0)?;
///     }
///     let stopped = stream.run()?;
///     values.extend(stream.take(0)?);
///     if stopped == Stopped::Done {
///         break;
///     }
/// }
/// assert_eq!(values, samples);
/// # Ok::<(), phase::Error>(())
/// ```
///
/// **Memory.** It is taken by `new` and `take`, and by a run that registers a child.
///
/// A stream may go to another thread. Two threads make no call on it at a time:
///
/// ```compile_fail,E0277
/// let stream = phase::Stream::new("phaser x sum 4\nsink out x\n").unwrap();
/// std::thread::scope(|threads| drop(threads.spawn(|| stream.start(0))));
/// ```
#[derive(Debug)]
pub struct Stream {
    // A place with a stream, which no other value has.
    place: UnsafeCell<PhaseStream>,
    names: Names,
}

// SAFETY: a stream may go from one thread to another, as phase.h says, and it is no `Sync`, so that
// calls go one by one.
unsafe impl Send for Stream {}

impl Stream {
    /// Makes a stream of a graph, to which no samples came.
    ///
    /// # Errors
    ///
    /// It is refused as `Graph` or `OutOfMemory`. The kind `AnyMeets` tells the first line whose
    /// task could signal with one of an earlier line in one phase of a phaser with `any`, were
    /// there samples enough.
    ///
    /// # Example
    ///
    /// ```
    /// let why = phase::Stream::new("phaser x mean 4").unwrap_err();
    /// assert_eq!(why.to_string(), "graph line 1: syntax");
    /// ```
    pub fn new(graph: impl AsRef<[u8]>) -> Result<Stream, Error> {
        let text = graph.as_ref();
        let (mut place, mut fault) = (PhaseStream::NONE, PhaseFault::default());
        // SAFETY: the first pointer and length are those of one slice, the place has no stream, and
        // both it and the fault are values of this function.
        match unsafe { phase_stream_new(text.as_ptr(), text.len(), &mut place, &mut fault) } {
            PHASE_OK => {}
            status => return Err(error::of(status, &fault, &[])),
        }
        let mut stream = Stream { place: UnsafeCell::new(place), names: Names::default() };
        stream.names = names(text)?;
        Ok(stream)
    }

    /// The names of the sources and sinks, in the order of their numbers.
    ///
    /// ```
    /// let stream = phase::Stream::new("phaser x sum 4\nsource s s.csv -> x\nsink out x\n")?;
    /// assert_eq!(stream.names().sinks, ["out"]);
    /// # Ok::<(), phase::Error>(())
    /// ```
    pub fn names(&self) -> &Names {
        &self.names
    }

    /// Feeds samples to a source, as many of them as it has room for, 4,096 at most, and returns
    /// how many it took: none where it is finished, and none after a value out of range.
    ///
    /// # Errors
    ///
    /// It is refused as `NoSource`, or as `Sample` where one of the first 4,096 is `i64::MIN`; then
    /// none is fed.
    ///
    /// # Example
    ///
    /// ```
    /// use phase::{Error, Stream};
    /// let mut stream = Stream::new("phaser x sum 4\nsource s s.csv -> x\nsink out x\n")?;
    /// assert_eq!(stream.feed(0, &[7; 5_000])?, 4_096);
    /// assert_eq!(stream.feed(1, &[7]), Err(Error::NoSource { source: 1 }));
    /// # Ok::<(), Error>(())
    /// ```
    pub fn feed(&mut self, source: usize, samples: &[i64]) -> Result<usize, Error> {
        let (place, mut took) = (self.place.get(), 0);
        // The call looks at all that it is given.
        let samples = &samples[..samples.len().min(ROOM)];
        // SAFETY: the place has a stream of this thread, the pointer and length are those of one
        // slice, and the last is a value of this function.
        match unsafe {
            phase_stream_feed(place, source, samples.as_ptr(), samples.len(), &mut took)
        } {
            PHASE_OK => Ok(took),
            PHASE_E_SAMPLE => Err(sample_of(source, samples)),
            status => Err(refused(status, source)),
        }
    }

    /// Says that no more samples come for a source.
    ///
    /// # Errors
    ///
    /// It is refused as `NoSource`.
    ///
    /// # Example
    ///
    /// ```
    /// use phase::{Stopped, Stream};
    /// let mut stream = Stream::new("phaser x sum 4\nsource s s.csv -> x\nsink out x\n")?;
    /// assert_eq!(stream.run()?, Stopped::Hungry { source: 0 });
    /// stream.finish(0)?;
    /// assert_eq!(stream.run()?, Stopped::Done);
    /// # Ok::<(), phase::Error>(())
    /// ```
    pub fn finish(&mut self, source: usize) -> Result<(), Error> {
        // SAFETY: the place has a stream of this thread.
        match unsafe { phase_stream_finish(self.place.get(), source) } {
            PHASE_OK => Ok(()),
            status => Err(refused(status, source)),
        }
    }

    /// Goes on until no task can move, and returns why. A sink without room is told before a hungry
    /// source.
    ///
    /// # Errors
    ///
    /// It fails as `TooBig` where a value is out of range, in every stream whose samples go on so,
    /// or as `Stalled`, and then each later call does too, but that behind a `finish` a sink may be
    /// without room first. What the sinks have can still be taken: all that comes about without the
    /// value that is too big. At `OutOfMemory` there was no memory for a child's registration; no
    /// value is lost, and the call can be made again.
    ///
    /// # Example
    ///
    /// ```
    /// use phase::{Error, Place, Stream};
    /// let graph = "phaser x sum 4\nphaser y sum 4\nsource s s.csv -> x\n\
    ///              fir f x -> y shift 0 taps 2\nsink out y\n";
    /// let mut stream = Stream::new(graph)?;
    /// stream.feed(0, &[4])?;
    /// stream.run()?;
    /// stream.feed(0, &[i64::MAX])?;
    /// assert_eq!(stream.run(), Err(Error::TooBig { place: Place::Task(1), at: 1 }));
    /// assert_eq!(stream.take(0)?, [8]);
    /// # Ok::<(), Error>(())
    /// ```
    pub fn run(&mut self) -> Result<Stopped, Error> {
        loop {
            let mut stop = PhaseStop::default();
            // SAFETY: the place has a stream of this thread, and the other is a value of this
            // function.
            match unsafe { phase_stream_run(self.place.get(), &mut stop) } {
                PHASE_OK => {}
                status => return Err(refused(status, 0)),
            }
            if let Some(stopped) = stopped_by(stop) {
                return stopped;
            }
        }
    }

    /// Takes all values that a sink has, the first first. It has none then.
    ///
    /// # Errors
    ///
    /// It is refused as `NoSink` or `OutOfMemory`, and then the sink keeps them.
    ///
    /// # Example
    ///
    /// ```
    /// let mut stream = phase::Stream::new("phaser x sum 4\nsource s s.csv -> x\nsink out x\n")?;
    /// stream.feed(0, &[2, 4])?;
    /// stream.run()?;
    /// assert_eq!(stream.take(0)?, [2, 4]);
    /// assert_eq!(stream.take(0)?, []);
    /// # Ok::<(), phase::Error>(())
    /// ```
    pub fn take(&mut self, sink: usize) -> Result<Vec<i64>, Error> {
        match self.take_into(sink, &mut []) {
            Err(Error::Room { count }) => {
                let mut values = zeros(count)?;
                self.take_into(sink, &mut values)?;
                Ok(values)
            }
            none => none.map(|_| Vec::new()),
        }
    }

    /// Takes all values that a sink has into the first of these places, and returns how many they
    /// are. What stands behind them stays. It takes no memory.
    ///
    /// # Errors
    ///
    /// It is refused as `NoSink`, or as `Room` where there are fewer places; then the sink keeps
    /// the values.
    ///
    /// # Example
    ///
    /// ```
    /// use phase::{Error, Stream};
    /// let mut stream = Stream::new("phaser x sum 4\nsource s s.csv -> x\nsink out x\n")?;
    /// stream.feed(0, &[2, 4])?;
    /// stream.run()?;
    /// let mut values = [0; 3];
    /// assert_eq!(stream.take_into(0, &mut values[..1]), Err(Error::Room { count: 2 }));
    /// assert_eq!(stream.take_into(0, &mut values)?, 2);
    /// assert_eq!(values, [2, 4, 0]);
    /// # Ok::<(), Error>(())
    /// ```
    pub fn take_into(&mut self, sink: usize, values: &mut [i64]) -> Result<usize, Error> {
        let (place, mut count) = (self.place.get(), 0);
        // SAFETY: as in `feed`, and the slice is borrowed for this call alone.
        match unsafe {
            phase_stream_take(place, sink, values.as_mut_ptr(), values.len(), &mut count)
        } {
            PHASE_OK => Ok(count),
            PHASE_E_ROOM => Err(Error::Room { count }),
            status => Err(refused(status, sink)),
        }
    }

    /// Returns the phase at which a sink that joins now begins, once it is registered.
    ///
    /// # Errors
    ///
    /// It is refused as `NoSink`.
    ///
    /// # Example
    ///
    /// ```
    /// let graph = "graph 2\nphaser x sum 4\nsource s s.csv -> x\nsink all x\n\
    ///              sink late x by all at 2 now\n";
    /// let mut stream = phase::Stream::new(graph)?;
    /// assert_eq!(stream.start(1)?, None);
    /// stream.feed(0, &[5, 6, 7, 8])?;
    /// stream.run()?;
    /// assert!(stream.start(1)? >= Some(2));
    /// # Ok::<(), phase::Error>(())
    /// ```
    pub fn start(&self, sink: usize) -> Result<Option<u64>, Error> {
        let mut start = PHASE_NO_START;
        // SAFETY: as in `run`; no other call is under way, since a stream is not `Sync`, and each
        // returns before the next.
        match unsafe { phase_stream_start(self.place.get(), sink, &mut start) } {
            PHASE_OK => Ok((start != PHASE_NO_START).then_some(start as u64)),
            status => Err(refused(status, sink)),
        }
    }

    /// Tells, where `run` has failed as `Stalled`, what each task that is left waits for: a line
    /// for each, and one for each phaser that a task may not signal, with how far its waiters are.
    /// There are no lines where memory runs out over them.
    ///
    /// # Example
    ///
    /// The joiner takes from x at half the rate of the splitter beside it, and falls behind.
    ///
    /// ```
    /// use phase::{Error, Stream};
    /// let graph = "phaser x sum 1\nphaser a sum 1\nphaser b sum 1\nphaser y sum 1\n\
    ///              source s s.csv -> x\nsplit d x -> a b\njoin j x a -> y\nsink out y\n";
    /// let mut stream = Stream::new(graph)?;
    /// stream.feed(0, &[1; 20])?;
    /// assert_eq!(stream.run(), Err(Error::Stalled));
    /// let waits = stream.waits();
    /// assert_eq!(waits[0], "s may not signal phase 4 of x: bound 1, and j stands at 3");
    /// assert_eq!(waits[2], "j waits for phase 2 of a, which d has not signalled");
    /// # Ok::<(), Error>(())
    /// ```
    pub fn waits(&self) -> Vec<String> {
        let (mut text, mut count) = (Vec::new(), 0);
        // SAFETY: as in `start`; the places are those of the list, and none behind them is written.
        while unsafe {
            phase_stream_waits(self.place.get(), text.as_mut_ptr(), text.len(), &mut count)
        } == PHASE_E_ROOM
        {
            text.resize(count, 0);
        }
        text.truncate(count);
        String::from_utf8_lossy(&text).lines().map(|line| line.trim().to_owned()).collect()
    }
}

impl Drop for Stream {
    fn drop(&mut self) {
        // SAFETY: the place has a stream of this thread, which nothing uses behind this call.
        unsafe { phase_stream_free(self.place.get()) }
    }
}

/// Why a run stopped, or nothing where it has to be called again.
fn stopped_by(stop: PhaseStop) -> Option<Result<Stopped, Error>> {
    let PhaseStop { number, at, kind, place } = stop;
    Some(match kind {
        PHASE_HUNGRY => Ok(Stopped::Hungry { source: number as usize }),
        PHASE_FULL => Ok(Stopped::Full { sink: number as usize }),
        PHASE_DONE => Ok(Stopped::Done),
        PHASE_STALLED => Err(Error::Stalled),
        PHASE_TOO_BIG => Err(error::too_big(place, number, at)),
        PHASE_PAUSED => return None,
        other => unreachable!("libphase told a stop that is none: {other}"),
    })
}

/// The first of these samples that is none.
fn sample_of(source: usize, samples: &[i64]) -> Error {
    let at = samples.iter().position(|it| *it == i64::MIN);
    Error::Sample { source, at: at.expect("libphase refused samples that are good") }
}

/// What a status other than PHASE_OK says, of a call with the number of a source or a sink.
fn refused(status: i32, number: usize) -> Error {
    match status {
        PHASE_E_NO_SOURCE => Error::NoSource { source: number },
        PHASE_E_NO_SINK => Error::NoSink { sink: number },
        status => error::of(status, &PhaseFault::default(), &[]),
    }
}
