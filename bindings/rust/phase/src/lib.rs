//! Graphs of whole-number filters: the values of each sink, exactly, or the first that is out of
//! range, [over whole samples](eval) or [fed block by block](Stream); [filters](Fir) over blocks of
//! samples; [phasers](Phaser) whose calls never block; and phasers [between threads](shared).
//!
//! ```
//! let graph = "phaser x sum 4\n\
//!              phaser y sum 4\n\
//!              source s s.csv -> x\n\
//!              fir f x -> y shift 1 taps 1 1\n\
//!              sink out y\n";
//! let sinks = phase::eval(graph, &[&[2, 4, 6]])?;
//! assert_eq!(sinks[0].values, [1, 3, 5]);
//! # Ok::<(), phase::Error>(())
//! ```
//!
//! The file behind a source's name is not read: its samples are the slice that is given.
#![deny(missing_docs, clippy::missing_errors_doc)]

mod error;
mod fir;
mod phaser;
mod phaser_error;
pub mod shared;
mod stream;

pub use error::{Error, FaultKind, Place};
pub use fir::{Fir, FirError, FirForm};
pub use phase_sys::PhaseCounts as Counts;
use phase_sys::{
    PHASE_E_ROOM, PHASE_NO_START, PHASE_OK, PHASE_SAMPLES_MAX, PhaseCounts, PhaseFault,
    phase_all_names, phase_check, phase_eval, phase_names,
};
pub use phaser::{Got, GotBlock, Mode, Operation, Phaser, Single, Standing};
pub use phaser_error::PhaserError;
pub use stream::{Stopped, Stream};

/// What a sink got.
#[derive(Clone, Debug, PartialEq, Eq)]
pub struct Sink {
    /// The phase at which it begins, of a sink that joins now and is live.
    pub start: Option<u64>,
    /// Its values.
    pub values: Vec<i64>,
}

/// Returns how many phasers, tasks, sources and sinks a graph has.
///
/// # Errors
///
/// It fails as `Graph` where the text has a fault, or as `OutOfMemory`.
///
/// # Example
///
/// ```
/// assert_eq!(phase::check("phaser x sum 4\nsink out x")?.sinks, 1);
/// let why = phase::check("phaser x mean 4").unwrap_err();
/// assert_eq!(why.to_string(), "graph line 1: syntax");
/// # Ok::<(), phase::Error>(())
/// ```
pub fn check(graph: impl AsRef<[u8]>) -> Result<Counts, Error> {
    let text = graph.as_ref();
    let (mut counts, mut fault) = (PhaseCounts::default(), PhaseFault::default());
    // SAFETY: the first pointer and length are those of one slice, and the others are to values of
    // this function.
    match unsafe { phase_check(text.as_ptr(), text.len(), &mut counts, &mut fault) } {
        PHASE_OK => Ok(counts),
        status => Err(error::of(status, &fault, &[])),
    }
}

/// The names of a graph's sources and sinks, each in the order of their lines.
#[derive(Clone, Debug, Default, PartialEq, Eq)]
pub struct Names {
    /// The names of the sources.
    pub sources: Vec<String>,
    /// The names of the sinks.
    pub sinks: Vec<String>,
}

/// Returns the names of a graph's sources and sinks, as `eval` has their samples and values.
///
/// # Errors
///
/// It fails as [`check`] does.
///
/// # Example
///
/// ```
/// let names = phase::names("phaser x sum 4\nsource s s.csv -> x\nsink a x\nsink b x")?;
/// assert_eq!(names.sources, ["s"]);
/// assert_eq!(names.sinks, ["a", "b"]);
/// # Ok::<(), phase::Error>(())
/// ```
pub fn names(graph: impl AsRef<[u8]>) -> Result<Names, Error> {
    let text = graph.as_ref();
    let mut names = named(phase_names, text)?.into_iter();
    Ok(Names {
        sources: names.by_ref().take(check(text)?.sources).collect(),
        sinks: names.collect(),
    })
}

/// The names of all phasers and tasks of a graph, each in the order of their lines.
#[derive(Clone, Debug, Default, PartialEq, Eq)]
pub struct AllNames {
    /// The names of the phasers.
    pub phasers: Vec<String>,
    /// The names of the tasks, sources and sinks among them.
    pub tasks: Vec<String>,
}

/// Returns the names of all phasers and tasks of a graph, as a [`Place`] counts them.
///
/// # Errors
///
/// It fails as [`check`] does.
///
/// # Example
///
/// ```
/// let names = phase::all_names("phaser x sum 4\nsource s s.csv -> x\nsink a x")?;
/// assert_eq!(names.phasers, ["x"]);
/// assert_eq!(names.tasks, ["s", "a"]);
/// # Ok::<(), phase::Error>(())
/// ```
pub fn all_names(graph: impl AsRef<[u8]>) -> Result<AllNames, Error> {
    let text = graph.as_ref();
    let mut names = named(phase_all_names, text)?.into_iter();
    let phasers = names.by_ref().take(check(text)?.phasers).collect();
    Ok(AllNames { phasers, tasks: names.collect() })
}

/// A call that writes names of a graph.
type NamesCall =
    unsafe extern "C" fn(*const u8, usize, *mut u8, usize, *mut usize, *mut PhaseFault) -> i32;

/// The names that a call writes, a line each.
fn named(call: NamesCall, text: &[u8]) -> Result<Vec<String>, Error> {
    let mut fault = PhaseFault::default();
    let mut needed = 0;
    // Each name stands in the text with a byte behind it, but for one at its end.
    let mut room = vec![0; text.len() + 1];
    // SAFETY: each pointer and length are those of one slice, and the others are to values of this
    // function.
    let status = unsafe {
        call(text.as_ptr(), text.len(), room.as_mut_ptr(), room.len(), &mut needed, &mut fault)
    };
    if status != PHASE_OK {
        return Err(error::of(status, &fault, &[]));
    }
    let written = String::from_utf8_lossy(&room[..needed]);
    Ok(written.lines().map(str::to_string).collect())
}

/// Returns what each sink got, in the order of the lines, from the samples of each source in
/// theirs.
///
/// A sink that joins now begins at the least phase that it may.
///
/// # Errors
///
/// It fails as `Graph`, `Counts`, `TooManySamples`, `Sample`, `TooBig` or `OutOfMemory`.
///
/// # Example
///
/// ```
/// let graph = "phaser x sum 4\nsource s s.csv -> x\nsource t t.csv -> x\nsink out x\n";
/// assert_eq!(phase::eval(graph, &[&[1, 2], &[10]])?[0].values, [11, 2]);
/// let why = phase::eval(graph, &[&[i64::MAX], &[1]]).unwrap_err();
/// assert_eq!(why, phase::Error::TooBig { place: phase::Place::Phaser(0), at: 0 });
/// # Ok::<(), phase::Error>(())
/// ```
pub fn eval(graph: impl AsRef<[u8]>, sources: &[&[i64]]) -> Result<Vec<Sink>, Error> {
    let text = graph.as_ref();
    let lent = Lent::new(sources)?;
    let sinks = check(text)?.sinks;
    let mut room = Room { out: Vec::new(), counts: vec![0; sinks], starts: vec![0; sinks] };
    let mut fault = PhaseFault::default();
    // The first call has no room, and tells how much it takes.
    let mut status = lent.eval(text, &mut room, &mut fault);
    if status == PHASE_E_ROOM {
        room.out = zeros(room.counts.iter().sum())?;
        status = lent.eval(text, &mut room, &mut fault);
    }
    match status {
        PHASE_OK => Ok(room.sinks()),
        status => Err(error::of(status, &fault, &lent.counts)),
    }
}

/// So many zeros, or want of memory.
fn zeros(count: usize) -> Result<Vec<i64>, Error> {
    let mut values = Vec::new();
    values.try_reserve_exact(count).map_err(|_| Error::OutOfMemory)?;
    values.resize(count, 0);
    Ok(values)
}

/// The samples of all sources, one source behind the other.
struct Lent<'a> {
    samples: std::borrow::Cow<'a, [i64]>,
    counts: Vec<usize>,
}

impl<'a> Lent<'a> {
    fn new(sources: &[&'a [i64]]) -> Result<Lent<'a>, Error> {
        let counts: Vec<usize> = sources.iter().map(|it| it.len()).collect();
        if let Some(source) = counts.iter().position(|it| *it > PHASE_SAMPLES_MAX) {
            return Err(Error::TooManySamples { source });
        }
        if let [one] = sources {
            return Ok(Lent { samples: (*one).into(), counts });
        }
        let mut samples = Vec::new();
        samples.try_reserve_exact(counts.iter().sum()).map_err(|_| Error::OutOfMemory)?;
        for source in sources {
            samples.extend_from_slice(source);
        }
        Ok(Lent { samples: samples.into(), counts })
    }

    fn eval(&self, text: &[u8], room: &mut Room, fault: &mut PhaseFault) -> i32 {
        let Room { out, counts, starts } = room;
        // SAFETY: each pointer and length are those of one slice, and what is written overlaps
        // nothing else, since it is borrowed for this call alone.
        unsafe {
            phase_eval(
                text.as_ptr(),
                text.len(),
                self.samples.as_ptr(),
                self.samples.len(),
                self.counts.as_ptr(),
                self.counts.len(),
                out.as_mut_ptr(),
                out.len(),
                counts.as_mut_ptr(),
                counts.len(),
                starts.as_mut_ptr(),
                starts.len(),
                fault,
            )
        }
    }
}

/// What a call writes.
struct Room {
    out: Vec<i64>,
    counts: Vec<usize>,
    starts: Vec<i64>,
}

impl Room {
    fn sinks(&self) -> Vec<Sink> {
        let mut rest = self.out.as_slice();
        let mut sinks = Vec::new();
        for (count, start) in self.counts.iter().zip(&self.starts) {
            let (values, behind) = rest.split_at(*count);
            let start = (*start != PHASE_NO_START).then_some(*start as u64);
            sinks.push(Sink { start, values: values.to_vec() });
            rest = behind;
        }
        sinks
    }
}
