//! Why there are no values.
use phase_sys::*;
use std::fmt;

/// Why there are no values.
#[derive(Clone, Copy, Debug, PartialEq, Eq)]
#[non_exhaustive]
pub enum Error {
    /// The graph's text has a fault: its first line with one, from 1 on, and the kind.
    Graph {
        /// The line.
        line: u64,
        /// The kind.
        kind: FaultKind,
    },
    /// There is not one list of samples for each source.
    Counts,
    /// A source has more than 67,108,864 samples.
    TooManySamples {
        /// The source, from 0 on in the order of the lines.
        source: usize,
    },
    /// A sample is `i64::MIN`, which is none: its source, and its place there.
    Sample {
        /// The source, from 0 on in the order of the lines.
        source: usize,
        /// The place of the sample, from 0 on.
        at: usize,
    },
    /// A value is out of range: the phase on the phaser, or the step of the task.
    TooBig {
        /// The phaser or the task.
        place: Place,
        /// The phase or the step, from 0 on.
        at: u64,
    },
    /// The graph has not so many sources.
    NoSource {
        /// The number that was given.
        source: usize,
    },
    /// The graph has not so many sinks.
    NoSink {
        /// The number that was given.
        sink: usize,
    },
    /// The places are too few for the values of a sink, which keeps them.
    Room {
        /// How many values there are.
        count: usize,
    },
    /// No task of a stream can move, and neither samples nor a taking can help.
    Stalled,
    /// Memory ran out.
    OutOfMemory,
}

/// A phaser or a task of a graph, each numbered from 0 on in the order of their lines, as
/// [`all_names`](crate::all_names) has them.
#[derive(Clone, Copy, Debug, PartialEq, Eq)]
pub enum Place {
    /// A phaser.
    Phaser(u64),
    /// A task.
    Task(u64),
}

/// What is wrong with a line of a graph's text, as `docs/FORMATS.md` has it.
#[derive(Clone, Copy, Debug, PartialEq, Eq)]
#[non_exhaustive]
pub enum FaultKind {
    /// The line is not in the grammar.
    Syntax,
    /// A number, or how many taps, outputs, inputs, phasers or tasks there are, is outside its
    /// limit.
    Limit,
    /// A name was declared before, or one phaser stands twice on the line.
    Twice,
    /// A name is declared nowhere above.
    Unknown,
    /// An output is declared above an input.
    OutBeforeIn,
    /// The parent is a task that registers none such.
    BadParent,
    /// The parent does not wait or signal where the task does, or an output has a single.
    NotHeld,
    /// A block is above the bound of a phaser of the line.
    OverBound,
    /// Two tasks signal a phaser with `any` in one phase.
    AnyMeets,
}

impl fmt::Display for FaultKind {
    fn fmt(&self, f: &mut fmt::Formatter<'_>) -> fmt::Result {
        f.write_str(match self {
            FaultKind::Syntax => "syntax",
            FaultKind::Limit => "limit",
            FaultKind::Twice => "twice",
            FaultKind::Unknown => "unknown",
            FaultKind::OutBeforeIn => "out-before-in",
            FaultKind::BadParent => "bad-parent",
            FaultKind::NotHeld => "not-held",
            FaultKind::OverBound => "over-bound",
            FaultKind::AnyMeets => "any-meets",
        })
    }
}

impl fmt::Display for Error {
    fn fmt(&self, f: &mut fmt::Formatter<'_>) -> fmt::Result {
        match self {
            Error::Graph { line, kind } => write!(f, "graph line {line}: {kind}"),
            Error::Counts => f.write_str("not one list of samples for each source"),
            Error::TooManySamples { source } => {
                write!(f, "source {source}: more than {PHASE_SAMPLES_MAX} samples")
            }
            Error::Sample { source, at } => write!(f, "source {source}: sample {at} is i64::MIN"),
            Error::TooBig { place: Place::Phaser(p), at } => {
                write!(f, "too big at phaser {p} {at}")
            }
            Error::TooBig { place: Place::Task(t), at } => write!(f, "too big at task {t} {at}"),
            Error::NoSource { source } => write!(f, "the graph has no source {source}"),
            Error::NoSink { sink } => write!(f, "the graph has no sink {sink}"),
            Error::Room { count } => write!(f, "too few places for {count} values"),
            Error::Stalled => f.write_str("stalled"),
            Error::OutOfMemory => f.write_str("out of memory"),
        }
    }
}

impl std::error::Error for Error {}

fn kind_of(number: i32) -> FaultKind {
    match number {
        PHASE_SYNTAX => FaultKind::Syntax,
        PHASE_LIMIT => FaultKind::Limit,
        PHASE_TWICE => FaultKind::Twice,
        PHASE_UNKNOWN => FaultKind::Unknown,
        PHASE_OUT_BEFORE_IN => FaultKind::OutBeforeIn,
        PHASE_BAD_PARENT => FaultKind::BadParent,
        PHASE_NOT_HELD => FaultKind::NotHeld,
        PHASE_OVER_BOUND => FaultKind::OverBound,
        PHASE_ANY_MEETS => FaultKind::AnyMeets,
        other => unreachable!("libphase told a kind of fault that is none: {other}"),
    }
}

/// The source of a sample, and its place there, by its place among all.
fn sample_at(counts: &[usize], at: u64) -> Error {
    let mut at = at as usize;
    for (source, count) in counts.iter().enumerate() {
        if at < *count {
            return Error::Sample { source, at };
        }
        at -= *count;
    }
    unreachable!("libphase told a sample that is none")
}

/// A value out of range, by the numbers of C.
pub(crate) fn too_big(place: i32, number: u64, at: u64) -> Error {
    let place = match place {
        PHASE_AT_PHASER => Place::Phaser(number),
        _ => Place::Task(number),
    };
    Error::TooBig { place, at }
}

/// What a status other than PHASE_OK says, of a call over so many samples of each source.
pub(crate) fn of(status: i32, fault: &PhaseFault, counts: &[usize]) -> Error {
    match status {
        PHASE_E_GRAPH => Error::Graph { line: fault.line, kind: kind_of(fault.kind) },
        PHASE_E_COUNTS => Error::Counts,
        PHASE_E_SAMPLE => sample_at(counts, fault.at),
        PHASE_E_TOO_BIG => too_big(fault.place, fault.number, fault.at),
        PHASE_E_MEMORY => Error::OutOfMemory,
        other => unreachable!("libphase answered a status that is none: {other}"),
    }
}
