//! The calls of `phase.h` on a graph that is fed.
use crate::{PhaseCounts, PhaseFault};
use core::{ffi::c_void, ptr};

pub const PHASE_E_NO_STREAM: i32 = -8;
pub const PHASE_E_HAS_STREAM: i32 = -9;
pub const PHASE_E_NO_SOURCE: i32 = -10;
pub const PHASE_E_NO_SINK: i32 = -11;

pub const PHASE_HUNGRY: i32 = 1;
pub const PHASE_FULL: i32 = 2;
pub const PHASE_STALLED: i32 = 3;
pub const PHASE_DONE: i32 = 4;
pub const PHASE_TOO_BIG: i32 = 5;
pub const PHASE_PAUSED: i32 = 6;

/// The place of a stream, which has none while it is `NONE`.
#[repr(C)]
#[derive(Debug)]
pub struct PhaseStream {
    /// Where the stream is.
    pub at: *mut c_void,
    /// Whether there is one.
    pub live: bool,
}

impl PhaseStream {
    /// A place with no stream.
    pub const NONE: PhaseStream = PhaseStream { at: ptr::null_mut(), live: false };
}

/// Why a run goes on no further; 0 where a number says nothing.
#[repr(C)]
#[derive(Clone, Copy, Debug, Default, PartialEq, Eq)]
pub struct PhaseStop {
    /// The source, the sink, the phaser or the task.
    pub number: u64,
    /// The phase on the phaser, or the step of the task.
    pub at: u64,
    /// Why: `PHASE_HUNGRY` and so on.
    pub kind: i32,
    /// `PHASE_AT_PHASER` or `PHASE_AT_TASK`.
    pub place: i32,
}

unsafe extern "C" {
    /// # Safety
    /// As of `phase_check`. The place is all zero or as the last call left it, and no other call on
    /// it is running; the same goes for the calls below.
    pub fn phase_stream_new(
        text: *const u8,
        text_len: usize,
        stream: *mut PhaseStream,
        fault: *mut PhaseFault,
    ) -> i32;

    /// # Safety
    /// As of `phase_stream_new`.
    pub fn phase_stream_free(stream: *mut PhaseStream);

    /// # Safety
    /// As of `phase_stream_new`.
    pub fn phase_stream_counts(stream: *mut PhaseStream, counts: *mut PhaseCounts) -> i32;

    /// # Safety
    /// As of `phase_stream_new`.
    pub fn phase_stream_feed(
        stream: *mut PhaseStream,
        source: usize,
        samples: *const i64,
        samples_len: usize,
        took: *mut usize,
    ) -> i32;

    /// # Safety
    /// As of `phase_stream_new`.
    pub fn phase_stream_finish(stream: *mut PhaseStream, source: usize) -> i32;

    /// # Safety
    /// As of `phase_stream_new`.
    pub fn phase_stream_run(stream: *mut PhaseStream, stop: *mut PhaseStop) -> i32;

    /// # Safety
    /// As of `phase_stream_new`.
    pub fn phase_stream_take(
        stream: *mut PhaseStream,
        sink: usize,
        values: *mut i64,
        values_len: usize,
        count: *mut usize,
    ) -> i32;

    /// # Safety
    /// As of `phase_stream_new`.
    pub fn phase_stream_start(stream: *mut PhaseStream, sink: usize, start: *mut i64) -> i32;

    /// # Safety
    /// As of `phase_stream_new`.
    pub fn phase_stream_waits(
        stream: *mut PhaseStream,
        text: *mut u8,
        text_len: usize,
        count: *mut usize,
    ) -> i32;
}
