//! Why a call on a phaser was refused.
use phase_sys::*;
use std::fmt;

/// Why a call on a phaser was refused. It left the phaser as it was.
#[derive(Clone, Copy, Debug, PartialEq, Eq, Hash)]
#[non_exhaustive]
pub enum PhaserError {
    /// The bound is not from 1 to 65,536.
    BadBound,
    /// The number of phases is not from 1 to 2^62.
    BadPhases,
    /// A clamp's low end is above its high end, or an end is `i64::MIN`.
    BadSingle,
    /// A value to be sent is `i64::MIN`, which is none.
    BadValue,
    /// The values to be sent are more than 65,536.
    TooManySends,
    /// The task, or the parent, is not registered.
    NoTask,
    /// The parent's mode does not hold the child's.
    NotAllowed,
    /// No number is left for a child.
    NotNew,
    /// 1,024 tasks are registered.
    TooManyTasks,
    /// The task's mode does not signal.
    NoSignal,
    /// A single is named, and the task's mode is not `Mode::Single`.
    NotSingle,
    /// A block of no phase, or of more than the bound.
    BadBlock,
    /// The task waits too, and has signalled since its last wait.
    SignalTwice,
    /// The phaser was made for fewer phases.
    Spent,
    /// A waiter is registered, and the phase is the bound or more ahead of the slowest.
    Ahead,
    /// A waiter is registered, and the first signal of the phase named another single, or none.
    SingleDiffers,
    /// A waiter is registered, and the phase would have more than 65,536 sends.
    PhaseFull,
    /// The task's mode does not wait.
    NoWait,
    /// The task signals too, and has not signalled since its last wait.
    SignalFirst,
    /// The phase is not complete, and a signaller is registered.
    NotYet,
    /// Another call on the phaser is in the middle. It comes to calls of [`shared`](crate::shared)
    /// alone, and of these to those that try once.
    Busy,
    /// The phaser is closed, and the call would have to wait. It comes to calls of
    /// [`shared`](crate::shared) alone, and of these to those with `_or_closed`.
    Closed,
    /// Memory ran out.
    OutOfMemory,
}

impl fmt::Display for PhaserError {
    fn fmt(&self, f: &mut fmt::Formatter<'_>) -> fmt::Result {
        f.write_str(match self {
            PhaserError::BadBound => "the bound is not from 1 to 65,536",
            PhaserError::BadPhases => "the number of phases is not from 1 to 2^62",
            PhaserError::BadSingle => "no range of a clamp has these ends",
            PhaserError::BadValue => "a value to be sent is i64::MIN",
            PhaserError::TooManySends => "more than 65,536 values to be sent",
            PhaserError::NoTask => "no such task is registered",
            PhaserError::NotAllowed => "the parent's mode does not hold the child's",
            PhaserError::NotNew => "no number is left for a child",
            PhaserError::TooManyTasks => "1,024 tasks are registered",
            PhaserError::NoSignal => "the task's mode does not signal",
            PhaserError::NotSingle => "the task's mode names no single",
            PhaserError::BadBlock => "a block of no phase, or of more than the bound",
            PhaserError::SignalTwice => "the task has signalled since its last wait",
            PhaserError::Spent => "the phaser was made for fewer phases",
            PhaserError::Ahead => "the phase is too far ahead of the slowest waiter",
            PhaserError::SingleDiffers => "the phase's first signal named another single, or none",
            PhaserError::PhaseFull => "the phase would have more than 65,536 sends",
            PhaserError::NoWait => "the task's mode does not wait",
            PhaserError::SignalFirst => "the task has not signalled since its last wait",
            PhaserError::NotYet => "the phase is not complete",
            PhaserError::Busy => "another call on the phaser is in the middle",
            PhaserError::Closed => "the phaser is closed",
            PhaserError::OutOfMemory => "out of memory",
        })
    }
}

impl std::error::Error for PhaserError {}

/// What a status other than PHASE_OK and PHASE_ENDED says, of a phaser that is there and words that
/// are known.
pub(crate) fn of(status: i32) -> PhaserError {
    match status {
        PHASE_E_BAD_BOUND => PhaserError::BadBound,
        PHASE_E_BAD_PHASES => PhaserError::BadPhases,
        PHASE_E_BAD_SINGLE => PhaserError::BadSingle,
        PHASE_E_BAD_VALUE => PhaserError::BadValue,
        PHASE_E_TOO_MANY_SENDS => PhaserError::TooManySends,
        PHASE_E_NO_TASK => PhaserError::NoTask,
        PHASE_E_NOT_ALLOWED => PhaserError::NotAllowed,
        PHASE_E_NOT_NEW => PhaserError::NotNew,
        PHASE_E_TOO_MANY_TASKS => PhaserError::TooManyTasks,
        PHASE_E_NO_SIGNAL => PhaserError::NoSignal,
        PHASE_E_NOT_SINGLE => PhaserError::NotSingle,
        PHASE_E_BAD_BLOCK => PhaserError::BadBlock,
        PHASE_E_SIGNAL_TWICE => PhaserError::SignalTwice,
        PHASE_E_SPENT => PhaserError::Spent,
        PHASE_E_AHEAD => PhaserError::Ahead,
        PHASE_E_SINGLE_DIFFERS => PhaserError::SingleDiffers,
        PHASE_E_PHASE_FULL => PhaserError::PhaseFull,
        PHASE_E_NO_WAIT => PhaserError::NoWait,
        PHASE_E_SIGNAL_FIRST => PhaserError::SignalFirst,
        PHASE_E_NOT_YET => PhaserError::NotYet,
        PHASE_E_BUSY => PhaserError::Busy,
        PHASE_E_CLOSED => PhaserError::Closed,
        PHASE_E_MEMORY => PhaserError::OutOfMemory,
        other => unreachable!("libphase answered a status that is none: {other}"),
    }
}
