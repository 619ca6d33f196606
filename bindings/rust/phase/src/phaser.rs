//! A phaser whose calls never block.
use crate::phaser_error::{self, PhaserError};
use phase_sys::*;
use std::{cell::UnsafeCell, ptr};

/// What the sends of a phase come to.
#[derive(Clone, Copy, Debug, PartialEq, Eq, Hash)]
#[non_exhaustive]
pub enum Operation {
    /// Their sum, and 0 of none.
    Sum,
    /// Their product, and 1 of none.
    Product,
    /// The least of them.
    Least,
    /// The greatest of them.
    Greatest,
    /// The first of them.
    Any,
}

impl Operation {
    /// The number of C.
    pub(crate) fn number(self) -> u32 {
        match self {
            Operation::Sum => PHASE_SUM,
            Operation::Product => PHASE_PRODUCT,
            Operation::Least => PHASE_LEAST,
            Operation::Greatest => PHASE_GREATEST,
            Operation::Any => PHASE_ANY,
        }
    }
}

/// What a task does at a phaser. A mode holds itself and those above it, but `Wait` does not hold
/// `Sig`.
#[derive(Clone, Copy, Debug, PartialEq, Eq, Hash)]
pub enum Mode {
    /// It signals.
    Sig,
    /// It waits.
    Wait,
    /// It signals and waits, in turn.
    SigWait,
    /// It signals and waits, in turn, and may name a single at a signal.
    Single,
}

impl Mode {
    /// The number of C.
    pub(crate) fn number(self) -> u32 {
        match self {
            Mode::Sig => PHASE_SIG,
            Mode::Wait => PHASE_WAIT,
            Mode::SigWait => PHASE_SIG_WAIT,
            Mode::Single => PHASE_SINGLE,
        }
    }
}

/// What is done once with the value of a phase.
#[derive(Clone, Copy, Debug, PartialEq, Eq, Hash)]
#[non_exhaustive]
pub enum Single {
    /// Its sign is changed.
    Neg,
    /// Its magnitude is taken.
    Abs,
    /// It is divided by two and rounded down.
    Halve,
    /// The nearest value from `low` to `high` is taken.
    Clamp {
        /// The least value of the range.
        low: i64,
        /// The greatest value of the range.
        high: i64,
    },
}

/// What a wait gets.
#[derive(Clone, Copy, Debug, PartialEq, Eq, Hash)]
pub enum Got {
    /// A phase that is complete.
    Value {
        /// The phase, counted from 0.
        phase: u64,
        /// Its value. It has none where a sum or a product is out of range, and under the other
        /// operations where the phase has no send.
        value: Option<i64>,
    },
    /// No signaller is registered, and the task has got every phase.
    Ended,
}

/// What a wait for a block of phases gets.
#[derive(Clone, Copy, Debug, PartialEq, Eq, Hash)]
pub enum GotBlock {
    /// Phases in a row that are complete, whose values were written.
    Values {
        /// The first phase, counted from 0.
        phase: u64,
        /// How many phases there are, 1 at least.
        count: usize,
    },
    /// No signaller is registered, and the task has got every phase.
    Ended,
}

/// What a registered task stands at.
#[derive(Clone, Copy, Debug, PartialEq, Eq, Hash)]
pub struct Standing {
    /// The phase that it signals next, counted from 0.
    pub signal_phase: u64,
    /// The phase that it waits for next.
    pub wait_phase: u64,
    /// Its mode.
    pub mode: Mode,
}

/// A phaser, at which tasks meet phase by phase.
///
/// A phase is complete when each registered task whose mode signals has signalled it, and its value
/// is what the sends of these signals come to. Tasks are numbers. No call blocks, and a refusal
/// leaves the phaser as it was. Signals and waits take no memory.
///
/// ```
/// use phase::{Got, Mode, Operation, Phaser};
/// let mut phaser = Phaser::new(Operation::Greatest, 2, 100)?;
/// let other = phaser.register(0, Mode::Sig)?;
/// phaser.signal(0, &[4, -3], None)?;
/// phaser.signal(other, &[9], None)?;
/// assert_eq!(phaser.wait(0)?, Got::Value { phase: 0, value: Some(9) });
/// # Ok::<(), phase::PhaserError>(())
/// ```
///
/// It may go to another thread, and threads may share it behind a lock:
///
/// ```
/// use phase::{Got, Operation, Phaser};
/// use std::sync::{Arc, Mutex};
/// use std::thread;
/// let phaser = Arc::new(Mutex::new(Phaser::new(Operation::Sum, 2, 100)?));
/// let other = Arc::clone(&phaser);
/// let signalled = thread::spawn(move || other.lock().unwrap().signal(0, &[7], None));
/// assert_eq!(signalled.join().unwrap()?, 0);
/// assert_eq!(phaser.lock().unwrap().wait(0)?, Got::Value { phase: 0, value: Some(7) });
/// # Ok::<(), phase::PhaserError>(())
/// ```
///
/// Two threads make no call on it at a time:
///
/// ```compile_fail,E0277
/// let phaser = phase::Phaser::new(phase::Operation::Sum, 2, 100).unwrap();
/// std::thread::scope(|threads| drop(threads.spawn(|| phaser.view(0))));
/// ```
#[derive(Debug)]
pub struct Phaser {
    // A place with a phaser, which no other value has.
    place: UnsafeCell<PhasePhaser>,
}

// SAFETY: a phaser may go from one thread to another, as phase.h says, and it is no `Sync`, so that
// calls go one by one.
unsafe impl Send for Phaser {}

impl Phaser {
    /// Makes a phaser of `phases` phases, from 1 to 2^62, whose signallers may be `bound` phases
    /// ahead of its slowest waiter, from 1 to 65,536. Its one task is number 0, in the mode
    /// `Single` at phase 0.
    ///
    /// # Errors
    ///
    /// It is refused as `BadBound`, `BadPhases` or `OutOfMemory`.
    ///
    /// # Example
    ///
    /// ```
    /// use phase::{Operation, Phaser, PhaserError};
    /// assert!(Phaser::new(Operation::Sum, 65_536, 1 << 62).is_ok());
    /// assert_eq!(Phaser::new(Operation::Sum, 0, 100).unwrap_err(), PhaserError::BadBound);
    /// ```
    pub fn new(operation: Operation, bound: u64, phases: u64) -> Result<Phaser, PhaserError> {
        let mut place = PhasePhaser { at: ptr::null_mut(), live: false };
        // SAFETY: the place is zero, and a value of this function.
        done(unsafe { phase_phaser_new(operation.number(), bound, phases, &mut place) })?;
        Ok(Phaser { place: UnsafeCell::new(place) })
    }

    /// Registers a task in a mode that the mode of `parent` holds, at both phases of `parent`, and
    /// returns its number: 1 more than the greatest before. It may take memory.
    ///
    /// # Errors
    ///
    /// It is refused as `NoTask`, `NotAllowed`, `NotNew`, `TooManyTasks` or `OutOfMemory`.
    ///
    /// # Example
    ///
    /// ```
    /// use phase::{Mode, Operation, Phaser, PhaserError};
    /// let mut phaser = Phaser::new(Operation::Sum, 2, 100)?;
    /// let signaller = phaser.register(0, Mode::Sig)?;
    /// assert_eq!(signaller, 1);
    /// assert_eq!(phaser.register(signaller, Mode::Wait), Err(PhaserError::NotAllowed));
    /// # Ok::<(), PhaserError>(())
    /// ```
    pub fn register(&mut self, parent: u64, mode: Mode) -> Result<u64, PhaserError> {
        let mut task = 0;
        let mode = mode.number();
        // SAFETY: the place has a phaser of this thread, and the rest are values of this function.
        done(unsafe { phase_phaser_register(self.place.get(), parent, mode, &mut task) })?;
        Ok(task)
    }

    /// Registers a task in the mode `Wait` at the first phase that is not complete, and returns its
    /// number and that phase. The mode of `parent` waits. It may take memory.
    ///
    /// # Errors
    ///
    /// It is refused as `register` is.
    ///
    /// # Example
    ///
    /// ```
    /// use phase::{Operation, Phaser};
    /// let mut phaser = Phaser::new(Operation::Sum, 2, 100)?;
    /// phaser.signal(0, &[5], None)?;
    /// assert_eq!(phaser.register_now(0)?, (1, 1));
    /// # Ok::<(), phase::PhaserError>(())
    /// ```
    pub fn register_now(&mut self, parent: u64) -> Result<(u64, u64), PhaserError> {
        let (mut task, mut phase) = (0, 0);
        // SAFETY: as in `register`.
        done(unsafe {
            phase_phaser_register_now(self.place.get(), parent, &mut task, &mut phase)
        })?;
        Ok((task, phase))
    }

    /// Ends a task's registration. Phases that the others have signalled are complete without it.
    ///
    /// # Errors
    ///
    /// It is refused as `NoTask`.
    ///
    /// # Example
    ///
    /// ```
    /// use phase::{Got, Mode, Operation, Phaser};
    /// let mut phaser = Phaser::new(Operation::Sum, 2, 100)?;
    /// let waiter = phaser.register(0, Mode::Wait)?;
    /// phaser.drop_task(0)?;
    /// assert_eq!(phaser.wait(waiter)?, Got::Ended);
    /// # Ok::<(), phase::PhaserError>(())
    /// ```
    pub fn drop_task(&mut self, task: u64) -> Result<(), PhaserError> {
        // SAFETY: the place has a phaser of this thread.
        done(unsafe { phase_phaser_drop(self.place.get(), task) })
    }

    /// Signals the task's phase with these sends and a single or none, and returns that phase. A
    /// send is any number but `i64::MIN`.
    ///
    /// # Errors
    ///
    /// It is refused as `BadSingle`, `TooManySends`, `BadValue`, `NoTask`, `NoSignal`, `NotSingle`,
    /// `SignalTwice`, `Spent`, `Ahead`, `SingleDiffers` or `PhaseFull`.
    ///
    /// # Example
    ///
    /// ```
    /// use phase::{Got, Operation, Phaser, PhaserError, Single};
    /// let mut phaser = Phaser::new(Operation::Sum, 2, 100)?;
    /// assert_eq!(phaser.signal(0, &[4, 5], Some(Single::Halve))?, 0);
    /// assert_eq!(phaser.signal(0, &[6], None), Err(PhaserError::SignalTwice));
    /// assert_eq!(phaser.wait(0)?, Got::Value { phase: 0, value: Some(4) });
    /// # Ok::<(), PhaserError>(())
    /// ```
    pub fn signal(
        &mut self,
        task: u64,
        values: &[i64],
        single: Option<Single>,
    ) -> Result<u64, PhaserError> {
        let mut phase = 0;
        let (single, low, high) = numbers_of(single);
        // SAFETY: as in `register`, and the pointer and length are those of one slice.
        done(unsafe {
            phase_phaser_signal(
                self.place.get(),
                task,
                values.as_ptr(),
                values.len(),
                single,
                low,
                high,
                &mut phase,
            )
        })?;
        Ok(phase)
    }

    /// Gets the task's phase and its value, or tells that no more will come.
    ///
    /// # Errors
    ///
    /// It is refused as `NoTask`, `NoWait` or `SignalFirst`, and as `NotYet` where it would have to
    /// block.
    ///
    /// # Example
    ///
    /// ```
    /// use phase::{Got, Mode, Operation, Phaser, PhaserError};
    /// let mut phaser = Phaser::new(Operation::Sum, 2, 100)?;
    /// let waiter = phaser.register(0, Mode::Wait)?;
    /// assert_eq!(phaser.wait(waiter), Err(PhaserError::NotYet));
    /// phaser.signal(0, &[i64::MAX, 1], None)?;
    /// assert_eq!(phaser.wait(waiter)?, Got::Value { phase: 0, value: None });
    /// # Ok::<(), PhaserError>(())
    /// ```
    pub fn wait(&mut self, task: u64) -> Result<Got, PhaserError> {
        let (mut phase, mut value) = (0, 0);
        // SAFETY: as in `register`.
        match unsafe { phase_phaser_wait(self.place.get(), task, &mut phase, &mut value) } {
            PHASE_ENDED => Ok(Got::Ended),
            status => done(status)
                .map(|()| Got::Value { phase, value: (value != i64::MIN).then_some(value) }),
        }
    }

    /// Signals as many phases in a row as there are values, the first the task's, with one send
    /// each and the single or none for all of them, and returns the first phase. It takes memory,
    /// and gives it back.
    ///
    /// # Errors
    ///
    /// It is refused where one of the signals would be, made one by one, and as `BadBlock` or
    /// `OutOfMemory`; then no phase is signalled.
    ///
    /// # Example
    ///
    /// ```
    /// use phase::{Mode, Operation, Phaser, PhaserError};
    /// let mut phaser = Phaser::new(Operation::Sum, 3, 100)?;
    /// let signaller = phaser.register(0, Mode::Sig)?;
    /// let waiter = phaser.register(0, Mode::Wait)?;
    /// phaser.drop_task(0)?;
    /// assert_eq!(phaser.signal_block(signaller, &[5, 6], None)?, 0);
    /// assert_eq!(phaser.signal_block(signaller, &[7, 8], None), Err(PhaserError::Ahead));
    /// # assert!(phaser.view(waiter).is_some());
    /// # Ok::<(), PhaserError>(())
    /// ```
    pub fn signal_block(
        &mut self,
        task: u64,
        values: &[i64],
        single: Option<Single>,
    ) -> Result<u64, PhaserError> {
        let mut phase = 0;
        let (single, low, high) = numbers_of(single);
        // SAFETY: as in `signal`.
        done(unsafe {
            phase_phaser_signal_block(
                self.place.get(),
                task,
                values.as_ptr(),
                values.len(),
                single,
                low,
                high,
                &mut phase,
            )
        })?;
        Ok(phase)
    }

    /// Gets the task's phase and those behind it that are complete, at most as many as there are
    /// places, and writes the value of each into the first of them; or tells that no more will
    /// come. Where a phase has no value, `i64::MIN` is written. What stands behind the values
    /// stays. It takes memory, and gives it back.
    ///
    /// # Errors
    ///
    /// It is refused as `wait` is, as `BadBlock`, and as `OutOfMemory`.
    ///
    /// # Example
    ///
    /// ```
    /// use phase::{GotBlock, Mode, Operation, Phaser};
    /// let mut phaser = Phaser::new(Operation::Sum, 3, 100)?;
    /// let signaller = phaser.register(0, Mode::Sig)?;
    /// let waiter = phaser.register(0, Mode::Wait)?;
    /// phaser.drop_task(0)?;
    /// phaser.signal_block(signaller, &[5, 6], None)?;
    /// let mut values = [0; 3];
    /// let got = phaser.wait_block(waiter, &mut values)?;
    /// assert_eq!(got, GotBlock::Values { phase: 0, count: 2 });
    /// assert_eq!(values, [5, 6, 0]);
    /// # Ok::<(), phase::PhaserError>(())
    /// ```
    pub fn wait_block(&mut self, task: u64, values: &mut [i64]) -> Result<GotBlock, PhaserError> {
        let (mut phase, mut count) = (0, 0);
        // SAFETY: as in `register`, and the pointer and length are those of one slice, which is
        // borrowed for this call alone.
        let status = unsafe {
            phase_phaser_wait_block(
                self.place.get(),
                task,
                values.as_mut_ptr(),
                values.len(),
                &mut phase,
                &mut count,
            )
        };
        match status {
            PHASE_ENDED => Ok(GotBlock::Ended),
            status => done(status).map(|()| GotBlock::Values { phase, count }),
        }
    }

    /// Returns what a task stands at, where it is registered.
    ///
    /// ```
    /// use phase::{Mode, Operation, Phaser, Standing};
    /// let mut phaser = Phaser::new(Operation::Sum, 2, 100)?;
    /// phaser.signal(0, &[], None)?;
    /// let standing = Standing { signal_phase: 1, wait_phase: 0, mode: Mode::Single };
    /// assert_eq!(phaser.view(0), Some(standing));
    /// assert_eq!(phaser.view(1), None);
    /// # Ok::<(), phase::PhaserError>(())
    /// ```
    pub fn view(&self, task: u64) -> Option<Standing> {
        let mut standing = PhaseStanding::default();
        // SAFETY: as in `register`; no other call is under way, since a phaser is not `Sync`, and
        // each returns before the next.
        let status = unsafe { phase_phaser_view(self.place.get(), task, &mut standing) };
        if status == PHASE_E_NO_TASK {
            return None;
        }
        let PhaseStanding { signal_phase, wait_phase, mode } = standing;
        let mode = match mode {
            PHASE_SIG => Mode::Sig,
            PHASE_WAIT => Mode::Wait,
            PHASE_SIG_WAIT => Mode::SigWait,
            PHASE_SINGLE => Mode::Single,
            other => unreachable!("libphase told a mode that is none: {other}, and {status}"),
        };
        Some(Standing { signal_phase, wait_phase, mode })
    }
}

impl Drop for Phaser {
    fn drop(&mut self) {
        // SAFETY: the place has a phaser of this thread, which nothing uses behind this call.
        unsafe { phase_phaser_free(self.place.get()) }
    }
}

pub(crate) fn done(status: i32) -> Result<(), PhaserError> {
    match status {
        PHASE_OK => Ok(()),
        status => Err(phaser_error::of(status)),
    }
}

/// The number of a single or of none, with the ends of a range.
pub(crate) fn numbers_of(single: Option<Single>) -> (u32, i64, i64) {
    match single {
        None => (PHASE_NO_SINGLE, 0, 0),
        Some(Single::Neg) => (PHASE_NEG, 0, 0),
        Some(Single::Abs) => (PHASE_ABS, 0, 0),
        Some(Single::Halve) => (PHASE_HALVE, 0, 0),
        Some(Single::Clamp { low, high }) => (PHASE_CLAMP, low, high),
    }
}
