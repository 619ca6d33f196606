//! Who is missing, and an end for all.
use super::mode::{self, Signals, Waits};
use super::{Next, PhaseValue, Registration, nanoseconds, value_of};
use crate::phaser::{Got, GotBlock, Single, done, numbers_of};
use crate::{PhaserError, phaser_error};
use phase_sys::*;
use std::{ffi::CStr, fmt, time::Duration};

/// How many registrations a phaser has at most.
const MEMBERS_MAX: usize = PHASE_MEMBERS_MAX as usize;

/// How a phaser stands: how many registrations it has, and how far the first phase that is not
/// complete has come.
#[derive(Clone, Copy, Debug, PartialEq, Eq, Hash)]
pub struct Counts {
    /// How many registrations there are.
    pub tasks: u64,
    /// How many of them signal.
    pub signallers: u64,
    /// How many of them wait. A registration may do both.
    pub waiters: u64,
    /// The first phase that is not complete, counted from 0.
    pub phase: u64,
    /// How many of those that signal have signalled that phase. The others are missing.
    pub signalled: u64,
}

/// Why a call with a time limit was refused, and who was missing then.
#[derive(Clone, Debug, PartialEq, Eq, Hash)]
pub struct Refused {
    /// Why.
    pub why: PhaserError,
    /// Who was missing, as [`Registration::lacks`] names them, where it was refused as `Ahead`,
    /// `NotYet` or `Closed`.
    pub lacks: String,
}

impl fmt::Display for Refused {
    fn fmt(&self, f: &mut fmt::Formatter<'_>) -> fmt::Result {
        match self.lacks.as_str() {
            "" => self.why.fmt(f),
            lacks => write!(f, "{}: {lacks}", self.why),
        }
    }
}

impl std::error::Error for Refused {}

impl From<Refused> for PhaserError {
    fn from(refused: Refused) -> PhaserError {
        refused.why
    }
}

impl<M: mode::Mode> Registration<M> {
    /// The same registration, which closes the phaser where it is dropped by a thread that panics,
    /// before it leaves.
    pub fn closing_on_panic(mut self) -> Registration<M> {
        self.closes = true;
        self
    }

    /// Closes the phaser, for ever: threads that wait by a call with `_or_closed` come back, and no
    /// such call waits from then on. Every other call goes on as before, and nothing is lost that
    /// was sent or is complete. It is for a thread that fails.
    pub fn close(&self) {
        // SAFETY: the place has a registration.
        let status = unsafe { phase_shared_close(self.place.get()) };
        debug_assert_eq!(status, PHASE_OK);
    }

    /// Returns whether the phaser was closed.
    pub fn is_closed(&self) -> bool {
        // SAFETY: the place has a registration.
        unsafe { phase_shared_closed(self.place.get()) == PHASE_E_CLOSED }
    }

    /// Returns how many registrations there are, and how many of those that signal have signalled
    /// the first phase that is not complete. It waits for its turn alone.
    pub fn standing(&self) -> Counts {
        let PhaseMemberCounts { tasks, signallers, waiters, phase, signalled } =
            self.counts(&mut []);
        Counts { tasks, signallers, waiters, phase, signalled }
    }

    /// Returns who is missing: the numbers of the registrations that signal and have not signalled
    /// the first phase that is not complete, in the order in which they joined. It waits for its
    /// turn alone, and takes memory.
    ///
    /// ```
    /// use phase::{Operation, shared::{Registration, mode::SigWait}};
    /// let mut founder = Registration::founder(Operation::Sum, 2, 100)?;
    /// let (first, mut second) = (founder.register::<SigWait>()?, founder.register::<SigWait>()?);
    /// second.signal(&[5], None)?;
    /// assert_eq!(founder.standing().signalled, 1);
    /// assert_eq!(founder.missing(), [founder.number(), first.number()]);
    /// # Ok::<(), phase::PhaserError>(())
    /// ```
    pub fn missing(&self) -> Vec<u64> {
        let mut numbers = vec![0; MEMBERS_MAX];
        let counts = self.counts(&mut numbers);
        numbers.truncate((counts.signallers - counts.signalled) as usize);
        numbers
    }

    /// Returns who is missing in words, as `phase 7 lacks the signal of 1, 4 and 2 more`: 16 by
    /// their numbers. It is empty where nobody is missing, or another call on the phaser stays in
    /// the middle for a millisecond, which it waits for. It takes memory.
    pub fn lacks(&self) -> String {
        let mut text = [0; PHASE_LACKS_MAX];
        // SAFETY: as in `standing_at`; the pointer and length are those of one array.
        unsafe { phase_shared_lacks(self.place.get(), text.as_mut_ptr().cast(), text.len()) };
        CStr::from_bytes_until_nul(&text)
            .map_or_else(|_| String::new(), |it| it.to_string_lossy().into_owned())
    }

    /// What a call with a time limit came to, with who is missing where it is refused.
    pub(super) fn in_time<T>(&self, result: Result<T, PhaserError>) -> Result<T, Refused> {
        result.map_err(|why| {
            let is_late =
                matches!(why, PhaserError::Ahead | PhaserError::NotYet | PhaserError::Closed);
            Refused { why, lacks: if is_late { self.lacks() } else { String::new() } }
        })
    }

    fn counts(&self, places: &mut [u64]) -> PhaseMemberCounts {
        let mut counts = PhaseMemberCounts::default();
        // SAFETY: as in `standing_at`; the pointer and length are those of one slice.
        let status = unsafe {
            phase_shared_missing(self.place.get(), &mut counts, places.as_mut_ptr(), places.len())
        };
        debug_assert_eq!(status, PHASE_OK);
        counts
    }
}

/// How long a call goes on, as it takes the time.
fn most(time: Option<Duration>) -> u64 {
    time.map_or(PHASE_FOR_EVER, nanoseconds)
}

impl<M: Signals> Registration<M> {
    /// Signals as `signal` does, for so long or as long as it takes, and waits no longer than until
    /// the phaser is closed. Where it is ahead then, it signals nothing.
    ///
    /// # Errors
    ///
    /// It is refused as `signal` is, as `Ahead` where time is over, and as `Closed`.
    pub fn signal_or_closed(
        &mut self,
        values: &[i64],
        single: Option<Single>,
        time: Option<Duration>,
    ) -> Result<u64, Refused> {
        self.in_time(signals!(self, phase_shared_signal_or_closed, values, single, most(time)))
    }

    /// Signals as `signal_block` does, for so long or as long as it takes, and waits no longer than
    /// until the phaser is closed. Where a phase of the block is ahead then, it signals nothing.
    ///
    /// # Errors
    ///
    /// It is refused as `signal_block` is, as `Ahead` where time is over, and as `Closed`.
    pub fn signal_block_or_closed(
        &mut self,
        values: &[i64],
        single: Option<Single>,
        time: Option<Duration>,
    ) -> Result<u64, Refused> {
        self.in_time(signals!(
            self,
            phase_shared_signal_block_or_closed,
            values,
            single,
            most(time)
        ))
    }
}

impl<M: Waits> Registration<M> {
    /// Waits as `wait` does, for so long or as long as it takes, and no longer than until the
    /// phaser is closed. It gets its phase where that is complete then.
    ///
    /// # Errors
    ///
    /// It is refused as `wait` is, as `NotYet` where time is over, and as `Closed`.
    ///
    /// # Example
    ///
    /// ```
    /// use phase::{Got, Operation, PhaserError, shared::{Registration, mode::Wait}};
    /// use std::time::Duration;
    /// let mut founder = Registration::founder(Operation::Sum, 2, 100)?;
    /// let mut waiter = founder.register::<Wait>()?;
    /// let refused = waiter.wait_or_closed(Some(Duration::from_millis(1))).unwrap_err();
    /// assert_eq!(refused.to_string(), "the phase is not complete: phase 0 lacks the signal of 0");
    /// founder.signal(&[5], None)?;
    /// founder.close();
    /// assert_eq!(waiter.wait_or_closed(None)?, Got::Value { phase: 0, value: Some(5) });
    /// assert_eq!(waiter.wait_or_closed(None).unwrap_err().why, PhaserError::Closed);
    /// # Ok::<(), PhaserError>(())
    /// ```
    pub fn wait_or_closed(&mut self, time: Option<Duration>) -> Result<Got, Refused> {
        self.in_time(waits!(self, phase_shared_wait_or_closed, most(time)))
    }

    /// Waits as `wait_block` does, for so long or as long as it takes, and no longer than until the
    /// phaser is closed. It gets the phases that are complete then.
    ///
    /// # Errors
    ///
    /// It is refused as `wait_block` is, as `NotYet` where time is over, and as `Closed`.
    pub fn wait_block_or_closed(
        &mut self,
        values: &mut [i64],
        time: Option<Duration>,
    ) -> Result<GotBlock, Refused> {
        self.in_time(waits_for_block!(self, phase_shared_wait_block_or_closed, values, most(time)))
    }
}

impl<M: Signals + Waits> Registration<M> {
    /// Goes on as `next` does, for so long or as long as it takes, and waits no longer than until
    /// the phaser is closed. Where its phase is signalled and not complete then, it is `Signalled`;
    /// where time is over it may be `Asked`.
    ///
    /// # Errors
    ///
    /// It is refused as `signal` is, as `Ahead` where time is over, and as `Closed`, where its
    /// signal would have to wait.
    pub fn next_or_closed(
        &mut self,
        values: &[i64],
        single: Option<Single>,
        time: Option<Duration>,
    ) -> Result<Next, Refused> {
        self.in_time(goes_next!(self, phase_shared_next_or_closed, values, single, most(time)))
    }
}
