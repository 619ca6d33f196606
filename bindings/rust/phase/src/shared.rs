//! Phasers between threads, whose calls wait.
//!
//! Each thread has a [`Registration`] of its own, whose type says whether it signals or waits, or
//! both. A phase is complete when each registration that signals has signalled it, and its value is
//! what the sends of these signals come to. No call names a phase: it is the registration's next
//! one.
//!
//! # Threads that meet
//!
//! ```
//! use phase::Operation;
//! use phase::shared::{Registration, mode::SigWait};
//! use std::thread;
//!
//! let mut founder = Registration::founder(Operation::Sum, 2, 1000)?;
//! thread::scope(|scope| {
//!     for number in 1..10 {
//!         let mut own = founder.register::<SigWait>()?;
//!         scope.spawn(move || {
//!             // Nobody goes on before all have signalled, and each gets the sum.
//!             let sum = own.next(&[number], None).unwrap().value;
//!             assert_eq!(sum, Some(45));
//!         });
//!     }
//!     assert_eq!(founder.next(&[0], None)?.value, Some(45));
//!     Ok::<(), phase::PhaserError>(())
//! })?;
//! # Ok::<(), phase::PhaserError>(())
//! ```
//!
//! # A bounded stream with two consumers
//!
//! ```
//! use phase::Operation;
//! use phase::shared::{Registration, mode::{Sig, Wait}};
//! use std::thread;
//!
//! let mut founder = Registration::founder(Operation::Sum, 8, 1000)?;
//! let mut producer = founder.register::<Sig>()?;
//! let consumers = [founder.register::<Wait>()?, founder.register::<Wait>()?];
//! drop(founder);
//! thread::scope(|scope| {
//!     for consumer in consumers {
//!         scope.spawn(move || {
//!             let values = consumer.map(|got| got.value.unwrap());
//!             assert!(values.eq((0..100).map(|n| n * n)));
//!         });
//!     }
//!     for n in 0..100 {
//!         producer.signal(&[n * n], None).unwrap();
//!     }
//!     // The consumers are done when nobody is left to signal.
//!     drop(producer);
//! });
//! # Ok::<(), phase::PhaserError>(())
//! ```
//!
//! # Three forms of each call
//!
//! The plain one waits as long as it takes, and is refused neither as `Ahead` nor as `NotYet`. The
//! one with `_for` tries for so long, or a little longer, and may be refused so, also where other
//! calls on the phaser were in the middle all the time; its [`Refused`] names who is missing. The
//! one with `try_` tries once: it may be refused so, too, and it alone as `Busy`, while another
//! call is in the middle. Any refusal leaves the registration as it was.
//!
//! # When a thread fails
//!
//! A thread that ends leaves, and the others go on without it. Where they should end instead, they
//! take the calls with `_or_closed`, which wait no longer once the phaser is closed: by
//! [`Registration::close`], or by a thread that panics and asked for that.
//!
//! ```
//! use phase::{Operation, PhaserError};
//! use phase::shared::{Next, Registration, mode::SigWait};
//! use std::thread;
//!
//! let mut founder = Registration::founder(Operation::Sum, 2, 1000)?;
//! let works = |mut own: Registration<SigWait>, breaks: bool| {
//!     for step in 0..1000 {
//!         assert!(!breaks || step < 3, "it fails in step 3");
//!         let Next::Value(_) = own.next_or_closed(&[step], None, None)? else { break };
//!     }
//!     Ok::<(), PhaserError>(())
//! };
//! thread::scope(|scope| {
//!     let own = [founder.register()?, founder.register()?, founder.register()?];
//!     drop(founder);
//!     let ends = own.map(Registration::closing_on_panic).into_iter().enumerate();
//!     let ends = ends.map(|(at, own)| scope.spawn(move || works(own, at == 1)));
//!     // The other two end, too.
//!     let failed = ends.collect::<Vec<_>>().into_iter().filter_map(|it| it.join().err());
//!     assert_eq!(failed.count(), 1);
//!     Ok::<(), PhaserError>(())
//! })?;
//! # Ok::<(), phase::PhaserError>(())
//! ```
//!
//! # What is proved
//!
//! The answers, which come from calls of the library that never wait. How a call waits is tested,
//! and so are these wrappers; no answer rests on it, since it only tries again.
use crate::phaser::{Got, GotBlock, Operation, Single, Standing, done, numbers_of};
use crate::{PhaserError, phaser_error};
use phase_sys::*;
use std::{cell::UnsafeCell, fmt, marker::PhantomData, thread, time::Duration};

pub mod mode;

use mode::{Holds, Signals, Waits};

/// A phase that is complete, and its value.
#[derive(Clone, Copy, Debug, PartialEq, Eq, Hash)]
pub struct PhaseValue {
    /// The phase, counted from 0.
    pub phase: u64,
    /// Its value. It has none where a sum or a product is out of range, and under the other
    /// operations where the phase has no send.
    pub value: Option<i64>,
}

/// What a signal and a wait came to that did not go on until both were done.
#[derive(Clone, Copy, Debug, PartialEq, Eq, Hash)]
pub enum Next {
    /// The phase is complete.
    Value(PhaseValue),
    /// The phase is signalled, and a wait has still to get it.
    Signalled(u64),
    /// Others were asked to signal the phase, and the turn was not had since to see whether they
    /// did: it comes to calls with a time limit alone. The next wait is told what came of it: the
    /// phase, or what its signal was refused as, also as `Ahead`, and then nothing was sent. Until
    /// then a signal is refused as `SignalTwice`.
    Asked(u64),
}

/// A registration on a phaser between threads, in the mode `M`.
///
/// The phaser lives as long as any of its registrations. To drop a registration is to leave, also
/// where its thread panics: from then on no phase waits for it.
///
/// It goes to another thread by value, and two threads make no call on it at a time:
///
/// ```compile_fail,E0277
/// use phase::shared::Registration;
/// let founder = Registration::founder(phase::Operation::Sum, 2, 100).unwrap();
/// std::thread::scope(|threads| drop(threads.spawn(|| founder.number())));
/// ```
///
/// What a thread did before its signal is seen by every thread that got the phase.
pub struct Registration<M: mode::Mode> {
    // A place with a registration, which no other value has.
    place: UnsafeCell<PhaseRegistration>,
    // Whether it closes the phaser where its thread panics.
    closes: bool,
    mode: PhantomData<fn() -> M>,
}

// SAFETY: a registration may go from one thread to another, as phase_shared.h says, and it is no
// `Sync`, so that calls go one by one.
unsafe impl<M: mode::Mode> Send for Registration<M> {}

impl Registration<mode::Single> {
    /// Makes a phaser of `phases` phases, from 1 to 2^62, whose signallers may be `bound` phases
    /// ahead of its slowest waiter, from 1 to 65,536, and its founder at phase 0. Where threads
    /// meet at a barrier, each of which signals a phase and waits for it, the bound should be 2.
    ///
    /// # Errors
    ///
    /// It is refused as `BadBound`, `BadPhases` or `OutOfMemory`.
    ///
    /// # Example
    ///
    /// ```
    /// use phase::{Operation, PhaserError, shared::Registration};
    /// assert!(Registration::founder(Operation::Sum, 2, 1 << 62).is_ok());
    /// let refused = Registration::founder(Operation::Sum, 0, 100);
    /// assert_eq!(refused.unwrap_err(), PhaserError::BadBound);
    /// ```
    pub fn founder(
        operation: Operation,
        bound: u64,
        phases: u64,
    ) -> Result<Registration<mode::Single>, PhaserError> {
        let mut place = PhaseRegistration::NONE;
        // SAFETY: the place has no registration, and is a value of this function.
        done(unsafe { phase_shared_new(operation.number(), bound, phases, &mut place) })?;
        Ok(Registration::of(place))
    }
}

impl<M: mode::Mode> Registration<M> {
    fn of(place: PhaseRegistration) -> Registration<M> {
        Registration { place: UnsafeCell::new(place), closes: false, mode: PhantomData }
    }

    /// Registers a child in the mode `N`, which the mode of this one holds, at both of its phases.
    /// It may take memory, and waits for its turn alone.
    ///
    /// # Errors
    ///
    /// It is refused as `NotNew`, `TooManyTasks` or `OutOfMemory`. A mode that is not held is none
    /// of a child:
    ///
    /// # Example
    ///
    /// ```compile_fail,E0277
    /// use phase::shared::{Registration, mode::{Sig, Wait}};
    /// let mut founder = Registration::founder(phase::Operation::Sum, 2, 100)?;
    /// let mut signaller = founder.register::<Sig>()?;
    /// signaller.register::<Wait>()?;
    /// # Ok::<(), phase::PhaserError>(())
    /// ```
    pub fn register<N: mode::Mode>(&mut self) -> Result<Registration<N>, PhaserError>
    where
        M: Holds<N>,
    {
        self.registers(phase_shared_register)
    }

    /// The same, tried once.
    ///
    /// # Errors
    ///
    /// It is refused as `register` is, and as `Busy`.
    pub fn try_register<N: mode::Mode>(&mut self) -> Result<Registration<N>, PhaserError>
    where
        M: Holds<N>,
    {
        self.registers(phase_shared_try_register)
    }

    fn registers<N: mode::Mode>(
        &mut self,
        call: unsafe extern "C" fn(*mut PhaseRegistration, u32, *mut PhaseRegistration) -> i32,
    ) -> Result<Registration<N>, PhaserError> {
        let mut child = PhaseRegistration::NONE;
        // SAFETY: this place has a registration of this thread, and the child's none.
        done(unsafe { call(self.place.get(), N::MODE.number(), &mut child) })?;
        Ok(Registration::of(child))
    }

    /// Ends the registration, as to drop it does.
    pub fn leave(self) {}

    /// The same, tried once: where another call on the phaser is in the middle, the registration
    /// comes back.
    ///
    /// # Errors
    ///
    /// The registration comes back where another call on the phaser is in the middle.
    #[allow(clippy::result_large_err, reason = "it is the registration that was given")]
    pub fn try_leave(self) -> Result<(), Registration<M>> {
        // SAFETY: the place has a registration of this thread.
        match unsafe { phase_shared_try_leave(self.place.get()) } {
            PHASE_OK => Ok(()),
            _ => Err(self),
        }
    }

    /// Returns its number, which no other registration of its phaser has.
    pub fn number(&self) -> u64 {
        self.standing_at().number
    }

    /// Returns what it stands at.
    ///
    /// ```
    /// use phase::{Mode, Operation, Standing, shared::Registration};
    /// let mut founder = Registration::founder(Operation::Sum, 2, 100)?;
    /// founder.signal(&[], None)?;
    /// let standing = Standing { signal_phase: 1, wait_phase: 0, mode: Mode::Single };
    /// assert_eq!(founder.view(), standing);
    /// # Ok::<(), phase::PhaserError>(())
    /// ```
    pub fn view(&self) -> Standing {
        let PhaseMemberStanding { signal_phase, wait_phase, .. } = self.standing_at();
        Standing { signal_phase, wait_phase, mode: M::MODE }
    }

    fn standing_at(&self) -> PhaseMemberStanding {
        let mut standing = PhaseMemberStanding::default();
        // SAFETY: the place has a registration of this thread; no other call on it is under way,
        // since it is not `Sync`, and each returns before the next.
        let status = unsafe { phase_shared_view(self.place.get(), &mut standing) };
        debug_assert_eq!(status, PHASE_OK);
        standing
    }

    /// Returns how far the phaser is, as far as the calls that have ended tell: the phases below
    /// the first number are complete, and every waiter got those below the second. Each is
    /// `u64::MAX` where nobody is left to wait for. It is a hint for when to try.
    pub fn told(&self) -> (u64, u64) {
        let (mut complete, mut got) = (0, 0);
        // SAFETY: as in `standing_at`.
        let status = unsafe { phase_shared_told(self.place.get(), &mut complete, &mut got) };
        debug_assert_eq!(status, PHASE_OK);
        (complete, got)
    }

    /// Returns how many phases of `next` and its other forms others' turns made for it: it asked
    /// for them, and took no turn for the answer.
    pub fn answers(&self) -> u64 {
        let mut answers = 0;
        // SAFETY: as in `standing_at`.
        let status = unsafe { phase_shared_answers(self.place.get(), &mut answers) };
        debug_assert_eq!(status, PHASE_OK);
        answers
    }
}

/// A call of C that signals; where it is one for some time, that is within.
macro_rules! signals {
    ($self:ident, $call:ident, $values:ident, $single:ident $(, $nanoseconds:expr)?) => {{
        let mut phase = 0;
        let (single, low, high) = numbers_of($single);
        let (values, count) = ($values.as_ptr(), $values.len());
        // SAFETY: the place has a registration of this thread, the pointer and length are those of
        // one slice, and the rest are values of this function.
        let status = unsafe {
            $call(
                $self.place.get(), values, count, single, low, high, &mut phase $(, $nanoseconds)?
            )
        };
        done(status).map(|()| phase)
    }};
}

impl<M: Signals> Registration<M> {
    /// Signals the phase with these sends and a single or none, and returns that phase. It waits
    /// while the phase is the bound or more ahead of the slowest waiter. It takes no memory.
    ///
    /// # Errors
    ///
    /// It is refused as `BadSingle`, `TooManySends`, `BadValue`, `NotSingle`, `SignalTwice`,
    /// `Spent`, `SingleDiffers` or `PhaseFull`.
    ///
    /// # Example
    ///
    /// ```
    /// use phase::{Operation, Single, shared::Registration};
    /// let mut founder = Registration::founder(Operation::Sum, 2, 100)?;
    /// assert_eq!(founder.signal(&[4, 5], Some(Single::Halve))?, 0);
    /// # Ok::<(), phase::PhaserError>(())
    /// ```
    pub fn signal(&mut self, values: &[i64], single: Option<Single>) -> Result<u64, PhaserError> {
        signals!(self, phase_shared_signal, values, single)
    }

    /// The same, tried once.
    ///
    /// # Errors
    ///
    /// It is refused as `signal` is, as `Ahead` where it would have to wait, and as `Busy`.
    pub fn try_signal(
        &mut self,
        values: &[i64],
        single: Option<Single>,
    ) -> Result<u64, PhaserError> {
        signals!(self, phase_shared_try_signal, values, single)
    }

    /// The same, tried for so long.
    ///
    /// # Errors
    ///
    /// It is refused as `signal` is, and then as `Ahead`.
    pub fn signal_for(
        &mut self,
        values: &[i64],
        single: Option<Single>,
        time: Duration,
    ) -> Result<u64, Refused> {
        self.in_time(signals!(self, phase_shared_signal_for, values, single, nanoseconds(time)))
    }

    /// Signals as many phases in a row as there are values, with one send each and the single or
    /// none for all of them, and returns the first phase. It waits until no phase of the block is
    /// ahead, and signals all or none. It takes memory, and gives it back.
    ///
    /// # Errors
    ///
    /// It is refused as `BadSingle`, `BadValue`, `OutOfMemory`, `NotSingle`, `BadBlock`,
    /// `SignalTwice`, `Spent`, `SingleDiffers` or `PhaseFull`: where one of the signals would be,
    /// made one by one.
    ///
    /// # Example
    ///
    /// ```
    /// use phase::{Operation, shared::{Registration, mode::Sig}};
    /// let mut founder = Registration::founder(Operation::Sum, 4, 100)?;
    /// assert_eq!(founder.register::<Sig>()?.signal_block(&[5, 6, 7], None)?, 0);
    /// # Ok::<(), phase::PhaserError>(())
    /// ```
    pub fn signal_block(
        &mut self,
        values: &[i64],
        single: Option<Single>,
    ) -> Result<u64, PhaserError> {
        signals!(self, phase_shared_signal_block, values, single)
    }

    /// The same, tried once.
    ///
    /// # Errors
    ///
    /// It is refused as `signal_block` is, as `Ahead` where it would have to wait, and as `Busy`.
    pub fn try_signal_block(
        &mut self,
        values: &[i64],
        single: Option<Single>,
    ) -> Result<u64, PhaserError> {
        signals!(self, phase_shared_try_signal_block, values, single)
    }

    /// The same, tried for so long.
    ///
    /// # Errors
    ///
    /// It is refused as `signal_block` is, and then as `Ahead`.
    pub fn signal_block_for(
        &mut self,
        values: &[i64],
        single: Option<Single>,
        time: Duration,
    ) -> Result<u64, Refused> {
        self.in_time(signals!(
            self,
            phase_shared_signal_block_for,
            values,
            single,
            nanoseconds(time)
        ))
    }
}

/// A call of C that waits for a phase.
macro_rules! waits {
    ($self:ident, $call:ident $(, $nanoseconds:expr)?) => {{
        let (mut phase, mut value) = (0, 0);
        // SAFETY: as in `signals`.
        match unsafe { $call($self.place.get(), &mut phase, &mut value $(, $nanoseconds)?) } {
            PHASE_ENDED => Ok(Got::Ended),
            status => done(status).map(|()| Got::Value { phase, value: value_of(value) }),
        }
    }};
}

/// A call of C that waits for a block of phases.
macro_rules! waits_for_block {
    ($self:ident, $call:ident, $values:ident $(, $nanoseconds:expr)?) => {{
        let (mut phase, mut count) = (0, 0);
        let (values, places) = ($values.as_mut_ptr(), $values.len());
        // SAFETY: as in `signals`; the slice is borrowed for this call alone.
        let status = unsafe {
            $call($self.place.get(), values, places, &mut phase, &mut count $(, $nanoseconds)?)
        };
        match status {
            PHASE_ENDED => Ok(GotBlock::Ended),
            status => done(status).map(|()| GotBlock::Values { phase, count }),
        }
    }};
}

impl<M: Waits> Registration<M> {
    /// Gets the phase and its value, or tells that no more will come. It waits until the phase is
    /// complete, or no signaller is registered. It takes no memory.
    ///
    /// # Errors
    ///
    /// It is refused as `SignalFirst` where it signals too, and has not since its last wait; and
    /// behind a `Next::Asked` as its signal is.
    ///
    /// # Example
    ///
    /// ```
    /// use phase::{Got, Operation, shared::{Registration, mode::Wait}};
    /// let mut founder = Registration::founder(Operation::Greatest, 2, 100)?;
    /// let mut waiter = founder.register::<Wait>()?;
    /// founder.signal(&[4, 9], None)?;
    /// drop(founder);
    /// assert_eq!(waiter.wait()?, Got::Value { phase: 0, value: Some(9) });
    /// assert_eq!(waiter.wait()?, Got::Ended);
    /// # Ok::<(), phase::PhaserError>(())
    /// ```
    pub fn wait(&mut self) -> Result<Got, PhaserError> {
        waits!(self, phase_shared_wait)
    }

    /// The same, tried once.
    ///
    /// # Errors
    ///
    /// It is refused as `wait` is, as `NotYet` where it would have to wait, and as `Busy`.
    pub fn try_wait(&mut self) -> Result<Got, PhaserError> {
        waits!(self, phase_shared_try_wait)
    }

    /// The same, tried for so long.
    ///
    /// # Errors
    ///
    /// It is refused as `wait` is, and then as `NotYet`.
    ///
    /// # Example
    ///
    /// ```
    /// use phase::{Operation, PhaserError, shared::{Registration, mode::Wait}};
    /// use std::time::Duration;
    /// let mut founder = Registration::founder(Operation::Sum, 2, 100)?;
    /// let mut waiter = founder.register::<Wait>()?;
    /// let refused = waiter.wait_for(Duration::from_millis(1)).unwrap_err();
    /// assert_eq!(refused.why, PhaserError::NotYet);
    /// assert_eq!(refused.to_string(), "the phase is not complete: phase 0 lacks the signal of 0");
    /// # Ok::<(), PhaserError>(())
    /// ```
    pub fn wait_for(&mut self, time: Duration) -> Result<Got, Refused> {
        self.in_time(waits!(self, phase_shared_wait_for, nanoseconds(time)))
    }

    /// Gets the phase and those behind it that are complete, at most as many as there are places,
    /// which may be no more than the bound, and writes the value of each into the first of them; or
    /// tells that no more will come. Where a phase has no value, `i64::MIN` is written. What stands
    /// behind the values stays. It waits until one phase is complete, and no longer. It takes
    /// memory, and gives it back.
    ///
    /// # Errors
    ///
    /// It is refused as `OutOfMemory`, `BadBlock` or `SignalFirst`.
    ///
    /// # Example
    ///
    /// ```
    /// use phase::{GotBlock, Operation, shared::{Registration, mode::Wait}};
    /// let mut founder = Registration::founder(Operation::Sum, 4, 100)?;
    /// let mut waiter = founder.register::<Wait>()?;
    /// founder.next(&[5], None)?;
    /// founder.next(&[6], None)?;
    /// let mut values = [0; 4];
    /// assert_eq!(waiter.wait_block(&mut values)?, GotBlock::Values { phase: 0, count: 2 });
    /// assert_eq!(values, [5, 6, 0, 0]);
    /// # Ok::<(), phase::PhaserError>(())
    /// ```
    pub fn wait_block(&mut self, values: &mut [i64]) -> Result<GotBlock, PhaserError> {
        waits_for_block!(self, phase_shared_wait_block, values)
    }

    /// The same, tried once.
    ///
    /// # Errors
    ///
    /// It is refused as `wait_block` is, as `NotYet` where it would have to wait, and as `Busy`.
    pub fn try_wait_block(&mut self, values: &mut [i64]) -> Result<GotBlock, PhaserError> {
        waits_for_block!(self, phase_shared_try_wait_block, values)
    }

    /// The same, tried for so long.
    ///
    /// # Errors
    ///
    /// It is refused as `wait_block` is, and then as `NotYet`.
    pub fn wait_block_for(
        &mut self,
        values: &mut [i64],
        time: Duration,
    ) -> Result<GotBlock, Refused> {
        self.in_time(waits_for_block!(self, phase_shared_wait_block_for, values, nanoseconds(time)))
    }

    /// Registers a child that waits, at the first phase that is not complete, and returns it with
    /// that phase. It may take memory, and waits for its turn alone.
    ///
    /// # Errors
    ///
    /// It is refused as `NotNew`, `TooManyTasks` or `OutOfMemory`.
    ///
    /// # Example
    ///
    /// ```
    /// use phase::{Operation, shared::Registration};
    /// let mut founder = Registration::founder(Operation::Sum, 2, 100)?;
    /// founder.next(&[5], None)?;
    /// let (mut late, phase) = founder.register_now()?;
    /// founder.signal(&[6], None)?;
    /// assert_eq!(phase, 1);
    /// assert_eq!(late.next().unwrap().value, Some(6));
    /// # Ok::<(), phase::PhaserError>(())
    /// ```
    pub fn register_now(&mut self) -> Result<(Registration<mode::Wait>, u64), PhaserError> {
        self.registers_now(phase_shared_register_now)
    }

    /// The same, tried once.
    ///
    /// # Errors
    ///
    /// It is refused as `register_now` is, and as `Busy`.
    pub fn try_register_now(&mut self) -> Result<(Registration<mode::Wait>, u64), PhaserError> {
        self.registers_now(phase_shared_try_register_now)
    }

    fn registers_now(
        &mut self,
        call: unsafe extern "C" fn(*mut PhaseRegistration, *mut PhaseRegistration, *mut u64) -> i32,
    ) -> Result<(Registration<mode::Wait>, u64), PhaserError> {
        let (mut child, mut phase) = (PhaseRegistration::NONE, 0);
        // SAFETY: as in `registers`.
        done(unsafe { call(self.place.get(), &mut child, &mut phase) })?;
        Ok((Registration::of(child), phase))
    }
}

/// A call of C that signals and waits.
macro_rules! goes_next {
    ($self:ident, $call:ident, $values:ident, $single:ident $(, $nanoseconds:expr)?) => {{
        let (mut phase, mut value) = (0, 0);
        let (single, low, high) = numbers_of($single);
        let (values, count) = ($values.as_ptr(), $values.len());
        // SAFETY: as in `signals`.
        let status = unsafe {
            $call(
                $self.place.get(), values, count, single, low, high, &mut phase, &mut value
                $(, $nanoseconds)?
            )
        };
        match status {
            PHASE_OK => Ok(Next::Value(PhaseValue { phase, value: value_of(value) })),
            PHASE_SIGNALLED => Ok(Next::Signalled(phase)),
            PHASE_ASKED => Ok(Next::Asked(phase)),
            status => Err(phaser_error::of(status)),
        }
    }};
}

impl<M: Signals + Waits> Registration<M> {
    /// Signals the phase, as `signal` does, and then waits for it, as `wait` does: a barrier, from
    /// which each gets what all sent.
    ///
    /// # Errors
    ///
    /// It is refused as `signal` is.
    ///
    /// # Example
    ///
    /// ```
    /// use phase::{Operation, shared::Registration};
    /// let mut founder = Registration::founder(Operation::Sum, 2, 100)?;
    /// let got = founder.next(&[4, 5], None)?;
    /// assert_eq!((got.phase, got.value), (0, Some(9)));
    /// # Ok::<(), phase::PhaserError>(())
    /// ```
    pub fn next(
        &mut self,
        values: &[i64],
        single: Option<Single>,
    ) -> Result<PhaseValue, PhaserError> {
        match goes_next!(self, phase_shared_next, values, single)? {
            Next::Value(got) => Ok(got),
            _ => unreachable!("libphase came back before the phase was complete"),
        }
    }

    /// The same, tried once.
    ///
    /// # Errors
    ///
    /// It is refused as `signal` is, as `Ahead` where the signal would have to wait, and as `Busy`.
    pub fn try_next(
        &mut self,
        values: &[i64],
        single: Option<Single>,
    ) -> Result<Next, PhaserError> {
        goes_next!(self, phase_shared_try_next, values, single)
    }

    /// The same, tried for so long. Then it is refused, or is `Signalled` or `Asked`.
    ///
    /// # Errors
    ///
    /// It is refused as `signal` is, and then as `Ahead`.
    ///
    /// # Example
    ///
    /// ```
    /// use phase::{Got, Operation, shared::{Next, Registration, mode::Sig}};
    /// use std::time::Duration;
    /// let mut founder = Registration::founder(Operation::Sum, 2, 100)?;
    /// let mut other = founder.register::<Sig>()?;
    /// let next = founder.next_for(&[4], None, Duration::from_millis(1))?;
    /// assert_eq!(next, Next::Signalled(0));
    /// other.signal(&[5], None)?;
    /// assert_eq!(founder.wait()?, Got::Value { phase: 0, value: Some(9) });
    /// # Ok::<(), phase::PhaserError>(())
    /// ```
    pub fn next_for(
        &mut self,
        values: &[i64],
        single: Option<Single>,
        time: Duration,
    ) -> Result<Next, Refused> {
        self.in_time(goes_next!(self, phase_shared_next_for, values, single, nanoseconds(time)))
    }
}

mod ends;

pub use ends::{Counts, Refused};

/// Its phases, in order, until no more will come. Each is waited for.
impl Iterator for Registration<mode::Wait> {
    type Item = PhaseValue;

    fn next(&mut self) -> Option<PhaseValue> {
        match self.wait() {
            Ok(Got::Value { phase, value }) => Some(PhaseValue { phase, value }),
            Ok(Got::Ended) => None,
            Err(why) => unreachable!("a wait of one that only waits was refused: {why}"),
        }
    }
}

impl<M: mode::Mode> Drop for Registration<M> {
    fn drop(&mut self) {
        if self.closes && thread::panicking() {
            self.close();
        }
        // SAFETY: the place is of this thread, and nothing uses it behind this call. Where there is
        // no registration the call does nothing.
        unsafe { phase_shared_leave(self.place.get()) };
    }
}

impl<M: mode::Mode> fmt::Debug for Registration<M> {
    fn fmt(&self, f: &mut fmt::Formatter<'_>) -> fmt::Result {
        let Standing { signal_phase, wait_phase, mode } = self.view();
        f.debug_struct("Registration")
            .field("number", &self.number())
            .field("mode", &mode)
            .field("signal_phase", &signal_phase)
            .field("wait_phase", &wait_phase)
            .finish()
    }
}

fn value_of(number: i64) -> Option<i64> {
    (number != i64::MIN).then_some(number)
}

/// A time for C, of which 584 years are the longest.
fn nanoseconds(time: Duration) -> u64 {
    u64::try_from(time.as_nanos()).unwrap_or(u64::MAX)
}
