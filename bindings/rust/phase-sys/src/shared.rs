//! The calls of `phase_shared.h`.
use core::{
    ffi::{c_char, c_void},
    ptr,
};

/// What the library has of a registration.
#[repr(C)]
#[derive(Debug)]
pub struct PhaseMember {
    /// Where it is.
    pub at: *mut c_void,
    /// Whether there is one.
    pub live: bool,
}

/// What a registration stands at.
#[repr(C)]
#[derive(Clone, Copy, Debug, Default, PartialEq, Eq)]
pub struct PhaseMemberStanding {
    /// Its number, which no other registration of its phaser has.
    pub number: u64,
    /// The phase that it signals next, counted from 0.
    pub signal_phase: u64,
    /// The phase that it waits for next.
    pub wait_phase: u64,
    /// The number of its mode.
    pub mode: u32,
    /// The number of the phaser's operation.
    pub operation: u32,
}

/// How a phaser stands.
#[repr(C)]
#[derive(Clone, Copy, Debug, Default, PartialEq, Eq)]
pub struct PhaseMemberCounts {
    /// How many registrations it has.
    pub tasks: u64,
    /// How many of them signal.
    pub signallers: u64,
    /// How many of them wait.
    pub waiters: u64,
    /// The first phase that is not complete, counted from 0.
    pub phase: u64,
    /// How many of those that signal have signalled it.
    pub signalled: u64,
}

/// As many nanoseconds as it takes.
pub const PHASE_FOR_EVER: u64 = u64::MAX;

/// How many bytes the text of `phase_shared_lacks` has at most.
pub const PHASE_LACKS_MAX: usize = 512;

/// The place of a registration, which has none while it is `NONE`.
#[repr(C)]
#[derive(Debug)]
pub struct PhaseRegistration {
    /// What the library has of it.
    pub member: PhaseMember,
    /// Where those that wait on the phaser sleep.
    pub gate: *mut c_void,
    /// The bound of the phaser.
    pub bound: u64,
    /// The phase that it signals next.
    pub signal_phase: u64,
    /// The phase that it waits for next.
    pub wait_phase: u64,
    /// The number of its mode.
    pub mode: u32,
    /// How soon others come.
    pub soon: u32,
    /// Whether others want the processor.
    pub crowded: u64,
    /// How many phases others' turns made for it.
    pub answers: u64,
    /// Whether an ask stands, or what came of it is still to be got.
    pub asks: u32,
    /// What came of it.
    pub outcome: i32,
    /// And the value.
    pub kept: i64,
    /// Nothing: threads do not write beside each other's in an array.
    pub apart: [u64; 5],
}

impl PhaseRegistration {
    /// A place with no registration.
    pub const NONE: PhaseRegistration = PhaseRegistration {
        member: PhaseMember { at: ptr::null_mut(), live: false },
        gate: ptr::null_mut(),
        bound: 0,
        signal_phase: 0,
        wait_phase: 0,
        mode: 0,
        soon: 0,
        crowded: 0,
        answers: 0,
        asks: 0,
        outcome: 0,
        kept: 0,
        apart: [0; 5],
    };
}

unsafe extern "C" {
    /// # Safety
    /// As of `phase_check`. A place is `NONE` or as the last call left it, and no other call on it
    /// is running; those of a parent and its child are two. The same goes for the calls below.
    pub fn phase_shared_new(
        operation: u32,
        bound: u64,
        phases: u64,
        founder: *mut PhaseRegistration,
    ) -> i32;

    /// # Safety
    /// As of `phase_shared_new`.
    pub fn phase_shared_register(
        parent: *mut PhaseRegistration,
        mode: u32,
        child: *mut PhaseRegistration,
    ) -> i32;

    /// # Safety
    /// As of `phase_shared_new`.
    pub fn phase_shared_try_register(
        parent: *mut PhaseRegistration,
        mode: u32,
        child: *mut PhaseRegistration,
    ) -> i32;

    /// # Safety
    /// As of `phase_shared_new`.
    pub fn phase_shared_register_now(
        parent: *mut PhaseRegistration,
        child: *mut PhaseRegistration,
        phase: *mut u64,
    ) -> i32;

    /// # Safety
    /// As of `phase_shared_new`.
    pub fn phase_shared_try_register_now(
        parent: *mut PhaseRegistration,
        child: *mut PhaseRegistration,
        phase: *mut u64,
    ) -> i32;

    /// # Safety
    /// As of `phase_shared_new`.
    pub fn phase_shared_signal(
        registration: *mut PhaseRegistration,
        values: *const i64,
        values_len: usize,
        single: u32,
        low: i64,
        high: i64,
        phase: *mut u64,
    ) -> i32;

    /// # Safety
    /// As of `phase_shared_new`.
    pub fn phase_shared_try_signal(
        registration: *mut PhaseRegistration,
        values: *const i64,
        values_len: usize,
        single: u32,
        low: i64,
        high: i64,
        phase: *mut u64,
    ) -> i32;

    /// # Safety
    /// As of `phase_shared_new`.
    pub fn phase_shared_signal_for(
        registration: *mut PhaseRegistration,
        values: *const i64,
        values_len: usize,
        single: u32,
        low: i64,
        high: i64,
        phase: *mut u64,
        nanoseconds: u64,
    ) -> i32;

    /// # Safety
    /// As of `phase_shared_new`.
    pub fn phase_shared_next(
        registration: *mut PhaseRegistration,
        values: *const i64,
        values_len: usize,
        single: u32,
        low: i64,
        high: i64,
        phase: *mut u64,
        value: *mut i64,
    ) -> i32;

    /// # Safety
    /// As of `phase_shared_new`.
    pub fn phase_shared_try_next(
        registration: *mut PhaseRegistration,
        values: *const i64,
        values_len: usize,
        single: u32,
        low: i64,
        high: i64,
        phase: *mut u64,
        value: *mut i64,
    ) -> i32;

    /// # Safety
    /// As of `phase_shared_new`.
    pub fn phase_shared_next_for(
        registration: *mut PhaseRegistration,
        values: *const i64,
        values_len: usize,
        single: u32,
        low: i64,
        high: i64,
        phase: *mut u64,
        value: *mut i64,
        nanoseconds: u64,
    ) -> i32;

    /// # Safety
    /// As of `phase_shared_new`.
    pub fn phase_shared_wait(
        registration: *mut PhaseRegistration,
        phase: *mut u64,
        value: *mut i64,
    ) -> i32;

    /// # Safety
    /// As of `phase_shared_new`.
    pub fn phase_shared_try_wait(
        registration: *mut PhaseRegistration,
        phase: *mut u64,
        value: *mut i64,
    ) -> i32;

    /// # Safety
    /// As of `phase_shared_new`.
    pub fn phase_shared_wait_for(
        registration: *mut PhaseRegistration,
        phase: *mut u64,
        value: *mut i64,
        nanoseconds: u64,
    ) -> i32;

    /// # Safety
    /// As of `phase_shared_new`.
    pub fn phase_shared_signal_block(
        registration: *mut PhaseRegistration,
        values: *const i64,
        values_len: usize,
        single: u32,
        low: i64,
        high: i64,
        phase: *mut u64,
    ) -> i32;

    /// # Safety
    /// As of `phase_shared_new`.
    pub fn phase_shared_try_signal_block(
        registration: *mut PhaseRegistration,
        values: *const i64,
        values_len: usize,
        single: u32,
        low: i64,
        high: i64,
        phase: *mut u64,
    ) -> i32;

    /// # Safety
    /// As of `phase_shared_new`.
    pub fn phase_shared_signal_block_for(
        registration: *mut PhaseRegistration,
        values: *const i64,
        values_len: usize,
        single: u32,
        low: i64,
        high: i64,
        phase: *mut u64,
        nanoseconds: u64,
    ) -> i32;

    /// # Safety
    /// As of `phase_shared_new`.
    pub fn phase_shared_wait_block(
        registration: *mut PhaseRegistration,
        values: *mut i64,
        values_len: usize,
        phase: *mut u64,
        count: *mut usize,
    ) -> i32;

    /// # Safety
    /// As of `phase_shared_new`.
    pub fn phase_shared_try_wait_block(
        registration: *mut PhaseRegistration,
        values: *mut i64,
        values_len: usize,
        phase: *mut u64,
        count: *mut usize,
    ) -> i32;

    /// # Safety
    /// As of `phase_shared_new`.
    pub fn phase_shared_wait_block_for(
        registration: *mut PhaseRegistration,
        values: *mut i64,
        values_len: usize,
        phase: *mut u64,
        count: *mut usize,
        nanoseconds: u64,
    ) -> i32;

    /// # Safety
    /// As of `phase_shared_new`.
    pub fn phase_shared_missing(
        registration: *mut PhaseRegistration,
        counts: *mut PhaseMemberCounts,
        places: *mut u64,
        places_len: usize,
    ) -> i32;

    /// # Safety
    /// As of `phase_shared_new`.
    pub fn phase_shared_try_missing(
        registration: *mut PhaseRegistration,
        counts: *mut PhaseMemberCounts,
        places: *mut u64,
        places_len: usize,
    ) -> i32;

    /// # Safety
    /// As of `phase_shared_new`.
    pub fn phase_shared_lacks(
        registration: *mut PhaseRegistration,
        text: *mut c_char,
        text_len: usize,
    ) -> i32;

    /// # Safety
    /// As of `phase_shared_new`, but that another call on the place may be running, if that does
    /// not end the registration.
    pub fn phase_shared_close(registration: *const PhaseRegistration) -> i32;

    /// # Safety
    /// As of `phase_shared_close`.
    pub fn phase_shared_closed(registration: *const PhaseRegistration) -> i32;

    /// # Safety
    /// As of `phase_shared_new`.
    pub fn phase_shared_signal_or_closed(
        registration: *mut PhaseRegistration,
        values: *const i64,
        values_len: usize,
        single: u32,
        low: i64,
        high: i64,
        phase: *mut u64,
        nanoseconds: u64,
    ) -> i32;

    /// # Safety
    /// As of `phase_shared_new`.
    pub fn phase_shared_next_or_closed(
        registration: *mut PhaseRegistration,
        values: *const i64,
        values_len: usize,
        single: u32,
        low: i64,
        high: i64,
        phase: *mut u64,
        value: *mut i64,
        nanoseconds: u64,
    ) -> i32;

    /// # Safety
    /// As of `phase_shared_new`.
    pub fn phase_shared_wait_or_closed(
        registration: *mut PhaseRegistration,
        phase: *mut u64,
        value: *mut i64,
        nanoseconds: u64,
    ) -> i32;

    /// # Safety
    /// As of `phase_shared_new`.
    pub fn phase_shared_signal_block_or_closed(
        registration: *mut PhaseRegistration,
        values: *const i64,
        values_len: usize,
        single: u32,
        low: i64,
        high: i64,
        phase: *mut u64,
        nanoseconds: u64,
    ) -> i32;

    /// # Safety
    /// As of `phase_shared_new`.
    pub fn phase_shared_wait_block_or_closed(
        registration: *mut PhaseRegistration,
        values: *mut i64,
        values_len: usize,
        phase: *mut u64,
        count: *mut usize,
        nanoseconds: u64,
    ) -> i32;

    /// # Safety
    /// As of `phase_shared_new`.
    pub fn phase_shared_leave(registration: *mut PhaseRegistration) -> i32;

    /// # Safety
    /// As of `phase_shared_new`.
    pub fn phase_shared_try_leave(registration: *mut PhaseRegistration) -> i32;

    /// # Safety
    /// As of `phase_shared_new`.
    pub fn phase_shared_view(
        registration: *mut PhaseRegistration,
        standing: *mut PhaseMemberStanding,
    ) -> i32;

    /// # Safety
    /// As of `phase_shared_new`.
    pub fn phase_shared_answers(registration: *const PhaseRegistration, answers: *mut u64) -> i32;

    /// # Safety
    /// As of `phase_shared_new`.
    pub fn phase_shared_told(
        registration: *mut PhaseRegistration,
        done: *mut u64,
        base: *mut u64,
    ) -> i32;
}
