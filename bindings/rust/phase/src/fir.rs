//! A filter that goes on from block to block.
use crate::phaser::{Single, numbers_of};
use phase_sys::*;
use std::fmt;

/// Why there is no such filter, or a block was not filtered, or not to its end.
#[derive(Clone, Copy, Debug, PartialEq, Eq)]
#[non_exhaustive]
pub enum FirError {
    /// There are 1 to 64 taps of a magnitude of at most 2^31 - 1, and a shift is at most 62; or
    /// with a form 1 to 1,024 taps that weigh samples, and numbers that [`FirForm`] allows.
    Taps,
    /// The output is shorter than the block.
    Room,
    /// So many values are right, and the next is out of range.
    TooBig {
        /// How many values are right.
        done: usize,
    },
    /// Memory ran out.
    OutOfMemory,
}

impl fmt::Display for FirError {
    fn fmt(&self, f: &mut fmt::Formatter<'_>) -> fmt::Result {
        match self {
            FirError::Taps => f.write_str("no filter has these taps and this shift or form"),
            FirError::Room => f.write_str("the output is shorter than the block"),
            FirError::TooBig { done } => write!(f, "value {done} of a block is out of range"),
            FirError::OutOfMemory => f.write_str("out of memory"),
        }
    }
}

impl std::error::Error for FirError {}

/// The form of a filter: all of it but its taps. By default it weighs samples alone.
#[derive(Clone, Copy, Debug, Default, PartialEq, Eq, Hash)]
pub struct FirForm {
    /// By how many bits each sum is shifted down, at most 62.
    pub shift: u32,
    /// What is added to each sum before it is shifted, of a magnitude of at most 2^62.
    pub plus: i64,
    /// How many samples before the newest one the first tap weighs, at most 65,536.
    pub delay: usize,
    /// How many of the taps, the last ones, weigh what the filter put, at most 64: the first of
    /// them what it put last.
    pub again: usize,
    /// What is done with each number behind the shift, before its range is looked at: so a clamp
    /// saturates. The low end of a clamp is at most its high end, and neither is `i64::MIN`.
    pub single: Option<Single>,
}

/// A filter, which goes on where the block before ended.
///
/// The value at a sample is the sum of each tap times the sample so far back, divided by 2 to the
/// power of the shift and rounded down. With a form the last taps may weigh what it put before.
///
/// ```
/// let mut sums = phase::Fir::new(&[1, 1], 0)?;
/// let mut out = [0; 3];
/// sums.filter(&[1, 2, 3], &mut out)?;
/// assert_eq!(out, [1, 3, 5]);
/// sums.filter(&[4], &mut out)?;
/// assert_eq!(out, [7, 3, 5]);
/// assert_eq!(phase::Fir::new(&[1], 63), Err(phase::FirError::Taps));
/// # Ok::<(), phase::FirError>(())
/// ```
#[derive(Clone, Debug, PartialEq, Eq)]
pub struct Fir {
    taps: Vec<i64>,
    form: PhaseFirForm,
    state: Vec<i64>,
    puts: Vec<i64>,
}

impl Fir {
    /// Returns a filter before its first sample.
    ///
    /// # Errors
    ///
    /// It is refused as `Taps` or `OutOfMemory`.
    pub fn new(taps: &[i64], shift: u32) -> Result<Fir, FirError> {
        if taps.len() > PHASE_TAPS_MAX {
            return Err(FirError::Taps);
        }
        Fir::with(taps, FirForm { shift, ..FirForm::default() })
    }

    /// Returns a filter of this form before its first sample.
    ///
    /// # Errors
    ///
    /// It is refused as `Taps` or `OutOfMemory`.
    ///
    /// # Example
    ///
    /// ```
    /// use phase::{Fir, FirForm, Single};
    /// let form = FirForm {
    ///     again: 1,
    ///     single: Some(Single::Clamp { low: -5, high: 5 }),
    ///     ..FirForm::default()
    /// };
    /// let mut so_far = Fir::with(&[1, 1], form)?;
    /// let mut block = [3, 3, 3, -20];
    /// so_far.filter_in_place(&mut block)?;
    /// assert_eq!(block, [3, 5, 5, -5]);
    /// # Ok::<(), phase::FirError>(())
    /// ```
    pub fn with(taps: &[i64], form: FirForm) -> Result<Fir, FirError> {
        let FirForm { shift, plus, delay, again, single } = form;
        let (single, low, high) = numbers_of(single);
        let form = PhaseFirForm { shift, single, plus, delay, again, low, high };
        let mut fir = Fir { taps: taps.to_vec(), form, state: Vec::new(), puts: Vec::new() };
        // A state of no sample fits no filter, and its length is looked at behind taps and form.
        if fir.over(&mut [], &mut 0) == PHASE_E_TAPS {
            return Err(FirError::Taps);
        }
        fir.state = vec![0; delay + (taps.len() - again)];
        fir.puts = vec![0; again];
        fir.filter_in_place(&mut [])?;
        Ok(fir)
    }

    /// Filters a block, one value for each sample.
    ///
    /// # Errors
    ///
    /// It fails as `Room`, `TooBig` or `OutOfMemory`; the filter then stands where it stood.
    pub fn filter(&mut self, block: &[i64], out: &mut [i64]) -> Result<(), FirError> {
        let mut done = 0;
        // SAFETY: each pointer and length are those of one slice, and what is written is borrowed
        // for this call alone.
        let status = unsafe {
            phase_fir_with(
                self.taps.as_ptr(),
                self.taps.len(),
                &self.form,
                self.state.as_mut_ptr(),
                self.state.len(),
                self.puts.as_mut_ptr(),
                self.puts.len(),
                block.as_ptr(),
                block.len(),
                out.as_mut_ptr(),
                out.len(),
                &mut done,
            )
        };
        told(status, done)
    }

    /// Filters a block, and writes each value over its sample.
    ///
    /// # Errors
    ///
    /// It fails as `TooBig` or `OutOfMemory`; the filter then stands where it stood. At `TooBig`
    /// the values that are right are written, and the samples behind them stay.
    ///
    /// # Example
    ///
    /// ```
    /// let mut sums = phase::Fir::new(&[1, 1], 0)?;
    /// let mut block = [1, 2, 3];
    /// sums.filter_in_place(&mut block)?;
    /// assert_eq!(block, [1, 3, 5]);
    /// # Ok::<(), phase::FirError>(())
    /// ```
    pub fn filter_in_place(&mut self, block: &mut [i64]) -> Result<(), FirError> {
        let mut done = 0;
        let status = self.over(block, &mut done);
        told(status, done)
    }

    /// What libphase answers to a block whose values are written over its samples.
    fn over(&mut self, block: &mut [i64], done: &mut usize) -> i32 {
        // SAFETY: as above.
        unsafe {
            phase_fir_with_in_place(
                self.taps.as_ptr(),
                self.taps.len(),
                &self.form,
                self.state.as_mut_ptr(),
                self.state.len(),
                self.puts.as_mut_ptr(),
                self.puts.len(),
                block.as_mut_ptr(),
                block.len(),
                done,
            )
        }
    }
}

/// What a status says, of a block of which so many values are right.
fn told(status: i32, done: usize) -> Result<(), FirError> {
    match status {
        PHASE_OK => Ok(()),
        PHASE_E_TAPS => Err(FirError::Taps),
        PHASE_E_ROOM => Err(FirError::Room),
        PHASE_E_TOO_BIG => Err(FirError::TooBig { done }),
        PHASE_E_MEMORY => Err(FirError::OutOfMemory),
        other => unreachable!("libphase answered a status that is none: {other}"),
    }
}
