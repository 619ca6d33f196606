//! What a registration may do, as the type of its mode.
use crate::Mode as Number;

mod sealed {
    pub trait Sealed {}
}

/// A mode.
pub trait Mode: sealed::Sealed {
    /// The same as a value.
    const MODE: Number;
}

/// A mode that signals.
pub trait Signals: Mode {}

/// A mode that waits.
pub trait Waits: Mode {}

/// A mode that holds `N`: its registrations may have children in `N`.
pub trait Holds<N: Mode>: Mode {}

/// It signals.
#[derive(Debug)]
pub enum Sig {}

/// It waits.
#[derive(Debug)]
pub enum Wait {}

/// It signals and waits, in turn.
#[derive(Debug)]
pub enum SigWait {}

/// It signals and waits, in turn, and may name a single at a signal.
#[derive(Debug)]
pub enum Single {}

macro_rules! modes {
    ($($mode:ident: $($does:ident)*, holds $($held:ident)*;)*) => {
        $(
            impl sealed::Sealed for $mode {}
            impl Mode for $mode {
                const MODE: Number = Number::$mode;
            }
            $(impl $does for $mode {})*
            $(impl Holds<$held> for $mode {})*
        )*
    };
}

modes! {
    Sig: Signals, holds Sig;
    Wait: Waits, holds Wait;
    SigWait: Signals Waits, holds Sig Wait SigWait;
    Single: Signals Waits, holds Sig Wait SigWait Single;
}
