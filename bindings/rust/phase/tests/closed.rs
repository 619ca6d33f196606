//! Who is missing, and an end for all: four threads of which one never signals, a close while
//! threads wait in each call that heeds it, a thread that panics, and what is got of a phaser that
//! is closed.
use phase::shared::mode::{Mode, Sig, SigWait, Single, Wait};
use phase::shared::{Counts, Next, PhaseValue, Refused, Registration};
use phase::{Got, GotBlock, Operation, PhaserError};
use std::sync::mpsc;
use std::thread;
use std::time::{Duration, Instant};

const MILLISECOND: Duration = Duration::from_millis(1);

/// Whether a call with a time limit was refused so.
fn is_refused<T>(told: Result<T, Refused>, why: PhaserError) -> bool {
    told.is_err_and(|it| it.why == why)
}

fn sums(bound: u64, phases: u64) -> Registration<Single> {
    Registration::founder(Operation::Sum, bound, phases).unwrap()
}

#[test]
fn one_never_signals() {
    let mut founder = sums(2, 100);
    let own: Vec<Registration<SigWait>> = (0..4).map(|_| founder.register().unwrap()).collect();
    let mut waiter = founder.register::<Wait>().unwrap();
    drop(founder);
    let none = Counts { tasks: 5, signallers: 4, waiters: 5, phase: 0, signalled: 0 };
    assert_eq!(waiter.standing(), none);
    assert_eq!(waiter.missing(), [1, 2, 3, 4]);
    let mut silent = None;
    thread::scope(|scope| {
        let mut threads = Vec::new();
        for mut own in own {
            if own.number() == 3 {
                silent = Some(own);
                continue;
            }
            threads.push(scope.spawn(move || {
                let next = own.next_or_closed(&[1], None, None);
                (next, own.wait_or_closed(None), own)
            }));
        }
        while waiter.standing().signalled < 3 {
            thread::yield_now();
        }
        assert_eq!(waiter.missing(), [3]);
        assert!(!waiter.is_closed());
        waiter.close();
        assert!(waiter.is_closed());
        let mut own = Vec::new();
        for it in threads {
            let (next, wait, it) = it.join().unwrap();
            assert_eq!(next, Ok(Next::Signalled(0)));
            let refused = wait.unwrap_err();
            let told = refused.to_string();
            // Who has the turn may be off its processor for a millisecond: then nobody is named.
            assert!(told == CLOSED || told == format!("{CLOSED}: {LACKS_THREE}"), "{told}");
            assert_eq!(PhaserError::from(refused), PhaserError::Closed);
            own.push(it);
        }
        assert_eq!(waiter.lacks(), LACKS_THREE);
        assert_eq!(silent.take().unwrap().signal_or_closed(&[1], None, None), Ok(0));
        let got = Got::Value { phase: 0, value: Some(4) };
        assert_eq!(waiter.wait_or_closed(None), Ok(got));
        assert_eq!(own[0].wait(), Ok(got));
    });
}

/// So many threads wait in a call, and the phaser is closed: how long it takes until all are back,
/// as they should be.
fn closes<M: Mode>(
    own: Vec<Registration<M>>,
    founder: &Registration<Single>,
    call: impl Fn(&mut Registration<M>) -> bool + Copy + Send,
) -> Duration {
    thread::scope(|scope| {
        let (tells, told) = mpsc::channel();
        for mut own in own {
            let tells = tells.clone();
            scope.spawn(move || {
                let is_told = call(&mut own);
                tells.send((is_told, Instant::now())).unwrap();
            });
        }
        drop(tells);
        thread::sleep(30 * MILLISECOND);
        let since = Instant::now();
        founder.close();
        let ends: Vec<_> = told.iter().collect();
        assert!(ends.iter().all(|it| it.0));
        ends.iter().map(|it| it.1 - since).max().unwrap()
    })
}

/// They are back within 50 milliseconds, in one of ten tries, since the machine may have no time.
fn ends_soon(close: impl Fn(usize) -> Duration) {
    for threads in [1, 4, 16] {
        assert!((0..10).any(|_| close(threads) < 50 * MILLISECOND), "{threads} threads");
    }
}

#[test]
fn a_close_ends_waits() {
    ends_soon(|threads| {
        let mut founder = sums(2, 100);
        let own = (0..threads).map(|_| founder.register::<Wait>().unwrap()).collect();
        closes(own, &founder, |own| is_refused(own.wait_or_closed(None), PhaserError::Closed))
    });
    ends_soon(|threads| {
        let mut founder = sums(2, 100);
        let own = (0..threads).map(|_| founder.register::<Wait>().unwrap()).collect();
        closes(own, &founder, |own| {
            is_refused(own.wait_block_or_closed(&mut [0, 0], None), PhaserError::Closed)
        })
    });
}

#[test]
fn a_close_ends_signals() {
    ends_soon(|threads| {
        let mut founder = sums(1, 100);
        let own = (0..threads).map(|_| founder.register::<Sig>().unwrap()).collect();
        closes(own, &founder, |own| {
            own.signal_or_closed(&[1], None, None) == Ok(0)
                && is_refused(own.signal_or_closed(&[1], None, None), PhaserError::Closed)
        })
    });
    ends_soon(|threads| {
        let mut founder = sums(2, 100);
        let own = (0..threads).map(|_| founder.register::<Sig>().unwrap()).collect();
        closes(own, &founder, |own| {
            own.signal_block_or_closed(&[1, 1], None, None) == Ok(0)
                && is_refused(own.signal_block_or_closed(&[1, 1], None, None), PhaserError::Closed)
        })
    });
}

#[test]
fn a_close_ends_next_phases() {
    ends_soon(|threads| {
        let mut founder = sums(2, 100);
        let own = (0..threads).map(|_| founder.register::<SigWait>().unwrap()).collect();
        closes(own, &founder, |own| own.next_or_closed(&[1], None, None) == Ok(Next::Signalled(0)))
    });
}

/// In step 3 one panics: its registration closes the phaser, and the others end.
#[test]
fn a_thread_that_panics_closes() {
    let mut founder = sums(16, 1000);
    let mut waiter = founder.register::<Wait>().unwrap();
    let own: Vec<_> = (0..4).map(|_| founder.register::<SigWait>().unwrap()).collect();
    drop(founder);
    let threads: Vec<_> = own
        .into_iter()
        .enumerate()
        .map(|(at, own)| {
            let mut own = own.closing_on_panic();
            thread::spawn(move || {
                for step in 0..1000 {
                    assert!(at != 2 || step < 3, "it fails, as it should");
                    match own.next_or_closed(&[step], None, None) {
                        Ok(Next::Value(_)) if !own.is_closed() => (),
                        _ => return step,
                    }
                }
                1000
            })
        })
        .collect();
    let ends: Vec<_> = threads.into_iter().map(|it| it.join()).collect();
    assert!(waiter.is_closed());
    assert!(ends[2].is_err());
    for at in [0, 1, 3] {
        assert!(*ends[at].as_ref().unwrap() <= 4);
    }
    let all = PhaseValue { phase: 2, value: Some(8) };
    assert_eq!(waiter.nth(2), Some(all));
}

/// One that is dropped by a thread that does not panic, or did not ask for it, closes nothing.
#[test]
fn others_close_nothing() {
    let mut founder = sums(2, 100);
    let quiet = founder.register::<Sig>().unwrap().closing_on_panic();
    let plain = founder.register::<Sig>().unwrap();
    thread::spawn(move || drop(quiet)).join().unwrap();
    let panics = thread::spawn(move || {
        let _own = plain;
        panic!("it fails, as it should");
    });
    assert!(panics.join().is_err());
    assert!(!founder.is_closed());
    assert_eq!(founder.standing().tasks, 1);
}

#[test]
fn nothing_is_lost() {
    let mut founder = sums(2, 100);
    let mut waiter = founder.register::<Wait>().unwrap();
    let mut blocks = founder.register::<Wait>().unwrap();
    let mut signaller = founder.register::<Sig>().unwrap();
    drop(founder);
    assert_eq!(signaller.signal(&[5], None), Ok(0));
    signaller.close();
    signaller.close();
    assert_eq!(signaller.signal_or_closed(&[6], None, None), Ok(1));
    assert!(is_refused(signaller.signal_or_closed(&[7], None, None), PhaserError::Closed));
    assert_eq!(waiter.wait_or_closed(None), Ok(Got::Value { phase: 0, value: Some(5) }));
    let mut values = [0; 2];
    let both = GotBlock::Values { phase: 0, count: 2 };
    assert_eq!(blocks.wait_block_or_closed(&mut values, None), Ok(both));
    assert_eq!(values, [5, 6]);
    assert!(is_refused(blocks.wait_block_or_closed(&mut values, None), PhaserError::Closed));
    // A call that does not heed it waits.
    assert!(is_refused(blocks.wait_for(MILLISECOND), PhaserError::NotYet));
    drop(signaller);
    assert_eq!(waiter.wait_or_closed(None), Ok(Got::Value { phase: 1, value: Some(6) }));
    assert_eq!(waiter.wait_or_closed(None), Ok(Got::Ended));
    assert_eq!(PhaserError::Closed.to_string(), "the phaser is closed");
}

/// Calls that heed a close have a time limit, too, at which they name who is missing.
#[test]
fn a_limit_beside_a_close() {
    let mut founder = sums(1, 100);
    let mut waiter = founder.register::<Wait>().unwrap();
    let mut signaller = founder.register::<Sig>().unwrap();
    let soon = Some(MILLISECOND);
    let lacks = |told: Refused, why, words| {
        assert_eq!((told.why, told.lacks.as_str()), (why, words));
    };
    lacks(waiter.wait_or_closed(soon).unwrap_err(), PhaserError::NotYet, LACKS_TWO);
    lacks(waiter.wait_block_or_closed(&mut [0], soon).unwrap_err(), PhaserError::NotYet, LACKS_TWO);
    assert_eq!(signaller.signal_or_closed(&[5], None, soon), Ok(0));
    let ahead = PhaserError::Ahead;
    lacks(signaller.signal_or_closed(&[5], None, soon).unwrap_err(), ahead, LACKS_ONE);
    lacks(signaller.signal_block_or_closed(&[5], None, soon).unwrap_err(), ahead, LACKS_ONE);
    drop(signaller);
    assert_eq!(
        founder.next_or_closed(&[4], None, soon),
        Ok(Next::Value(PhaseValue { phase: 0, value: Some(9) }))
    );
    // The waiter has not got phase 0, and so phase 1 is ahead of it. Nobody has signalled that.
    lacks(founder.next_or_closed(&[4], None, soon).unwrap_err(), ahead, LACKS_NEXT);
    // What is refused for another reason names nobody.
    lacks(
        founder.signal_or_closed(&[i64::MIN], None, soon).unwrap_err(),
        PhaserError::BadValue,
        "",
    );
}

const CLOSED: &str = "the phaser is closed";
const LACKS_THREE: &str = "phase 0 lacks the signal of 3";
const LACKS_TWO: &str = "phase 0 lacks the signal of 0, 2";
const LACKS_ONE: &str = "phase 0 lacks the signal of 0";
const LACKS_NEXT: &str = "phase 1 lacks the signal of 0";
