//! What a phaser answers at its edges: each refusal, which leaves it as it was, each operation and
//! single, and the greatest and least numbers.
use phase::{Got, Mode, Operation, Phaser, PhaserError, Single, Standing};

const MOST: i64 = i64::MAX;

fn sums(bound: u64, phases: u64) -> Phaser {
    Phaser::new(Operation::Sum, bound, phases).unwrap()
}

fn value(phase: u64, value: i64) -> Result<Got, PhaserError> {
    Ok(Got::Value { phase, value: Some(value) })
}

#[test]
fn a_phaser_has_limits() {
    for bound in [0, 65_537, u64::MAX] {
        assert_eq!(Phaser::new(Operation::Sum, bound, 0).unwrap_err(), PhaserError::BadBound);
    }
    for phases in [0, (1 << 62) + 1, u64::MAX] {
        assert_eq!(Phaser::new(Operation::Sum, 1, phases).unwrap_err(), PhaserError::BadPhases);
    }
    drop(sums(1, 1));
    drop(sums(65_536, 1 << 62));
}

/// Of 4, 9 and -3; of no send; and of the greatest value twice.
#[test]
fn each_operation_has_its_values() {
    let rows = [
        (Operation::Sum, Some(10), Some(0), None),
        (Operation::Product, Some(-108), Some(1), None),
        (Operation::Least, Some(-3), None, Some(MOST)),
        (Operation::Greatest, Some(9), None, Some(MOST)),
        (Operation::Any, Some(4), None, Some(MOST)),
    ];
    for (operation, of_sends, of_none, of_most) in rows {
        let mut phaser = Phaser::new(operation, 2, 100).unwrap();
        let sends: [(&[i64], Option<i64>); 3] =
            [(&[4, 9, -3], of_sends), (&[], of_none), (&[MOST, MOST], of_most)];
        for (phase, (sends, wanted)) in (0..).zip(sends) {
            assert_eq!(phaser.signal(0, sends, None), Ok(phase));
            assert_eq!(phaser.wait(0), Ok(Got::Value { phase, value: wanted }), "{operation:?}");
        }
    }
}

#[test]
fn each_single_is_done_once() {
    let rows = [
        (5, Single::Neg, -5),
        (-MOST, Single::Abs, MOST),
        (-5, Single::Halve, -3),
        (5, Single::Clamp { low: -3, high: 3 }, 3),
        (5, Single::Clamp { low: -MOST, high: MOST }, 5),
    ];
    let mut phaser = sums(2, 100);
    for (phase, (send, single, wanted)) in (0..).zip(rows) {
        assert_eq!(phaser.signal(0, &[send], Some(single)), Ok(phase));
        assert_eq!(phaser.wait(0), value(phase, wanted), "{single:?}");
    }
    for (low, high) in [(1, 0), (i64::MIN, 0), (i64::MIN, i64::MIN)] {
        let clamp = Some(Single::Clamp { low, high });
        assert_eq!(phaser.signal(0, &[], clamp), Err(PhaserError::BadSingle));
    }
}

#[test]
fn registrations_are_refused() {
    let mut phaser = sums(2, 100);
    assert_eq!(phaser.register(1, Mode::Sig), Err(PhaserError::NoTask));
    assert_eq!(phaser.register_now(u64::MAX), Err(PhaserError::NoTask));
    assert_eq!(phaser.drop_task(u64::MAX), Err(PhaserError::NoTask));
    let modes = [Mode::Sig, Mode::Wait, Mode::SigWait, Mode::Single];
    for (parent, mode) in (1..).zip(modes) {
        assert_eq!(phaser.register(0, mode), Ok(parent));
    }
    for (parent, holds) in (1..).zip([
        [true, false, false, false],
        [false, true, false, false],
        [true, true, true, false],
    ]) {
        for (mode, is_held) in modes.into_iter().zip(holds) {
            if !is_held {
                assert_eq!(
                    phaser.register(parent, mode),
                    Err(PhaserError::NotAllowed),
                    "{parent} {mode:?}"
                );
            }
        }
    }
    assert_eq!(phaser.register_now(1), Err(PhaserError::NotAllowed));
    for task in 5..1024 {
        assert_eq!(phaser.register(0, Mode::SigWait), Ok(task));
    }
    assert_eq!(phaser.register(0, Mode::Sig), Err(PhaserError::TooManyTasks));
    assert_eq!(phaser.register_now(0), Err(PhaserError::TooManyTasks));
    assert_eq!(phaser.drop_task(7), Ok(()));
    assert_eq!(phaser.drop_task(7), Err(PhaserError::NoTask));
    assert_eq!(phaser.register(0, Mode::Sig), Ok(1024));
}

#[test]
fn signals_are_refused() {
    let mut phaser = sums(2, 3);
    let many = vec![0; 65_537];
    assert_eq!(phaser.signal(0, &[i64::MIN], None), Err(PhaserError::BadValue));
    assert_eq!(phaser.signal(0, &many, None), Err(PhaserError::TooManySends));
    assert_eq!(phaser.signal(9, &[1], None), Err(PhaserError::NoTask));
    let (signaller, waiter) =
        (phaser.register(0, Mode::Sig).unwrap(), phaser.register(0, Mode::Wait).unwrap());
    assert_eq!(phaser.signal(waiter, &[], None), Err(PhaserError::NoSignal));
    assert_eq!(phaser.signal(signaller, &[], Some(Single::Neg)), Err(PhaserError::NotSingle));
    assert_eq!(phaser.signal(0, &many[1..], Some(Single::Neg)), Ok(0));
    assert_eq!(phaser.signal(0, &[], None), Err(PhaserError::SignalTwice));
    assert_eq!(phaser.signal(signaller, &[1], None), Err(PhaserError::SingleDiffers));
    phaser.drop_task(0).unwrap();
    let standing = Standing { signal_phase: 0, wait_phase: 0, mode: Mode::Sig };
    assert_eq!(phaser.view(signaller), Some(standing));
    assert_eq!(phaser.view(0), None);
}

#[test]
fn a_signaller_is_held_back() {
    let mut phaser = sums(2, 3);
    let (signaller, waiter) =
        (phaser.register(0, Mode::Sig).unwrap(), phaser.register(0, Mode::Wait).unwrap());
    phaser.drop_task(0).unwrap();
    assert_eq!(phaser.signal(signaller, &[-MOST], None), Ok(0));
    assert_eq!(phaser.signal(signaller, &[MOST], None), Ok(1));
    assert_eq!(phaser.signal(signaller, &[], None), Err(PhaserError::Ahead));
    let standing = Standing { signal_phase: 2, wait_phase: 0, mode: Mode::Sig };
    assert_eq!(phaser.view(signaller), Some(standing));
    assert_eq!(phaser.wait(signaller), Err(PhaserError::NoWait));
    assert_eq!(phaser.wait(waiter), value(0, -MOST));
    assert_eq!(phaser.signal(signaller, &[], None), Ok(2));
    assert_eq!(phaser.wait(waiter), value(1, MOST));
    assert_eq!(phaser.signal(signaller, &[], None), Err(PhaserError::Spent));
    assert_eq!(phaser.wait(waiter), value(2, 0));
    assert_eq!(phaser.wait(waiter), Err(PhaserError::NotYet));
    phaser.drop_task(signaller).unwrap();
    assert_eq!(phaser.wait(waiter), Ok(Got::Ended));
    assert_eq!(phaser.wait(9), Err(PhaserError::NoTask));
}

#[test]
fn a_phase_is_full() {
    let mut phaser = sums(2, 3);
    let other = phaser.register(0, Mode::Sig).unwrap();
    assert_eq!(phaser.wait(0), Err(PhaserError::SignalFirst));
    assert_eq!(phaser.signal(0, &vec![1; 65_536], None), Ok(0));
    assert_eq!(phaser.signal(other, &[1], None), Err(PhaserError::PhaseFull));
    assert_eq!(phaser.signal(other, &[], None), Ok(0));
    assert_eq!(phaser.wait(0), value(0, 65_536));
}

#[test]
fn a_waiter_joins_now() {
    let mut phaser = sums(4, 100);
    let waiter = phaser.register(0, Mode::Wait).unwrap();
    for phase in 0..2 {
        assert_eq!(phaser.signal(0, &[10], None), Ok(phase));
        assert_eq!(phaser.wait(0), value(phase, 10));
    }
    assert_eq!(phaser.register_now(waiter), Ok((2, 2)));
    assert_eq!(phaser.wait(2), Err(PhaserError::NotYet));
    assert_eq!(phaser.wait(waiter), value(0, 10));
}

/// Phasers side by side, moved about before they are used.
#[test]
fn phasers_move() {
    let mut phasers: Vec<Phaser> = (1..=100).map(|bound| sums(bound, 100)).collect();
    phasers.reverse();
    for (send, mut phaser) in (1..).zip(phasers) {
        assert_eq!(phaser.signal(0, &[send], None), Ok(0));
        assert_eq!(phaser.wait(0), value(0, send));
    }
}
