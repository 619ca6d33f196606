//! What threads get from a phaser, beside values worked out by hand: barriers, streams and blocks,
//! time limits, those that leave or panic while others wait, and threads that come and go.
use phase::shared::mode::{Mode, Sig, SigWait, Signals, Single, Wait, Waits};
use phase::shared::{Next, PhaseValue, Refused, Registration};
use phase::{Got, GotBlock, Operation, PhaserError, Single as Once, Standing};
use std::collections::BTreeMap;
use std::sync::atomic::{AtomicI64, AtomicU64, Ordering::Relaxed};
use std::thread::{self, Scope};
use std::time::{Duration, Instant};

const MILLISECOND: Duration = Duration::from_millis(1);

/// What a call with a time limit was answered, without who is missing.
fn why<T>(told: Result<T, Refused>) -> Result<T, PhaserError> {
    told.map_err(PhaserError::from)
}

fn sums(bound: u64, phases: u64) -> Registration<Single> {
    Registration::founder(Operation::Sum, bound, phases).unwrap()
}

fn got(phase: u64, value: i64) -> PhaseValue {
    PhaseValue { phase, value: Some(value) }
}

/// In each phase each sends the phase plus its number; what it wrote before is seen by all.
fn meets<M: Signals + Waits>(
    mut own: Registration<M>,
    number: usize,
    phases: i64,
    written: &[Vec<AtomicI64>; 2],
) {
    let all = written[0].len() as i64;
    for phase in 0..phases {
        let row = &written[phase as usize % 2];
        row[number].store(phase, Relaxed);
        let sum = all * phase + all * (all - 1) / 2;
        assert_eq!(own.next(&[phase + number as i64], None), Ok(got(phase as u64, sum)));
        assert!(row.iter().all(|it| it.load(Relaxed) == phase));
    }
}

#[test]
fn threads_meet() {
    for (threads, phases) in [(1, 1000), (2, 1000), (4, 500), (16, 100)] {
        for bound in [1, 2] {
            let mut founder = sums(bound, phases as u64);
            let row = || (0..threads).map(|_| AtomicI64::new(-1)).collect();
            let written = [row(), row()];
            thread::scope(|scope| {
                for number in 1..threads {
                    let own = founder.register::<SigWait>().unwrap();
                    let written = &written;
                    scope.spawn(move || meets(own, number, phases, written));
                }
                meets(founder, 0, phases, &written);
            });
        }
    }
}

#[test]
fn others_turns_make_most_phases() {
    let mut founder = sums(2, 2000);
    let mut child = founder.register::<SigWait>().unwrap();
    assert_eq!((founder.answers(), child.answers()), (0, 0));
    let answers = thread::scope(|scope| {
        let other = scope.spawn(move || {
            (0..2000).for_each(|at| assert!(child.next(&[at], None).is_ok()));
            child.answers()
        });
        (0..2000).for_each(|at| assert!(founder.next(&[at], None).is_ok()));
        founder.answers() + other.join().unwrap()
    });
    // Where there is one processor nobody asks.
    assert_eq!(answers > 1000, thread::available_parallelism().unwrap().get() > 1);
}

#[test]
fn two_consumers_get_a_stream() {
    let mut founder = sums(8, 1000);
    let mut producer = founder.register::<Sig>().unwrap();
    let consumers = [founder.register::<Wait>().unwrap(), founder.register::<Wait>().unwrap()];
    drop(founder);
    thread::scope(|scope| {
        for consumer in consumers {
            scope.spawn(move || assert!(consumer.eq((0..1000).map(|n| got(n, (n * n) as i64)))));
        }
        for n in 0..1000 {
            assert_eq!(producer.signal(&[(n * n) as i64], None), Ok(n));
        }
        assert_eq!(producer.signal(&[0], None), Err(PhaserError::Spent));
        drop(producer);
    });
}

#[test]
fn blocks_go_from_thread_to_thread() {
    let mut founder = sums(16, 1000);
    let mut producer = founder.register::<Sig>().unwrap();
    let mut consumer = founder.register::<Wait>().unwrap();
    founder.leave();
    thread::scope(|scope| {
        scope.spawn(move || {
            for first in (0..1000).step_by(8) {
                let values: Vec<i64> = (first..first + 8).collect();
                assert_eq!(producer.signal_block(&values, None), Ok(first as u64));
            }
        });
        let (mut values, mut all) = ([0; 16], Vec::new());
        while let GotBlock::Values { phase, count } = consumer.wait_block(&mut values).unwrap() {
            assert_eq!(phase, all.len() as u64);
            all.extend_from_slice(&values[..count]);
        }
        assert!(all.into_iter().eq(0..1000));
    });
}

#[test]
fn others_go_on_without_one_that_left_in_time() {
    for is_dropped in [false, true] {
        let mut founder = sums(2, 100);
        let mut other = founder.register::<SigWait>().unwrap();
        assert_eq!(founder.next_for(&[4], None, MILLISECOND), Ok(Next::Signalled(0)));
        if is_dropped {
            drop(founder);
        } else {
            founder.leave();
        }
        assert_eq!(other.next(&[5], None), Ok(got(0, 9)));
        assert_eq!(other.next(&[5], None), Ok(got(1, 5)));
    }
}

/// Behind a `next_for` whose time has passed a registration rests, with its signal made, whether it
/// asked for the phase, as with one value, or not.
#[test]
fn a_next_whose_time_passed_leaves_its_signal() {
    let twice = PhaserError::SignalTwice;
    for values in [&[4_i64][..], &[1, 3]] {
        let mut founder = sums(2, 100);
        let mut other = founder.register::<SigWait>().unwrap();
        assert_eq!(founder.next_for(values, None, MILLISECOND), Ok(Next::Signalled(0)));
        let standing = founder.view();
        assert_eq!((standing.signal_phase, standing.wait_phase), (1, 0));
        assert_eq!(founder.told(), (0, 0));
        assert_eq!(founder.next(&[4], None).unwrap_err(), twice);
        assert_eq!(founder.try_next(&[4], None).unwrap_err(), twice);
        assert_eq!(why(founder.next_for(&[4], None, MILLISECOND)).unwrap_err(), twice);
        assert_eq!(founder.signal(&[4], None).unwrap_err(), twice);
        assert_eq!(founder.try_signal(&[4], None).unwrap_err(), twice);
        assert_eq!(founder.signal_block(&[4, 5], None).unwrap_err(), twice);
        assert_eq!(founder.try_wait(), Err(PhaserError::NotYet));
        assert_eq!(why(founder.wait_for(MILLISECOND)), Err(PhaserError::NotYet));
        assert_eq!(founder.try_wait_block(&mut [0; 2]), Err(PhaserError::NotYet));
        let mut child = founder.register::<SigWait>().unwrap();
        assert_eq!((child.view().signal_phase, child.view().wait_phase), (1, 0));
        let (mut late, at) = founder.register_now().unwrap();
        assert_eq!(at, 0);
        assert_eq!(other.next(&[5], None), Ok(got(0, 9)));
        let mut places = [7; 2];
        assert_eq!(founder.wait(), Ok(Got::Value { phase: 0, value: Some(9) }));
        assert_eq!(child.wait(), Ok(Got::Value { phase: 0, value: Some(9) }));
        assert_eq!(late.wait_block(&mut places), Ok(GotBlock::Values { phase: 0, count: 1 }));
        assert_eq!(places, [9, 7]);
        founder.leave();
        assert_eq!(child.next_for(&[6], None, MILLISECOND), Ok(Next::Signalled(1)));
        assert_eq!(other.next(&[5], None), Ok(got(1, 11)));
    }
}

#[test]
fn a_time_ends_a_wait() {
    let mut founder = sums(1, 100);
    let mut other = founder.register::<Sig>().unwrap();
    let since = Instant::now();
    assert_eq!(founder.next_for(&[4], None, 20 * MILLISECOND), Ok(Next::Signalled(0)));
    assert_eq!(why(founder.wait_for(20 * MILLISECOND)), Err(PhaserError::NotYet));
    assert!(since.elapsed() >= 40 * MILLISECOND);
    assert_eq!(founder.try_wait(), Err(PhaserError::NotYet));
    assert_eq!(founder.signal(&[4], None), Err(PhaserError::SignalTwice));
    thread::scope(|scope| {
        scope.spawn(|| {
            thread::sleep(20 * MILLISECOND);
            other.signal(&[5], None).unwrap();
        });
        let value = founder.wait_for(Duration::MAX);
        assert_eq!(value, Ok(Got::Value { phase: 0, value: Some(9) }));
    });
    assert_eq!(other.signal(&[5], None), Ok(1));
    assert_eq!(why(other.signal_for(&[5], None, MILLISECOND)), Err(PhaserError::Ahead));
    assert_eq!(why(other.signal_block_for(&[5], None, MILLISECOND)), Err(PhaserError::Ahead));
    assert_eq!(other.try_signal(&[5], None), Err(PhaserError::Ahead));
    assert_eq!(other.try_signal_block(&[5], None), Err(PhaserError::Ahead));
    assert_eq!(founder.try_next(&[1], None), Ok(Next::Value(got(1, 6))));
    assert_eq!(why(founder.wait_block_for(&mut [0], MILLISECOND)), Err(PhaserError::SignalFirst));
    assert_eq!(founder.try_wait_block(&mut [0]), Err(PhaserError::SignalFirst));
}

#[test]
fn a_thread_that_panics_leaves() {
    let mut founder = sums(2, 1000);
    let mut dies = founder.register::<SigWait>().unwrap();
    let mut lives = founder.register::<SigWait>().unwrap();
    let watcher = founder.register::<Wait>().unwrap();
    let sum_of_ten = |own: &mut dyn FnMut() -> i64| (0..10).map(|_| own()).sum::<i64>();
    thread::scope(|scope| {
        let dead = scope.spawn(move || {
            for _ in 0..3 {
                dies.next(&[1], None).unwrap();
            }
            std::panic::resume_unwind(Box::new("dies"));
        });
        let other =
            scope.spawn(move || sum_of_ten(&mut || lives.next(&[1], None).unwrap().value.unwrap()));
        let watched = scope.spawn(move || watcher.map(|it| it.value.unwrap()).collect::<Vec<_>>());
        let own = sum_of_ten(&mut || founder.next(&[1], None).unwrap().value.unwrap());
        drop(founder);
        assert!(dead.join().is_err());
        assert_eq!((own, other.join().unwrap()), (23, 23));
        assert_eq!(watched.join().unwrap(), [3, 3, 3, 2, 2, 2, 2, 2, 2, 2]);
    });
}

#[test]
fn modes_and_singles() {
    let mut founder = Registration::founder(Operation::Product, 2, 100).unwrap();
    let mut own = founder.register::<SigWait>().unwrap();
    assert_eq!((founder.number(), own.number()), (0, 1));
    assert_eq!(own.signal(&[2], Some(Once::Neg)), Err(PhaserError::NotSingle));
    let no_range = Some(Once::Clamp { low: 2, high: 1 });
    assert_eq!(founder.next(&[2], no_range), Err(PhaserError::BadSingle));
    assert_eq!(founder.signal(&[i64::MIN], None), Err(PhaserError::BadValue));
    assert_eq!(founder.signal_block(&[], None), Err(PhaserError::BadBlock));
    drop(own);
    assert_eq!(founder.next(&[2, 3], Some(Once::Neg)), Ok(got(0, -6)));
    let (late, phase) = founder.try_register_now().unwrap();
    assert_eq!((phase, late.number()), (1, 2));
    let standing = Standing { signal_phase: 1, wait_phase: 1, mode: phase::Mode::Wait };
    assert_eq!(late.view(), standing);
    assert_eq!(founder.told(), (1, 1));
    assert!(late.try_leave().is_ok());
    let big = founder.next(&[i64::MAX, 2], None);
    assert_eq!(big, Ok(PhaseValue { phase: 1, value: None }));
    assert_eq!(
        format!("{founder:?}"),
        "Registration { number: 0, mode: Single, signal_phase: 2, wait_phase: 2 }"
    );
}

/// A registration of any mode, which a thread that comes and goes has.
trait Step: Send {
    fn step(&mut self, churn: &Churn, seed: u64) -> Result<bool, PhaserError>;
    fn child(&mut self, seed: u64) -> Result<Box<dyn Step>, PhaserError>;
}

/// How many signalled each phase, and what was got of it.
struct Churn {
    sent: Vec<AtomicU64>,
    got: Vec<AtomicU64>,
    live: AtomicU64,
    made: AtomicU64,
}

impl Churn {
    fn note_sent(&self, phase: u64) {
        self.sent[phase as usize].fetch_add(1, Relaxed);
    }

    fn note_got(&self, got: Got) -> bool {
        let Got::Value { phase, value } = got else { return false };
        let value = value.unwrap() as u64;
        let before = self.got[phase as usize].swap(value, Relaxed);
        assert!(before == 0 || before == value, "two got different values of phase {phase}");
        true
    }
}

impl Step for Registration<Sig> {
    fn step(&mut self, churn: &Churn, _: u64) -> Result<bool, PhaserError> {
        churn.note_sent(self.signal(&[1], None)?);
        Ok(true)
    }

    fn child(&mut self, _: u64) -> Result<Box<dyn Step>, PhaserError> {
        Ok(Box::new(self.register::<Sig>()?))
    }
}

impl Step for Registration<Wait> {
    fn step(&mut self, churn: &Churn, _: u64) -> Result<bool, PhaserError> {
        Ok(churn.note_got(self.wait()?))
    }

    fn child(&mut self, seed: u64) -> Result<Box<dyn Step>, PhaserError> {
        Ok(Box::new(if seed % 2 == 0 { self.register()? } else { self.register_now()?.0 }))
    }
}

impl Step for Registration<SigWait> {
    fn step(&mut self, churn: &Churn, seed: u64) -> Result<bool, PhaserError> {
        if seed % 2 == 0 {
            churn.note_sent(self.signal(&[1], None)?);
            return Ok(churn.note_got(self.wait()?));
        }
        match why(self.next_for(&[1], None, Duration::from_micros(seed % 40))) {
            Err(PhaserError::Ahead) => Ok(true),
            Err(why) => Err(why),
            Ok(Next::Value(PhaseValue { phase, value })) => {
                churn.note_sent(phase);
                Ok(churn.note_got(Got::Value { phase, value }))
            }
            Ok(Next::Signalled(phase)) => {
                churn.note_sent(phase);
                Ok(churn.note_got(self.wait()?))
            }
            Ok(Next::Asked(phase)) => match self.wait() {
                Err(PhaserError::Ahead) => Ok(true),
                Err(why) => Err(why),
                Ok(got) => {
                    churn.note_sent(phase);
                    Ok(churn.note_got(got))
                }
            },
        }
    }

    fn child(&mut self, seed: u64) -> Result<Box<dyn Step>, PhaserError> {
        Ok(match seed % 4 {
            0 => Box::new(self.register::<Sig>()?),
            1 => Box::new(self.register::<Wait>()?),
            2 => Box::new(self.register_now()?.0),
            _ => Box::new(self.register::<SigWait>()?),
        })
    }
}

fn random(seed: &mut u64) -> u64 {
    *seed = seed.wrapping_mul(6_364_136_223_846_793_005).wrapping_add(1_442_695_040_888_963_407);
    *seed >> 33
}

/// Goes so many steps, with children at random.
fn lives<'s>(
    own: &mut dyn Step,
    steps: u64,
    mut seed: u64,
    churn: &'s Churn,
    scope: &'s Scope<'s, '_>,
) {
    for _ in 0..steps {
        match own.step(churn, random(&mut seed)) {
            Ok(true) => {}
            Ok(false) | Err(PhaserError::Spent) => break,
            Err(why) => panic!("a step was refused: {why}"),
        }
        if churn.live.load(Relaxed) < 12 && random(&mut seed) % 6 == 0 {
            let mut child = own.child(random(&mut seed)).unwrap();
            let (steps, seed) = (1 + random(&mut seed) % 60, random(&mut seed));
            churn.live.fetch_add(1, Relaxed);
            churn.made.fetch_add(1, Relaxed);
            scope.spawn(move || {
                lives(child.as_mut(), steps, seed, churn, scope);
                churn.live.fetch_sub(1, Relaxed);
            });
        }
    }
}

#[test]
fn threads_come_and_go() {
    const PHASES: u64 = 500;
    let numbers = || (0..PHASES).map(|_| AtomicU64::new(0)).collect();
    for (bound, seed) in [(1, 3), (2, 4)] {
        let (live, made) = (AtomicU64::new(1), AtomicU64::new(1));
        let churn = Churn { sent: numbers(), got: numbers(), live, made };
        let mut founder = sums(bound, PHASES);
        let mut own = founder.register::<SigWait>().unwrap();
        drop(founder);
        thread::scope(|scope| {
            lives(&mut own, u64::MAX, seed, &churn, scope);
            drop(own);
        });
        let all: BTreeMap<usize, u64> =
            churn.got.iter().map(|it| it.load(Relaxed)).enumerate().collect();
        for (phase, value) in all {
            assert_eq!(value, churn.sent[phase].load(Relaxed), "phase {phase}");
        }
        assert!(churn.made.load(Relaxed) > 10);
    }
}

/// What a registration is: `Send`, and of a mode whose value it tells.
#[test]
fn a_registration_is_handed_over() {
    fn is_send<M: Mode>(own: Registration<M>) -> impl Send {
        own
    }
    let founder = sums(2, 100);
    drop(is_send(founder));
    assert_eq!(<Wait as Mode>::MODE, phase::Mode::Wait);
}
