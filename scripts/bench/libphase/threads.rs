//! Phases a second of threads that meet and add up: by `Registration::next`, or by `Barrier` with a
//! shared sum. What it prints is as of PlainPhaser.java.
//! usage: threads phase|barrier THREADS COUNT
use phase::Operation;
use phase::shared::{Registration, mode::SigWait, mode::Signals, mode::Waits};
use std::sync::Barrier;
use std::sync::atomic::{AtomicI64, Ordering::SeqCst};
use std::time::Instant;
use std::{env, thread};

/// What a thread got, all together, and how long it took behind the first phases.
fn runs(number: i64, count: i64, mut next: impl FnMut(i64, i64) -> i64) -> (i64, f64) {
    let (warm, mut begun, mut check) = (count / 10, Instant::now(), 0);
    for phase in 0..warm + count {
        if phase == warm {
            begun = Instant::now();
        }
        check += next(phase, phase + number);
    }
    (check, begun.elapsed().as_secs_f64())
}

fn by_phase<M: Signals + Waits>(mut own: Registration<M>) -> impl FnMut(i64, i64) -> i64 {
    move |_, value| own.next(&[value], None).unwrap().value.unwrap()
}

fn with_phaser(threads: i64, count: i64) -> Vec<(i64, f64)> {
    let phases = (count / 10 + count) as u64;
    let mut first = Registration::founder(Operation::Sum, 2, phases).unwrap();
    let rest: Vec<_> = (1..threads).map(|_| first.register::<SigWait>().unwrap()).collect();
    thread::scope(|scope| {
        let rest: Vec<_> = (1..)
            .zip(rest)
            .map(|(number, own)| scope.spawn(move || runs(number, count, by_phase(own))))
            .collect();
        let first = scope.spawn(move || runs(0, count, by_phase(first)));
        [first].into_iter().chain(rest).map(|it| it.join().unwrap()).collect()
    })
}

fn with_barrier(threads: i64, count: i64) -> Vec<(i64, f64)> {
    let barrier = Barrier::new(threads as usize);
    // Of three phases in turn: who is in the next one does not write where another still reads.
    let sums = [const { AtomicI64::new(0) }; 3];
    let next = |phase: i64, value| {
        sums[phase as usize % 3].fetch_add(value, SeqCst);
        if barrier.wait().is_leader() {
            sums[(phase + 2) as usize % 3].store(0, SeqCst);
        }
        sums[phase as usize % 3].load(SeqCst)
    };
    thread::scope(|scope| {
        let all: Vec<_> =
            (0..threads).map(|number| scope.spawn(move || runs(number, count, next))).collect();
        all.into_iter().map(|it| it.join().unwrap()).collect()
    })
}

fn main() {
    let words: Vec<String> = env::args().collect();
    let (threads, count) = (words[2].parse().unwrap(), words[3].parse().unwrap());
    let all = if words[1] == "phase" { with_phaser } else { with_barrier }(threads, count);
    let check: i64 = all.iter().map(|it| it.0).sum();
    println!(
        "{{\"rows\": [{{\"name\": \"rust {} {threads}\", \"count\": {count}, \"seconds\": {:.6}, \
         \"check\": {check}}}]}}",
        words[1], all[0].1
    );
}
