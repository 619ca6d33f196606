//! Two threads work until the one that may signal leaves.
use phase::shared::{Registration, mode::Sig, mode::Wait};
use phase::{Operation, PhaserError};
use std::{thread, time::Duration};

fn works(mut stop: Registration<Wait>, mut begun: Registration<Sig>) -> Result<(), PhaserError> {
    // Behind its first piece of work it signals that it has begun.
    begun.signal(&[1], None)?;
    // It waits, for a millisecond at most, for what will never come but the end.
    let soon = Duration::from_millis(1);
    while stop.wait_for(soon).is_err_and(|it| it.why == PhaserError::NotYet) {}
    Ok(())
}

fn main() -> Result<(), PhaserError> {
    let mut founder = Registration::founder(Operation::Any, 1, 1)?;
    let mut begun = Registration::founder(Operation::Sum, 1, 1)?;
    let mut workers = Vec::new();
    for _ in 0..2 {
        let (stop, begins) = (founder.register::<Wait>()?, begun.register::<Sig>()?);
        workers.push(thread::spawn(move || works(stop, begins)));
    }
    // Each worker has signalled a 1 when this phase is complete.
    let busy = begun.next(&[], None)?;
    founder.leave();
    for worker in workers {
        worker.join().unwrap()?;
    }
    println!("{} worked, and have stopped", busy.value.unwrap());
    Ok(())
}
