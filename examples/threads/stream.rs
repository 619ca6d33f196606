//! One thread sends squares, at most four ahead of the slower of two others, each of which gets all
//! of them.
use phase::shared::{Registration, mode::Sig, mode::Wait};
use phase::{Operation, PhaserError};
use std::thread;

fn main() -> Result<(), PhaserError> {
    let mut founder = Registration::founder(Operation::Sum, 4, 10)?;
    let mut producer = founder.register::<Sig>()?;
    let adds = founder.register::<Wait>()?;
    let compares = founder.register::<Wait>()?;
    // It would have to signal each phase, too.
    drop(founder);
    let (sum, greatest) = thread::scope(|scope| {
        let sum = scope.spawn(move || adds.filter_map(|got| got.value).sum::<i64>());
        let greatest = scope.spawn(move || compares.filter_map(|got| got.value).max());
        for n in 0..10 {
            producer.signal(&[n * n], None)?;
        }
        // Nobody is left to signal, so the consumers end behind the last square.
        drop(producer);
        Ok::<_, PhaserError>((sum.join().unwrap(), greatest.join().unwrap()))
    })?;
    println!("sum {sum}, greatest {}", greatest.unwrap());
    Ok(())
}
