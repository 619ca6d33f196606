//! A thread that joins while others are at work gets each value from then on.
use phase::shared::Registration;
use phase::{Operation, PhaserError};
use std::thread;

fn main() -> Result<(), PhaserError> {
    let mut founder = Registration::founder(Operation::Sum, 4, 6)?;
    thread::scope(|scope| {
        for n in 0..6 {
            if n == 3 {
                let (late, _) = founder.register_now()?;
                scope.spawn(move || {
                    late.for_each(|got| println!("phase {}: {}", got.phase, got.value.unwrap()));
                });
            }
            founder.next(&[n], None)?;
        }
        drop(founder);
        Ok(())
    })
}
