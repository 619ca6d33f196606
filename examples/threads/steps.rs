//! Four parts cool, step by step. In each step all send what they have, get the total, and so stop
//! at one step.
use phase::shared::{PhaseValue, Registration, mode::SigWait, mode::Signals, mode::Waits};
use phase::{Operation, PhaserError};
use std::thread;

fn cools<M: Signals + Waits>(
    mut own: Registration<M>,
    mut heat: i64,
) -> Result<PhaseValue, PhaserError> {
    loop {
        heat -= heat / 10;
        let got = own.next(&[heat], None)?;
        if got.value <= Some(200) {
            return Ok(got);
        }
    }
}

fn main() -> Result<(), PhaserError> {
    let mut first = Registration::founder(Operation::Sum, 2, 1000)?;
    let got = thread::scope(|scope| {
        for heat in [200, 300, 400] {
            let own = first.register::<SigWait>()?;
            scope.spawn(move || cools(own, heat));
        }
        cools(first, 100)
    })?;
    println!("step {}: {}", got.phase, got.value.unwrap());
    Ok(())
}
