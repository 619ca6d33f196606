//! Of four threads one never signals. The main thread tells which, and ends all.
use phase::shared::{Next, Registration, mode::SigWait};
use phase::{Operation, PhaserError};
use std::thread;

fn meets(mut own: Registration<SigWait>) -> Result<Next, PhaserError> {
    Ok(own.next_or_closed(&[1], None, None)?)
}

fn main() -> Result<(), PhaserError> {
    let mut founder = Registration::founder(Operation::Sum, 2, 100)?;
    let silent = founder.register::<SigWait>()?;
    let owned = [founder.register()?, founder.register()?, founder.register()?];
    founder.leave();
    let told = thread::scope(|scope| {
        let threads = owned.map(|own| scope.spawn(move || meets(own)));
        while silent.missing().len() > 1 {
            thread::yield_now();
        }
        println!("missing: {:?}", silent.missing());
        silent.close();
        threads.map(|it| it.join().unwrap())
    });
    println!("ended: {}", told.iter().filter(|it| **it == Ok(Next::Signalled(0))).count());
    Ok(())
}
