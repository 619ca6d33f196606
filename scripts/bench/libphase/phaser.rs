use phase::{Got, Operation, Phaser, PhaserError};

fn main() -> Result<(), PhaserError> {
    let mut phaser = Phaser::new(Operation::Sum, 2, 1 << 62)?;
    let mut sum = 0;
    for _ in 0..10_000_000 {
        phaser.signal(0, &[1], None)?;
        if let Got::Value { value: Some(value), .. } = phaser.wait(0)? {
            sum += value;
        }
    }
    println!("{sum}");
    Ok(())
}
