//! Four threads have eight cells of a bar each, which is hot at its left end. In each step a thread
//! tells its neighbours, and them alone, how hot the cells at its ends are: a number of 1/1048576.
use phase::shared::{
    Registration,
    mode::{Sig, Wait},
};
use phase::{Operation, PhaserError};
use std::thread;

const SCALE: f64 = 1_048_576.0;
const STEPS: u64 = 400;

/// Where a thread tells its neighbour, and is told.
#[derive(Default)]
struct End {
    to: Option<Registration<Sig>>,
    from: Option<Registration<Wait>>,
}

impl End {
    fn tell(&mut self, heat: f64) -> Result<(), PhaserError> {
        if let Some(to) = &mut self.to {
            to.signal(&[(heat * SCALE) as i64], None)?;
        }
        Ok(())
    }

    /// What the neighbour told, or what is at the end of the bar.
    fn told(&mut self, at_end: f64) -> f64 {
        let told = self.from.as_mut().and_then(Iterator::next).and_then(|got| got.value);
        told.map_or(at_end, |value| value as f64 / SCALE)
    }
}

/// A thread's way to another: the one signals, and the other waits.
fn way() -> Result<(Registration<Sig>, Registration<Wait>), PhaserError> {
    let mut founder = Registration::founder(Operation::Sum, 2, STEPS)?;
    Ok((founder.register()?, founder.register()?))
}

/// The two ends at which neighbours meet, of the left one and of the right one.
fn meeting() -> Result<(End, End), PhaserError> {
    let (to_right, from_left) = way()?;
    let (to_left, from_right) = way()?;
    let left = End { to: Some(to_right), from: Some(from_right) };
    Ok((left, End { to: Some(to_left), from: Some(from_left) }))
}

fn cools(mut left: End, mut right: End) -> Result<f64, PhaserError> {
    let mut row = [0.0; 10];
    for _ in 0..STEPS {
        left.tell(row[1])?;
        right.tell(row[8])?;
        row[0] = left.told(100.0);
        row[9] = right.told(0.0);
        let before = row;
        for at in 1..9 {
            row[at] = (before[at - 1] + 2.0 * before[at] + before[at + 1]) / 4.0;
        }
    }
    Ok(row[1..9].iter().sum::<f64>() / 8.0)
}

fn main() -> Result<(), PhaserError> {
    let mut parts = Vec::new();
    let mut left = End::default();
    for _ in 0..3 {
        let (right, next) = meeting()?;
        parts.push((left, right));
        left = next;
    }
    parts.push((left, End::default()));
    let threads: Vec<_> =
        parts.into_iter().map(|(left, right)| thread::spawn(move || cools(left, right))).collect();
    for (at, one) in threads.into_iter().enumerate() {
        let end = if at == 3 { "\n" } else { " " };
        print!("{:.3}{end}", one.join().unwrap()?);
    }
    Ok(())
}
