// The plain loops keep the window twice in one list, so that its samples stand in one slice.
use std::time::Instant;

struct Plain {
    taps: Vec<i64>,
    window: Vec<i64>,
    at: usize,
    shift: u32,
}

impl Plain {
    fn put(&mut self, x: i64) {
        let n = self.taps.len();
        self.at = if self.at == 0 { n - 1 } else { self.at - 1 };
        self.window[self.at] = x;
        self.window[self.at + n] = x;
    }

    // Right only where no sum leaves 64 bits.
    fn step_64(&mut self, x: i64) -> Option<i64> {
        self.put(x);
        let window = &self.window[self.at..self.at + self.taps.len()];
        let sum: i64 = self.taps.iter().zip(window).map(|(t, x)| t * x).sum();
        Some(sum >> self.shift)
    }

    fn step_128(&mut self, x: i64) -> Option<i64> {
        self.put(x);
        let window = &self.window[self.at..self.at + self.taps.len()];
        let sum: i128 =
            self.taps.iter().zip(window).map(|(t, x)| i128::from(*t) * i128::from(*x)).sum();
        let y = sum >> self.shift;
        if y.unsigned_abs() > i64::MAX as u128 {
            None
        } else {
            Some(y as i64)
        }
    }
}

fn measure(taps: &[i64], steps: u64, is_large: bool, is_wide: bool) {
    let mut fir = Plain { taps: taps.to_vec(), window: vec![0; 2 * taps.len()], at: 0, shift: 31 };
    let start = Instant::now();
    let mut state = 1u64;
    let mut sum = 0u64;
    for _ in 0..steps {
        state =
            state.wrapping_mul(6_364_136_223_846_793_005).wrapping_add(1_442_695_040_888_963_407);
        let x = if is_large {
            (state >> 2) as i64 - (1 << 61)
        } else {
            (state >> 41) as i64 - (1 << 22)
        };
        let y = if is_wide { fir.step_128(x) } else { fir.step_64(x) };
        if let Some(y) = y {
            sum = sum.wrapping_mul(31).wrapping_add(y.unsigned_abs());
        }
    }
    let name = if is_wide { "plain-128" } else { "plain-64" };
    println!(
        "{} {} {} {} {} {}",
        name,
        taps.len(),
        is_large,
        steps,
        start.elapsed().as_nanos(),
        sum
    );
}

fn main() {
    let taps: Vec<i64> =
        (0..64).map(|i| if i % 2 == 0 { 30_000_000 + i } else { i - 20_000_000 }).collect();
    for (n, steps) in [(1, 20_000_000), (8, 10_000_000), (64, 3_000_000)] {
        measure(&taps[..n], steps, false, false);
        measure(&taps[..n], steps, false, true);
        measure(&taps[..n], steps, true, true);
    }
}
