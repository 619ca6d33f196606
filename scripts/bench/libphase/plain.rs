// Four filters over lists, with plain loops: each product and sum is checked, made in 128 bits, or
// made in 64 and wraps unseen.
use std::{env, fmt::Write, fs};

fn cpu() -> f64 {
    let text = fs::read_to_string("/proc/self/schedstat").unwrap();
    text.split(' ').next().unwrap().parse::<f64>().unwrap() / 1e9
}

fn checked(taps: &[i64], shift: u32, xs: &[i64]) -> Option<Vec<i64>> {
    (0..xs.len())
        .map(|n| {
            let mut sum = 0i64;
            for (tap, x) in taps.iter().zip(xs[..=n].iter().rev()) {
                sum = sum.checked_add(tap.checked_mul(*x)?)?;
            }
            Some(sum >> shift)
        })
        .collect()
}

fn wide(taps: &[i64], shift: u32, xs: &[i64]) -> Option<Vec<i64>> {
    (0..xs.len())
        .map(|n| {
            let sum: i128 = taps
                .iter()
                .zip(xs[..=n].iter().rev())
                .map(|(t, x)| i128::from(*t) * i128::from(*x))
                .sum();
            i64::try_from(sum >> shift).ok().filter(|y| *y != i64::MIN)
        })
        .collect()
}

fn narrow(taps: &[i64], shift: u32, xs: &[i64]) -> Option<Vec<i64>> {
    Some(
        (0..xs.len())
            .map(|n| {
                let sum = taps
                    .iter()
                    .zip(xs[..=n].iter().rev())
                    .fold(0i64, |sum, (t, x)| sum.wrapping_add(t.wrapping_mul(*x)));
                sum >> shift
            })
            .collect(),
    )
}

fn main() {
    let rounds: usize = env::args().nth(1).unwrap().parse().unwrap();
    let xs: Vec<i64> =
        fs::read_to_string("s.csv").unwrap().lines().map(|it| it.parse().unwrap()).collect();
    let taps: Vec<i64> = (0..64).map(|i| i % 7 + 1).collect();
    type Filter = fn(&[i64], u32, &[i64]) -> Option<Vec<i64>>;
    for (name, filter) in [
        ("checked", checked as Filter),
        ("in 128 bits", wide),
        ("in 64 bits (wraps unseen)", narrow),
    ] {
        let (mut least, mut ys) = (f64::MAX, vec![]);
        for _ in 0..rounds {
            let begin = cpu();
            ys = (0..4).fold(xs.clone(), |ys, _| filter(&taps, 8, &ys).unwrap());
            least = least.min(cpu() - begin);
        }
        println!("plain Rust, {name}\t{least:.3}");
        let mut text = String::new();
        ys.iter().for_each(|y| writeln!(text, "{y}").unwrap());
        fs::write(format!("plain-{}.out", name.split(' ').nth(1).unwrap_or("checked")), text)
            .unwrap();
    }
}
