//! Samples a second through a graph that is fed by blocks, from one source to one sink: what it
//! prints is as of fed.c.
use std::{env, fs};

fn cpu() -> f64 {
    let text = fs::read_to_string("/proc/self/schedstat").unwrap();
    text.split(' ').next().unwrap().parse::<f64>().unwrap() / 1e9
}

fn samples(count: usize) -> Vec<i64> {
    let mut state = 0_u64;
    let next = || {
        state = (state * 1_103_515 + 12_345) % 2_147_483_648;
        (state / 1024) as i64 - 1_048_576
    };
    std::iter::repeat_with(next).take(count).collect()
}

fn main() -> Result<(), phase::Error> {
    let words: Vec<String> = env::args().collect();
    let graph = fs::read_to_string(&words[1]).unwrap();
    let (count, block) = (words[2].parse().unwrap(), words[3].parse().unwrap());
    let samples = samples(count);
    let mut stream = phase::Stream::new(graph)?;
    let (mut many, mut sum) = (0, 0_i64);
    let begun = cpu();
    for mut rest in samples.chunks(block) {
        while !rest.is_empty() {
            let took = stream.feed(0, rest)?;
            rest = &rest[took..];
            stream.run()?;
            let values = stream.take(0)?;
            many += values.len();
            sum = values.iter().fold(sum, |sum, value| sum.wrapping_add(*value));
        }
    }
    println!("{many} {sum} {:.6}", cpu() - begun);
    Ok(())
}
