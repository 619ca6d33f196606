use std::{env, fmt::Write, fs};

fn cpu() -> f64 {
    let text = fs::read_to_string("/proc/self/schedstat").unwrap();
    text.split(' ').next().unwrap().parse::<f64>().unwrap() / 1e9
}

fn main() {
    let graph = fs::read_to_string("graph").unwrap();
    let xs: Vec<i64> =
        fs::read_to_string("s.csv").unwrap().lines().map(|it| it.parse().unwrap()).collect();
    let (mut least, mut text) = (f64::MAX, String::new());
    for _ in 0..env::args().nth(1).unwrap().parse().unwrap() {
        let begin = cpu();
        let sinks = phase::eval(&graph, &[&xs]).unwrap();
        least = least.min(cpu() - begin);
        text.clear();
        sinks[0].values.iter().for_each(|y| writeln!(text, "{y}").unwrap());
    }
    println!("Rust, phase::eval\t{least:.3}");
    fs::write("rust.out", text).unwrap();
}
