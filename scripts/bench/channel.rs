// Measures a bounded channel of Rust's standard library between two threads, beside bench/shared:
// one sends numbers, the other adds up what it gets. Rows as those of bench/shared.
// usage: channel one BOUND COUNT | channel block BOUND SIZE COUNT
use std::sync::mpsc::sync_channel;
use std::time::Instant;

fn number(words: &[String], at: usize) -> u64 {
    words.get(at).and_then(|word| word.parse().ok()).expect("a number")
}

// The seconds from the first number that is not below `warm` on, and the sum of all.
fn add_up(numbers: impl Iterator<Item = u64>, warm: u64) -> (f64, u64) {
    let (mut start, mut sum) = (None, 0u64);
    for number in numbers {
        if start.is_none() && number >= warm {
            start = Some(Instant::now());
        }
        sum = sum.wrapping_add(number);
    }
    (start.map_or(0.0, |start| start.elapsed().as_secs_f64()), sum)
}

// One number a message.
fn one(bound: u64, warm: u64, all: u64) -> (f64, u64) {
    let (sender, receiver) = sync_channel(bound as usize);
    std::thread::spawn(move || {
        (0..all).for_each(|number| sender.send(number).expect("a receiver"))
    });
    add_up(receiver.into_iter(), warm)
}

// A list of numbers a message, at most `bound` of them on their way.
fn blocks(bound: u64, size: u64, warm: u64, all: u64) -> (f64, u64) {
    let (sender, receiver) = sync_channel((bound / size).max(1) as usize);
    std::thread::spawn(move || {
        for block in 0..all / size {
            let list: Vec<u64> = (block * size..(block + 1) * size).collect();
            sender.send(list).expect("a receiver");
        }
    });
    add_up(receiver.into_iter().flatten(), warm)
}

fn main() {
    let words: Vec<String> = std::env::args().skip(1).collect();
    let mode = words.first().expect("one or block").as_str();
    let bound = number(&words, 1);
    let size = if mode == "block" { number(&words, 2).max(1) } else { 1 };
    let count = number(&words, if mode == "block" { 3 } else { 2 });
    let (warm, all) = (count / 10, count / 10 + count);
    let (seconds, check) = match mode {
        "block" => blocks(bound, size, warm, all),
        _ => one(bound, warm, all),
    };
    println!(
        "{{\"rows\": [{{\"name\": \"channel {mode} {size}\", \"bound\": {bound}, \
         \"count\": {count}, \"seconds\": {seconds:.9}, \"check\": {check}}}]}}"
    );
}
