// Does in plain Rust what bench/graphs has the program do: a source, so many filters of 64 taps one
// behind the other and a sink, each in a thread of its own, with a bounded channel of the standard
// library between two.
// usage: channel-graph FILTERS BOUND FILE
use std::io::Write;
use std::sync::mpsc::{sync_channel, Receiver, SyncSender};
use std::thread::spawn;

const TAPS: usize = 64;
const SHIFT: u32 = 12;

fn taps() -> [i64; TAPS] {
    std::array::from_fn(|j| if j % 2 == 0 { 1000 + j as i64 } else { j as i64 - 900 })
}

// A window of samples: the newest stands at `newest`, and behind it the older ones.
struct Filter {
    taps: [i64; TAPS],
    window: [i64; TAPS],
    newest: usize,
}

impl Filter {
    fn step(&mut self, sample: i64) -> i64 {
        self.newest = (self.newest + TAPS - 1) % TAPS;
        self.window[self.newest] = sample;
        let (older, newer) = self.window.split_at(self.newest);
        let window = newer.iter().chain(older);
        let sum: i128 =
            window.zip(&self.taps).map(|(&x, &tap)| i128::from(x) * i128::from(tap)).sum();
        i64::try_from(sum >> SHIFT).expect("a value in range")
    }
}

fn filter(input: Receiver<i64>, output: SyncSender<i64>) {
    let mut filter = Filter { taps: taps(), window: [0; TAPS], newest: 0 };
    for sample in input {
        output.send(filter.step(sample)).expect("a receiver");
    }
}

fn main() {
    let words: Vec<String> = std::env::args().skip(1).collect();
    let filters: usize = words[0].parse().expect("a number");
    let bound: usize = words[1].parse().expect("a number");
    let text = std::fs::read_to_string(&words[2]).expect("a file");
    let samples: Vec<i64> = text.lines().map(|line| line.parse().expect("a number")).collect();
    let (sender, mut last) = sync_channel(bound);
    spawn(move || samples.into_iter().for_each(|sample| sender.send(sample).expect("a receiver")));
    for _ in 0..filters {
        let (sender, receiver) = sync_channel(bound);
        let input = std::mem::replace(&mut last, receiver);
        spawn(move || filter(input, sender));
    }
    let values: Vec<i64> = last.into_iter().collect();
    let mut output = std::io::BufWriter::new(std::io::stdout().lock());
    writeln!(output, "out {}", values.len()).expect("an output");
    for value in values {
        writeln!(output, "{value}").expect("an output");
    }
}
