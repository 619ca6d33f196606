// Reads a file of numbers by `lines` and `parse` of Rust's library, and tells how many there are:
// what the reading of samples is measured beside.
// usage: plain-lines FILE

fn main() {
    let name = std::env::args().nth(1).expect("a file");
    let text = std::fs::read_to_string(name).expect("a text");
    let mut values: Vec<i64> = Vec::new();
    for line in text.lines() {
        values.push(line.parse().expect("a number"));
    }
    println!("{}", values.len());
}
