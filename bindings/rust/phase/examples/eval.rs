//! eval GRAPH: writes what `phase eval GRAPH` does. A file of samples has a number a line.
use phase::{Error, Sink, eval, names};
use std::{env, fmt::Write, fs, process::exit};

/// The files that the lines of the sources name.
fn files_of(graph: &str) -> Vec<&str> {
    let mut files = vec![];
    for line in graph.lines() {
        let words: Vec<&str> = line.split([' ', '\t']).filter(|it| !it.is_empty()).collect();
        if let ["source", _, file, ..] = words.as_slice() {
            files.push(*file);
        }
    }
    files
}

/// The bytes of a file, which is text.
fn text_of(name: &str) -> String {
    fs::read_to_string(name).unwrap_or_else(|_| {
        eprintln!("phase: read fault");
        exit(5)
    })
}

fn numbers(name: &str) -> Vec<i64> {
    text_of(name).lines().map_while(|line| line.parse().ok()).collect()
}

fn output(names: &[String], sinks: &[Sink]) -> String {
    let mut text = String::new();
    for (name, sink) in names.iter().zip(sinks) {
        let start = sink.start.map_or(String::new(), |phase| format!(" from {phase}"));
        let _ = writeln!(text, "{name}{start} {}", sink.values.len());
        for value in &sink.values {
            let _ = writeln!(text, "{value}");
        }
    }
    text
}

fn main() {
    let Some(name) = env::args().nth(1) else {
        eprintln!("eval GRAPH");
        exit(2)
    };
    let graph = text_of(&name);
    let samples: Vec<Vec<i64>> = files_of(&graph).into_iter().map(numbers).collect();
    let sources: Vec<&[i64]> = samples.iter().map(Vec::as_slice).collect();
    let found = eval(&graph, &sources).and_then(|sinks| Ok((names(&graph)?.sinks, sinks)));
    match found {
        Ok((names, sinks)) => print!("{}", output(&names, &sinks)),
        Err(why) => {
            eprintln!("phase: {why}");
            exit(match why {
                Error::TooBig { .. } => 3,
                Error::OutOfMemory => 5,
                _ => 1,
            })
        }
    }
}
