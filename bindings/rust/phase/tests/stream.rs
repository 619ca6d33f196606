//! What a graph that is fed gives: the graphs of `examples/graphs`, fed by blocks of several
//! lengths, beside the outputs that are stored there; why a run stops; and each refusal.
use phase::{Error, FaultKind, Place, Stopped, Stream};
use std::{fs, path::Path, thread};

const PASS: &str = "phaser x sum 4\nsource s s.csv -> x\nsink out x\n";
const SUM: &str = "phaser x sum 4\nsource s s.csv -> x\nsource t t.csv -> x\nsink out x\n";
const BLOCKS: [usize; 5] = [1, 7, 64, 1000, usize::MAX];

/// A sink: where it begins, where it joins now, and its values.
type Sink = (Option<u64>, Vec<i64>);

/// A graph of `examples/graphs`: its text, the samples of each source, and what is stored of each
/// sink.
struct Example {
    text: String,
    sources: Vec<Vec<i64>>,
    sinks: Vec<Sink>,
}

fn text_of(path: &Path) -> String {
    fs::read_to_string(path).unwrap_or_else(|why| panic!("{}: {why}", path.display()))
}

fn numbers(text: &str) -> Vec<i64> {
    text.lines().map(|line| line.parse().unwrap()).collect()
}

/// The sinks of a stored output: a line with a name, perhaps a start, and a count, and the values.
fn stored(text: &str) -> Vec<Sink> {
    let mut sinks: Vec<Sink> = vec![];
    for line in text.lines() {
        match line.split(' ').collect::<Vec<_>>()[..] {
            [value] => sinks.last_mut().unwrap().1.push(value.parse().unwrap()),
            [_, "from", start, _] => sinks.push((Some(start.parse().unwrap()), vec![])),
            _ => sinks.push((None, vec![])),
        }
    }
    sinks
}

fn examples() -> Vec<Example> {
    let folder = Path::new(env!("CARGO_MANIFEST_DIR")).join("../../../examples/graphs");
    let mut found = vec![];
    for entry in fs::read_dir(&folder).unwrap() {
        let path = entry.unwrap().path();
        if path.extension().is_none_or(|it| it != "graph") {
            continue;
        }
        let text = text_of(&path);
        let lines = text.lines().map(|line| line.split(' ').collect::<Vec<_>>());
        let files = lines.filter(|words| words[0] == "source").map(|words| words[2].to_string());
        let sources = files.map(|file| numbers(&text_of(&folder.join(file)))).collect();
        let sinks = stored(&text_of(&path.with_extension("stdout")));
        found.push(Example { text, sources, sinks });
    }
    assert_eq!(found.len(), 12);
    found
}

/// What the sinks got of a stream that is fed by such blocks, read after each run.
fn fed(example: &Example, block: usize) -> Vec<Sink> {
    let mut stream = Stream::new(&example.text).unwrap();
    let count = example.sinks.len();
    assert_eq!(stream.names().sources.len(), example.sources.len());
    assert_eq!(stream.names().sinks.len(), count);
    let mut rest: Vec<&[i64]> = example.sources.iter().map(Vec::as_slice).collect();
    let mut values = vec![vec![]; count];
    loop {
        let stopped = stream.run().unwrap();
        for (sink, values) in values.iter_mut().enumerate() {
            values.extend(stream.take(sink).unwrap());
        }
        match stopped {
            Stopped::Hungry { source } if rest[source].is_empty() => stream.finish(source).unwrap(),
            Stopped::Hungry { source } => {
                let many = block.min(rest[source].len());
                assert_eq!(stream.feed(source, &rest[source][..many]), Ok(many));
                rest[source] = &rest[source][many..];
            }
            Stopped::Full { .. } => {}
            Stopped::Done => break,
        }
    }
    (0..count).map(|sink| stream.start(sink).unwrap()).zip(values).collect()
}

/// Whether the sinks got what is stored. One that joined now got as many values of the sink that it
/// is a child of, the first of its graph, from where it joined.
fn assert_stored(example: &Example, got: &[Sink]) {
    for ((start, values), (least, wanted)) in got.iter().zip(&example.sinks) {
        match (start, least) {
            (Some(start), Some(least)) => {
                assert!(start >= least);
                let from = *start as usize;
                assert_eq!(values[..], example.sinks[0].1[from..from + wanted.len()]);
            }
            _ => assert_eq!((start, values), (least, wanted)),
        }
    }
}

#[test]
fn a_graph_that_is_fed_gives_what_is_stored() {
    for example in examples() {
        for block in BLOCKS {
            assert_stored(&example, &fed(&example, block));
        }
    }
}

#[test]
fn four_threads_have_a_stream_each() {
    let examples = examples();
    thread::scope(|threads| {
        for block in [1, 7, 64, usize::MAX] {
            let examples = &examples;
            threads.spawn(move || {
                for example in examples {
                    assert_stored(example, &fed(example, block));
                }
            });
        }
    });
}

#[test]
fn a_stream_goes_from_thread_to_thread() {
    let mut stream = Stream::new(PASS).unwrap();
    for sample in [8, 9] {
        stream = thread::spawn(move || {
            assert_eq!(stream.feed(0, &[sample]), Ok(1));
            assert_eq!(stream.run(), Ok(Stopped::Hungry { source: 0 }));
            stream
        })
        .join()
        .unwrap();
    }
    assert_eq!(stream.take(0).unwrap(), [8, 9]);
}

/// A phaser with bound 4 lets its source be four phases ahead of a sink that is full.
#[test]
fn rooms_are_told() {
    let mut stream = Stream::new(PASS).unwrap();
    let samples: Vec<i64> = (0..10_000).collect();
    let mut fed = 0;
    for took in [4_096, 0] {
        assert_eq!(stream.feed(0, &samples[fed..]), Ok(took));
        fed += took;
    }
    for took in [4_096, 4, 0] {
        assert_eq!(stream.run(), Ok(Stopped::Full { sink: 0 }));
        assert_eq!(stream.feed(0, &samples[fed..]), Ok(took));
        fed += took;
    }
    let mut places = vec![-1; 5_000];
    assert_eq!(stream.take_into(0, &mut places[..4_095]), Err(Error::Room { count: 4_096 }));
    assert_eq!(places, [-1; 5_000]);
    assert_eq!(stream.take_into(0, &mut places), Ok(4_096));
    assert_eq!(places[..4_096], samples[..4_096]);
    assert_eq!(places[4_096..], [-1; 904]);
}

#[test]
fn a_source_that_is_finished_takes_nothing() {
    let mut stream = Stream::new(SUM).unwrap();
    assert_eq!(stream.feed(1, &[1, 2]), Ok(2));
    stream.finish(1).unwrap();
    assert_eq!(stream.feed(1, &[3]), Ok(0));
    assert_eq!(stream.run(), Ok(Stopped::Hungry { source: 0 }));
    assert_eq!(stream.take(0).unwrap(), []);
    assert_eq!(stream.feed(0, &[10, 20, 30]), Ok(3));
    assert_eq!(stream.run(), Ok(Stopped::Hungry { source: 0 }));
    assert_eq!(stream.take(0).unwrap(), [11, 22, 30]);
    stream.finish(0).unwrap();
    for _ in 0..2 {
        assert_eq!(stream.run(), Ok(Stopped::Done));
    }
}

#[test]
fn a_value_out_of_range_is_told_again() {
    let mut stream = Stream::new(SUM).unwrap();
    assert_eq!(stream.feed(0, &[1, i64::MAX]), Ok(2));
    assert_eq!(stream.feed(1, &[1]), Ok(1));
    // Both have signalled all that they were fed, and the first is told.
    assert_eq!(stream.run(), Ok(Stopped::Hungry { source: 0 }));
    assert_eq!(stream.feed(1, &[1]), Ok(1));
    for _ in 0..2 {
        let why = stream.run().unwrap_err();
        assert_eq!(why, Error::TooBig { place: Place::Phaser(0), at: 1 });
        assert_eq!(why.to_string(), "too big at phaser 0 1");
    }
    assert_eq!(stream.feed(1, &[1]), Ok(0));
    assert_eq!(stream.take(0).unwrap(), [2]);
}

/// The filter f takes every second sample, and g each, so that f wants samples further ahead of g
/// than the bounds allow.
#[test]
fn a_graph_that_stands_still_is_told() {
    let graph = "phaser x sum 1\nphaser a sum 1\nphaser b sum 1\nphaser y sum 1\n\
                 source s s.csv -> x\nsplit d x -> a b\nfir f a -> y shift 0 taps 1\n\
                 fir g x -> y shift 0 taps 1\nsink out y\n";
    let mut stream = Stream::new(graph).unwrap();
    assert_eq!(stream.feed(0, &[1, 2, 3, 4, 5, 6, 7]), Ok(7));
    for _ in 0..2 {
        assert_eq!(stream.run(), Err(Error::Stalled));
    }
    stream.finish(0).unwrap();
    assert_eq!(stream.run(), Err(Error::Stalled));
    let values = stream.take(0).unwrap();
    assert!(!values.is_empty() && [2, 5, 8, 11].starts_with(&values), "{values:?}");
}

#[test]
fn misuse_is_refused() {
    let mut stream = Stream::new(SUM).unwrap();
    for source in [2, usize::MAX] {
        assert_eq!(stream.feed(source, &[1]), Err(Error::NoSource { source }));
        assert_eq!(stream.finish(source), Err(Error::NoSource { source }));
    }
    for sink in [1, usize::MAX] {
        assert_eq!(stream.take(sink), Err(Error::NoSink { sink }));
        assert_eq!(stream.take_into(sink, &mut [0]), Err(Error::NoSink { sink }));
        assert_eq!(stream.start(sink), Err(Error::NoSink { sink }));
    }
    let samples = [1, i64::MIN, i64::MIN];
    assert_eq!(stream.feed(1, &samples), Err(Error::Sample { source: 1, at: 1 }));
    assert_eq!(stream.feed(1, &[]), Ok(0));
    assert_eq!(stream.run(), Ok(Stopped::Hungry { source: 0 }));
    for (why, text) in [
        (Error::NoSource { source: 2 }, "the graph has no source 2"),
        (Error::NoSink { sink: 1 }, "the graph has no sink 1"),
        (Error::Room { count: 3 }, "too few places for 3 values"),
        (Error::Stalled, "stalled"),
    ] {
        assert_eq!(why.to_string(), text);
    }
}

#[test]
fn a_text_is_refused() {
    let why = Stream::new("phaser x sum 4\nsource s s.csv -> z\n").unwrap_err();
    assert_eq!(why, Error::Graph { line: 2, kind: FaultKind::Unknown });
    let why = Stream::new(SUM.replace("sum", "any")).unwrap_err();
    assert_eq!(why, Error::Graph { line: 3, kind: FaultKind::AnyMeets });
    let mut none = Stream::new("").unwrap();
    assert_eq!(none.run(), Ok(Stopped::Done));
    assert_eq!(none.feed(0, &[]), Err(Error::NoSource { source: 0 }));
}
