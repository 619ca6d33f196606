//! The scripts of `examples/replay` by a phaser of Rust, beside the replies that are stored there.
use phase::{Got, Mode, Operation, Phaser, PhaserError, Single};
use std::{collections::HashMap, fs, path::Path};

/// What a script has left so far: its phaser with the operation, the sends that each task holds,
/// and the greatest number of a task.
#[derive(Default)]
pub struct Script {
    pub phaser: Option<(Phaser, Operation)>,
    pub held: HashMap<u64, Vec<i64>>,
    greatest: u64,
}

/// The name of a refusal, as a reply has it.
pub fn word_of(why: PhaserError) -> String {
    let mut word = String::new();
    for letter in format!("{why:?}").chars() {
        if letter.is_uppercase() && !word.is_empty() {
            word.push('-');
        }
        word.push(letter.to_ascii_lowercase());
    }
    word
}

/// The word for a value, or for none under this operation.
pub fn value_word(value: Option<i64>, operation: Operation) -> String {
    match (value, operation) {
        (Some(value), _) => value.to_string(),
        (None, Operation::Sum | Operation::Product) => "toobig".into(),
        (None, _) => "empty".into(),
    }
}

/// The number that a word is.
pub fn number<T: std::str::FromStr>(word: &str) -> T {
    word.parse().ok().expect("a number of a script")
}

fn operation_of(word: &str) -> Operation {
    match word {
        "sum" => Operation::Sum,
        "product" => Operation::Product,
        "least" => Operation::Least,
        "greatest" => Operation::Greatest,
        other => {
            assert_eq!(other, "any");
            Operation::Any
        }
    }
}

fn mode_of(word: &str) -> Mode {
    match word {
        "sig" => Mode::Sig,
        "wait" => Mode::Wait,
        "sigwait" => Mode::SigWait,
        other => {
            assert_eq!(other, "single");
            Mode::Single
        }
    }
}

fn single_of(words: &[&str]) -> Option<Single> {
    match words {
        [] => None,
        ["neg"] => Some(Single::Neg),
        ["abs"] => Some(Single::Abs),
        ["halve"] => Some(Single::Halve),
        ["clamp", low, high] => Some(Single::Clamp { low: number(low), high: number(high) }),
        other => panic!("{other:?} is no single"),
    }
}

fn got_text(got: Got, operation: Operation) -> String {
    match got {
        Got::Ended => "ended".into(),
        Got::Value { phase, value: Some(value) } => format!("value {phase} {value}"),
        Got::Value { phase, value: None } => format!("{} {phase}", value_word(None, operation)),
    }
}

impl Script {
    /// The reply to a line of the grammar, or `None` where no call has what it says: a second
    /// phaser, and a number for a child that is not the next.
    pub fn reply(&mut self, line: &str) -> Option<String> {
        let words: Vec<&str> = line.split(' ').collect();
        let answer = match words.as_slice() {
            ["make", operation, bound, phases] => {
                if self.phaser.is_some() {
                    return None;
                }
                self.make(operation_of(operation), number(bound), number(phases))
            }
            ["add", _, child, _] | ["now", _, child]
                if number::<u64>(child) != self.greatest + 1 =>
            {
                return None;
            }
            _ => self.of_phaser(words.as_slice())?,
        };
        Some(answer.unwrap_or_else(|why| format!("no {}", word_of(why))))
    }

    fn make(
        &mut self,
        operation: Operation,
        bound: u64,
        phases: u64,
    ) -> Result<String, PhaserError> {
        self.phaser = Some((Phaser::new(operation, bound, phases)?, operation));
        Ok("ok".into())
    }

    fn of_phaser(&mut self, words: &[&str]) -> Option<Result<String, PhaserError>> {
        let (phaser, operation) = self.phaser.as_mut()?;
        let ok = "ok".to_string();
        Some(match words {
            ["add", parent, child, mode] => {
                phaser.register(number(parent), mode_of(mode)).map(|task| {
                    assert_eq!(task, number(child));
                    self.greatest = task;
                    ok
                })
            }
            ["now", parent, child] => phaser.register_now(number(parent)).map(|(task, phase)| {
                assert_eq!(task, number(child));
                self.greatest = task;
                format!("ok {phase}")
            }),
            // Sends stay here until the task signals.
            ["send", task, value] => match phaser.view(number(task)).map(|it| it.mode) {
                None => Err(PhaserError::NoTask),
                Some(Mode::Wait) => Err(PhaserError::NoSignal),
                Some(_) => {
                    self.held.entry(number(task)).or_default().push(number(value));
                    Ok(ok)
                }
            },
            ["signal", task, single @ ..] => {
                let held = self.held.entry(number(task)).or_default();
                phaser.signal(number(task), held, single_of(single)).map(|phase| {
                    held.clear();
                    format!("ok {phase}")
                })
            }
            ["wait", task] => phaser.wait(number(task)).map(|got| got_text(got, *operation)),
            ["drop", task] => phaser.drop_task(number(task)).map(|()| ok),
            _ => return None,
        })
    }
}

/// Replays each script that `is_wanted`, by its lines, and counts the replies that are as stored
/// and those that `reply` leaves out. A line that is none of the grammar is not asked for.
pub fn replay(
    is_wanted: fn(&str) -> bool,
    reply: fn(&mut Script, &str) -> Option<String>,
) -> (usize, usize) {
    let folder = Path::new(env!("CARGO_MANIFEST_DIR")).join("../../../examples/replay");
    let (mut as_stored, mut left_out) = (0, 0);
    for entry in fs::read_dir(folder).unwrap() {
        let stored = entry.unwrap().path();
        if stored.extension().is_none_or(|it| it != "stdout") {
            continue;
        }
        let lines = fs::read_to_string(stored.with_extension("")).unwrap();
        if !is_wanted(&lines) {
            continue;
        }
        let mut script = Script::default();
        let replies = fs::read_to_string(&stored).unwrap();
        assert_eq!(lines.lines().count(), replies.lines().count());
        for (number, (line, wanted)) in (1..).zip(lines.lines().zip(replies.lines())) {
            if wanted == "bad line" {
                continue;
            }
            match reply(&mut script, line) {
                None => left_out += 1,
                Some(answer) => {
                    assert_eq!(answer, wanted, "{}: line {number}: {line}", stored.display());
                    as_stored += 1;
                }
            }
        }
    }
    (as_stored, left_out)
}

/// Whether a script has lines of blocks.
pub fn has_blocks(lines: &str) -> bool {
    lines.lines().any(|it| it.starts_with("block ") || it.starts_with("take "))
}

#[test]
fn scripts_get_their_stored_replies() {
    let (as_stored, left_out) = replay(|lines| !has_blocks(lines), Script::reply);
    assert!(as_stored > 20 * left_out, "{as_stored} as stored, {left_out} left out");
}
