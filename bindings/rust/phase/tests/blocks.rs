//! Blocks of phases: scripts beside their stored replies, and the edges.
#[path = "replay.rs"]
mod replay;

use phase::{GotBlock, Mode, Operation, Phaser, PhaserError, Single};
use replay::{Script, has_blocks, number, value_word, word_of};

/// The reply to a `block` or a `take`, and to other lines as without blocks.
fn reply(script: &mut Script, line: &str) -> Option<String> {
    let words: Vec<&str> = line.split(' ').collect();
    let (phaser, operation) = match words[0] {
        "block" | "take" => script.phaser.as_mut()?,
        _ => return script.reply(line),
    };
    let task = number(words[1]);
    let answer = if words[0] == "take" {
        let mut values = vec![0; number(words[2])];
        phaser.wait_block(task, &mut values).map(|got| match got {
            GotBlock::Ended => "ended".to_string(),
            GotBlock::Values { phase, count } => {
                let words = values[..count].iter().map(|it| {
                    format!(" {}", value_word((*it != i64::MIN).then_some(*it), *operation))
                });
                format!("values {phase}{}", words.collect::<String>())
            }
        })
    } else if script.held.get(&task).is_some_and(|it| !it.is_empty()) {
        return Some("no held".into());
    } else {
        let values: Vec<i64> = words[2..].iter().map(|it| number(it)).collect();
        phaser.signal_block(task, &values, None).map(|phase| format!("ok {phase}"))
    };
    Some(answer.unwrap_or_else(|why| format!("no {}", word_of(why))))
}

#[test]
fn scripts_with_blocks_get_their_stored_replies() {
    let (as_stored, left_out) = replay::replay(has_blocks, reply);
    assert!(as_stored > 0 && left_out == 0, "{as_stored} as stored, {left_out} left out");
}

/// A signaller and a waiter at this bound, numbers 1 and 2.
fn pair(operation: Operation, bound: u64, phases: u64) -> Phaser {
    let mut phaser = Phaser::new(operation, bound, phases).unwrap();
    assert_eq!(phaser.register(0, Mode::Sig), Ok(1));
    assert_eq!(phaser.register(0, Mode::Wait), Ok(2));
    phaser.drop_task(0).unwrap();
    phaser
}

fn values(phase: u64, count: usize) -> Result<GotBlock, PhaserError> {
    Ok(GotBlock::Values { phase, count })
}

#[test]
fn blocks_are_refused() {
    let mut phaser = pair(Operation::Sum, 3, 4);
    let mut out = [77; 4];
    assert_eq!(phaser.signal_block(1, &[], None), Err(PhaserError::BadBlock));
    assert_eq!(phaser.signal_block(1, &[1, 2, 3, 4], None), Err(PhaserError::BadBlock));
    assert_eq!(phaser.signal_block(1, &vec![1; 65_537], None), Err(PhaserError::BadBlock));
    assert_eq!(phaser.signal_block(1, &[1, i64::MIN], None), Err(PhaserError::BadValue));
    assert_eq!(phaser.signal_block(2, &[1], None), Err(PhaserError::NoSignal));
    assert_eq!(phaser.signal_block(9, &[1], None), Err(PhaserError::NoTask));
    assert_eq!(phaser.signal_block(1, &[1], Some(Single::Neg)), Err(PhaserError::NotSingle));
    let clamp = Single::Clamp { low: 1, high: 0 };
    assert_eq!(phaser.signal_block(1, &[1], Some(clamp)), Err(PhaserError::BadSingle));
    assert_eq!(phaser.wait_block(2, &mut []), Err(PhaserError::BadBlock));
    assert_eq!(phaser.wait_block(2, &mut out), Err(PhaserError::BadBlock));
    assert_eq!(phaser.wait_block(1, &mut out[..1]), Err(PhaserError::NoWait));
    assert_eq!(phaser.wait_block(9, &mut out[..1]), Err(PhaserError::NoTask));
    assert_eq!(phaser.wait_block(2, &mut out[..1]), Err(PhaserError::NotYet));
    assert_eq!(phaser.signal_block(1, &[1, 2, 3], None), Ok(0));
    assert_eq!(phaser.signal_block(1, &[4], None), Err(PhaserError::Ahead));
    assert_eq!(out, [77; 4]);
    assert_eq!(phaser.wait_block(2, &mut out[..2]), values(0, 2));
    assert_eq!(out, [1, 2, 77, 77]);
    assert_eq!(phaser.signal_block(1, &[4, 5], None), Err(PhaserError::Spent));
    assert_eq!(phaser.signal_block(1, &[4], None), Ok(3));
    assert_eq!(phaser.wait_block(2, &mut out[1..]), values(2, 2));
    assert_eq!(out, [1, 3, 4, 77]);
    phaser.drop_task(1).unwrap();
    assert_eq!(phaser.wait_block(2, &mut out[..3]), Ok(GotBlock::Ended));
    assert_eq!(out, [1, 3, 4, 77]);
}

/// A task that waits too signals one phase at a time, and may name a single.
#[test]
fn blocks_of_one() {
    let mut phaser = Phaser::new(Operation::Sum, 2, 100).unwrap();
    let mut out = [0; 2];
    assert_eq!(phaser.wait_block(0, &mut out), Err(PhaserError::SignalFirst));
    assert_eq!(phaser.signal_block(0, &[1, 2], None), Err(PhaserError::SignalTwice));
    assert_eq!(phaser.signal_block(0, &[-5], Some(Single::Halve)), Ok(0));
    assert_eq!(phaser.wait_block(0, &mut out), values(0, 1));
    assert_eq!(out, [-3, 0]);
    let clamp = Single::Clamp { low: -3, high: 3 };
    assert_eq!(phaser.signal_block(0, &[5], Some(clamp)), Ok(1));
    assert_eq!(phaser.wait_block(0, &mut out), values(1, 1));
    assert_eq!(out, [3, 0]);
}

#[test]
fn a_phase_without_a_value() {
    let mut phaser = pair(Operation::Product, 65_536, 1 << 62);
    let other = phaser.register(1, Mode::Sig).unwrap();
    let most = vec![i64::MAX; 65_536];
    assert_eq!(phaser.signal_block(1, &most, None), Ok(0));
    assert_eq!(phaser.signal_block(other, &[1, 2], None), Ok(0));
    let mut out = most;
    assert_eq!(phaser.wait_block(2, &mut out), values(0, 2));
    assert_eq!(out[..3], [i64::MAX, i64::MIN, i64::MAX]);
}
