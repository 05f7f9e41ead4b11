//! What the journals show.

use super::*;
use crate::replay::Replay;
use crate::samples::Random;

/// Lines and answers of a part.
fn answers(part: fn(&mut List)) -> Vec<(String, String)> {
    let mut list = List::default();
    part(&mut list);
    let mut replay = Replay::default();
    let text = String::from_utf8(list.text).unwrap();
    let answer = |line: &str| (line.to_string(), replay.answer(line.as_bytes()));
    text.lines().map(answer).collect()
}

/// The last lines of the outgrown journals, with the beginning of each answer.
#[test]
fn the_journal_that_is_kept() {
    let due = "J 1 0 -> 0 02, J 1 127 -> 0 01, J 1 128 -> ?, Z 1 65537 5 -> ?, \
        Z 1 65536 5 -> 0 128 01, Q 1 -> 0 128 32 16 0 16 0 0 0, V 1 -> 0 0 1 5, \
        Z 0 65535 5 -> 0 127 01, Q 0 -> 0 127 32 16 0 16 0 0 0, J 0 127 -> ?, D 0 127 -> 0, \
        K 0 -> 0 1 0 1 0, K 0 -> 21, J 0 127 -> 0 01, S 0 -> 0 01, J 0 0 -> ?, J 0 127 -> ?, \
        Z 0 0 5 -> ?, Z 0 65536 5 -> ?, D 1 128 -> 0, J 1 127 -> 0 01, K 1 -> 0 0, J 1 127 -> ?, \
        Z 1 65536 5 -> ?, Q 1 -> 0 129, M 0 1 0 5 -> 2, Z 0 0 5 -> ?, M 0 2 0 5 -> 0, J 0 0 -> ?, \
        S 0 -> 0 01, J 0 0 -> 0 01, Z 0 512 5 -> 0 1 01, Y 1 2 2 5  -> 2, J 1 0 -> ?, \
        Y 1 2 1 5  -> 0 0 00, J 1 0 -> ?, Z 1 0 5 -> 0 0 00, Q 1 -> 0 0";
    let due: Vec<&str> = due.split(", ").collect();
    let found = answers(outgrown);
    let last = &found[found.len() - due.len()..];
    for ((line, answer), due) in last.iter().zip(due) {
        let (call, start) = due.split_once(" -> ").unwrap();
        assert_eq!(line, call);
        assert!(answer.starts_with(start), "{line}: {answer}");
    }
}

/// Restarts that commit each number of blocks, and a block given back and none of each.
#[test]
fn journals_of_any_bytes() {
    let mut seen = [[0; 2]; 5];
    for (_, answer) in answers(journals::all)
        .iter()
        .filter(|(l, _)| l.starts_with('Y'))
    {
        let fields: Vec<&str> = answer.split(' ').collect();
        let count: usize = fields[1].parse().unwrap();
        seen[count][usize::from(fields[2] != "0".repeat(1024))] += 1;
    }
    assert_eq!(seen[0][1], 0);
    assert!(seen[0][0] > 5, "{seen:?}");
    assert!(seen[1..].iter().flatten().all(|&n| n > 0), "{seen:?}");
    let lengths = (0..500).map(|seed| journals::journal(&mut Random::new(seed), 2).len());
    assert!(lengths.max().unwrap() <= MAX_JOURNAL);
}
