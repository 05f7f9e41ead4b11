//! The answers of the writes.

use super::*;
use crate::replay::Replay;

#[test]
fn the_order_of_a_write() {
    let mut list = List::default();
    writes(&mut list);
    let mut replay = Replay::default();
    let text = String::from_utf8(list.lines()).unwrap();
    let answers = text
        .split('\n')
        .map(|line| (line, replay.answer(line.as_bytes())));
    let late = answers.skip_while(|(line, _)| *line != "K 1");
    // A block's digits are left out.
    let shown = late.map(|(line, answer)| match line.starts_with(['S', 'V']) {
        true => answer[..1].to_string(),
        false => answer,
    });
    let due = "0 0 1 0 0, 0 4, 7, 7, 0 0 2 1 0, 0, 8, 10, 0, 9, 3, 0 1 2 4 3 0 0 1 0, 0, 0 0, 0 5, 8, 9, 3, \
        0, 8, 9, 3, 0 1 2 5 2 0 0 3 0, 0, 0 1 4 1 0, 21, 9, 3, 0 2 3 5 0 1 0 4 0, 0";
    assert_eq!(shown.collect::<Vec<_>>().join(", "), due);
}

/// All of the stored list: how often a write meets an item that is both, and aborts.
#[test]
fn stale_and_held() {
    let text = String::from_utf8_lossy(&crate::workload::calls()).into_owned();
    let mut replay = Replay::default();
    let mut met = 0;
    for line in text.split('\n') {
        let held = match line.split(' ').collect::<Vec<_>>()[..] {
            ["W", place, _, item, _] => place.parse().ok().is_some_and(|place| {
                let open = replay.replica(place).into_iter().flat_map(|r| &r.open);
                let holds = |item| open.clone().any(|t| t.writes.contains_key(&item));
                item.parse().is_ok_and(holds)
            }),
            _ => false,
        };
        met += i32::from(replay.answer(line.as_bytes()) == "9" && held);
    }
    assert!(met > 10, "{met}");
}
